"""Routines as the workbench has them: translated to tables, and run by the proved machine."""

import sys
from dataclasses import replace

import judge

SPARE = 8  # words of memory more than a routine needs, so that a translation that allocates too much is seen to do so


class Refused(Exception):
    """The translator refused a routine, or fell over it."""


class Workbench:
    def __init__(self, root):
        """root is the folder with the package workbench: that of the repository, or a copy with a planted mistake."""
        sys.path.insert(0, str(root))
        from workbench.errors import Faulty
        from workbench.machine import Call, Machine
        from workbench.translate import translate

        self.faulty, self.call_of, self.translate = Faulty, Call, translate
        self.machine = Machine()
        self.machine.built = True  # comparing.build has done that

    def run(self, routines):
        """For each routine the layout of its memory and the machine's answers, in its own edition and in the other one; or a Refused."""
        results = [self.called(routine) for routine in routines]
        calls = [call for result in results if not isinstance(result, Refused) for call in result[1:]]
        answers = iter(self.machine.explain(calls))
        return [result if isinstance(result, Refused) else (result[0], next(answers), next(answers)) for result in results]

    def called(self, routine):
        try:
            translated = self.translate("routine.c", routine.for_translation(), routine.edition)
            order, table = list(translated.names.variables), translated.table
            layout, call = self.call(routine, table.words(), order)
            return layout, call, replace(call, table=replace(table, edition=3 - routine.edition).words())
        except self.faulty as fault:
            return Refused(f"refused: {fault}")
        except Exception as fault:  # a mistake in the translator is a difference like any other
            return Refused(f"the translator fell over: {type(fault).__name__}: {fault}")

    def call(self, routine, table, order):
        numbers = {variable: order.index(variable.name) for variable in routine.memory.variables}
        inputs = [0] * len(order)
        for variable, number in routine.inputs.items():
            inputs[numbers[variable]] = number
        registers = [len(routine.registers)]
        for variable, words in routine.registers:
            registers += [numbers[variable], len(words), *words]
        starts, unused = judge.layout(routine, numbers)
        return (starts, unused), self.call_of(table=table, memory=unused + SPARE, inputs=inputs, registers=registers)
