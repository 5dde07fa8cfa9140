"""Routines as a C compiler has them: many in one program, run natively, with every word of memory at the end.

The compiler gets the routine's own text. Macros make malloc and sizeof count words, and give each routine names of its own.
Local variables without an initialiser get a zero, since all memory of the machine starts as 0.
"""

import array
import subprocess

COMPILER = ["gcc", "-m32", "-std=gnu11", "-fwrapv", "-fno-strict-aliasing", "-w"]

HEAD = """
#include <stdint.h>
#include <stdio.h>
#include <stdlib.h>
#include <string.h>

static unsigned *native_blocks[256], native_lengths[256], native_count;

static void *native_malloc(unsigned words) {
    if (words == 0) return 0;
    native_blocks[native_count] = calloc(words, 4);
    native_lengths[native_count] = words;
    return native_blocks[native_count++];
}

static void *native_register(unsigned words, const unsigned *from) {
    unsigned *block = native_malloc(words);
    for (unsigned i = 0; i < words; i++) block[i] = from[i];
    return block;
}

static void native_write(const unsigned *words, unsigned count) {
    fwrite(words, 4, count, stdout);
}

/* The count of objects, then of each its address, its length and its words: the variables, then the blocks. */
static void native_show(unsigned variables, unsigned **places) {
    unsigned objects = variables + native_count;
    native_write(&objects, 1);
    for (unsigned i = 0; i < objects; i++) {
        unsigned *words = i < variables ? places[i] : native_blocks[i - variables];
        unsigned head[2] = {(unsigned)words, i < variables ? 1 : native_lengths[i - variables]};
        native_write(head, 2);
        native_write(words, head[1]);
    }
    for (unsigned i = 0; i < native_count; i++) free(native_blocks[i]);
    native_count = 0;
    fflush(stdout);
}

#define malloc(words) native_malloc(words)
#define sizeof(what) ((unsigned)(sizeof(what) / 4))
"""


def own_names(routine):
    """The names that two routines of one program could both have."""
    names = {variable.name for variable in routine.memory.variables}
    return sorted(names | {record.tag for record in routine.records} | {routine.name})


def caller(routine, number):
    """A function that hands in inputs and registers, and calls the routine."""
    lines, given = [], dict(routine.inputs)
    for place, (variable, words) in enumerate(routine.registers):
        lines.append(f'static const unsigned native_words{place}[] = {{{", ".join(f"{word}u" for word in words + [0])}}};')
        lines.append(f"void *native_start{place} = native_register({len(words)}, native_words{place});")
        given[variable] = f"native_start{place}"
    inner = [variable for _, variable in routine.parameters]
    lines += [f"{variable.name} = {start};" for variable, start in given.items() if variable not in inner]
    lines.append(f'{routine.name}({", ".join(str(given.get(variable, 0)) for variable in inner)});')
    return f"static void native_call{number}(void) {{\n" + "\n".join(lines) + "\n}\n"


def unit(routine, number):
    names = own_names(routine)
    places = ", ".join(f"(unsigned *)&{variable.name}" for variable in routine.memory.variables)
    show = f"    unsigned *native_places[] = {{{places}}};\n    native_show({len(routine.memory.variables)}, native_places);\n}}\n"
    return "".join(
        [
            *(f"#define {name} {name}_{number}\n" for name in names),
            routine.text(native=True),
            "\n",
            show,
            caller(routine, number),
            *(f"#undef {name}\n" for name in names),
        ]
    )


def program(routines):
    calls = "".join(f"    native_call{number}();\n" for number in range(len(routines)))
    units = "".join(unit(routine, number) for number, routine in enumerate(routines))
    return HEAD + units + f"int main(void) {{\n{calls}    return 0;\n}}\n"


def run(routines, folder, level):
    """For each routine its objects, each a pair of address and words. A program that stopped has answers for the first few."""
    source, binary = folder / "routines.c", folder / "routines"
    source.write_text(program(routines))
    compiled = subprocess.run([*COMPILER, level, "-o", str(binary), str(source)], capture_output=True, text=True)
    if compiled.returncode:
        raise RuntimeError("gcc: " + "\n".join(compiled.stderr.splitlines()[:20]))
    output = subprocess.run([str(binary)], stdout=subprocess.PIPE).stdout
    return answers(array.array("I", output[: len(output) // 4 * 4]))


def answers(words):
    found, at = [], 0
    while at < len(words):
        objects, count = [], words[at]
        at += 1
        for _ in range(count):
            address, length = words[at], words[at + 1]
            objects.append((address, words[at + 2 : at + 2 + length]))
            at += 2 + length
        found.append(objects)
    return found


def missing():
    """What is not there for native runs, or None."""
    try:
        tried = subprocess.run(
            [*COMPILER, "-x", "c", "-o", "/dev/null", "-"],
            input="#include <stdio.h>\nint main(void) { return 0; }\n",
            capture_output=True,
            text=True,
        )
    except FileNotFoundError:
        return "gcc"
    return "gcc -m32 (gcc-multilib)" if tried.returncode else None
