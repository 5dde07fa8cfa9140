"""The programs and scripts under test, and a stand-in for rt.

The scripts ask rt each time whether all is still proved, which takes half a second, and proving a changed source takes minutes. So most tests put a
stand-in for rt first on PATH. It logs how it was called, and in which crate's folder, and does what the test has it do."""
import os
import shutil
import subprocess
import tempfile
import unittest
from pathlib import Path

ROOT = Path(__file__).resolve().parents[2]
RUN = ROOT / "routines" / "run"
EXAMPLE = ROOT / "examples" / "run"
BENCH = ROOT / "target" / "bin" / "bench"
ROUTINE = ROOT / "target" / "routine"
ARCHIVE = ROOT / "target" / "staticlib" / "libcapi.a"
WRONG_USE = 64


def build():
    """Builds all that the scripts run, with rt itself."""
    for program in "bench", "replay", "why":
        subprocess.run([ROOT / "routines" / "prove", program], check=True)
    subprocess.run([EXAMPLE], check=True, stdout=subprocess.DEVNULL)


def bench(text):
    """What the bench program prints for a text."""
    return subprocess.run([BENCH], input=text, capture_output=True, check=True).stdout


class ScriptTest(unittest.TestCase):
    """A test with a folder of its own, and a stand-in for rt that finds everything unchanged."""

    def setUp(self):
        folder = tempfile.TemporaryDirectory()
        self.addCleanup(folder.cleanup)
        self.folder = Path(folder.name).resolve()
        self.calls = self.folder / "calls"
        self.path = self.folder / "path"
        self.path.mkdir()
        self.here = self.folder / "the caller's folder"
        self.here.mkdir()
        self.stand_in("")

    def stand_in(self, script):
        """Has the stand-in for rt do this, after it has logged its call."""
        rt = self.path / "rt"
        rt.write_text(f'#!/bin/sh\necho "$* in ${{PWD##*/}}" >> "{self.calls}"\n{script}\n')
        rt.chmod(0o755)

    def rt_calls(self):
        """How rt was called since this was asked last."""
        calls = self.calls.read_text().splitlines() if self.calls.exists() else []
        self.calls.unlink(missing_ok=True)
        return calls

    def call(self, *command, text=b"", **variables):
        """Runs a command in the caller's folder with the stand-in for rt."""
        path = f"{self.path}:{os.environ['PATH']}"
        return subprocess.run(command, cwd=self.here, env={**os.environ, "PATH": path, **variables}, input=text, capture_output=True)

    def write(self, name, contents):
        """Writes a file in the caller's folder; without contents there is none."""
        file = self.here / name
        if contents is None:
            file.unlink(missing_ok=True)
        else:
            file.write_bytes(contents)

    def assert_answers(self, answer, *command, **variables):
        """The command prints this and nothing else."""
        done = self.call(*command, **variables)
        self.assertEqual((done.stdout, done.stderr, done.returncode), (answer, b"", 0), command)

    def assert_refuses(self, status, *command):
        """The command prints one line, on standard error, and nothing was built."""
        done = self.call(*command)
        self.assertEqual((done.stdout, done.returncode), (b"", status), command)
        self.assertEqual(done.stderr.count(b"\n"), 1, done.stderr)
        self.assertEqual(self.rt_calls(), [], command)


def copy_scripts(to):
    """Copies the scripts and what they read, and of the crates that are built the folders alone: no source that is proved."""
    for name in "routines", "examples", "include", "tools":
        shutil.copytree(ROOT / name, to / name)
    for program in "bench", "replay", "why":
        for folder in "src", "out":
            (to / "crates" / program / folder).mkdir(parents=True)
        (to / "crates" / program / "src" / "main.rt").touch()
    for library in "capi/out/rlib", "capi_c/src", "capi_c/out":
        (to / "crates" / library).mkdir(parents=True)
    (to / "crates.txt").touch()
