#!/usr/bin/env python3
"""Shows that the states of a job can't be used against their order: tests/not_compile/check.py

Each edit beside this file adds a function to `crates/mode_states` that must not compile: it switches one missed job
twice, runs a released job again after a missed checkpoint, or lets go of a released job without running it. An edit
names the error that the check has to give (`error:`), the file (`file:`) and the lines that it adds at its end
(`add:`). They stand there for the time of one check, and the file is put back as it was. The answer is 1 where an edit
compiles or is refused for another reason. It isn't a part of the gate, whose edits have to reach the prover; these are
refused before that. With the crates' kept work an edit takes some seconds.
"""
import pathlib
import subprocess
import sys

HERE = pathlib.Path(__file__).resolve().parent
CRATE = HERE.parent.parent / "crates" / "mode_states"


def read(edit):
    """The error that is wanted, the file, and the lines to add."""
    fields = [line.partition(": ") for line in edit.read_text().splitlines()]
    error = next(value for name, _, value in fields if name == "error")
    file = next(value for name, _, value in fields if name == "file")
    return error, file, [value for name, _, value in fields if name == "add"]


def refused(edit):
    """Whether the check refuses the edit with its error; what it said."""
    error, file, lines = read(edit)
    source = CRATE / file
    before = source.read_text()
    source.write_text(before + "\n" + "\n".join(lines) + "\n")
    try:
        command = ["rt", "check", "--jobs", "1"]
        said = subprocess.run(command, cwd=CRATE, text=True, stdout=subprocess.PIPE, stderr=subprocess.STDOUT)
    finally:
        source.write_text(before)
    return said.returncode != 0 and f"error[{error}]" in said.stdout, said.stdout


def main():
    wrong = 0
    for edit in sorted(HERE.glob("*.edit")):
        right, said = refused(edit)
        print(f"{edit.stem}: {'refused' if right else 'NOT REFUSED AS IT SHOULD BE'}")
        if not right:
            wrong += 1
            print(said, file=sys.stderr)
    return 1 if wrong else 0


if __name__ == "__main__":
    sys.exit(main())
