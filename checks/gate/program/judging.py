"""Runs a built program on files of which each byte is known. Each case is a subtest of the part that tries it."""
import contextlib
import tempfile
from typing import Any

import common

USAGE = common.USAGE


class Held:
    """The part that is tried now: its test, the program that it is about, and whether the first case that fails ends it."""

    test: Any = None
    program: Any = None
    ends = False


def run(words, files):
    """Runs the program on these words, in a folder of these files."""
    with tempfile.TemporaryDirectory() as folder:
        for name, data in files.items():
            with open(f"{folder}/{name}", "wb") as file:
                file.write(data)
        ran = common.run(Held.program, *words, folder=folder, limit=600)
    return ran


def case_of(title):
    return contextlib.nullcontext() if Held.ends else Held.test.subTest(title)


def judge(title, wanted, words, told=lambda out: out, **files):
    """Runs the program on these words and files; wanted is its status, what is told of its output, and what it says on the
    error output."""
    with case_of(title):
        status, out, said = wanted
        ran = run(words, files)
        if (ran.status, told(ran.out), ran.err) != wanted:
            given = {name: data[:200] for name, data in files.items()}
            Held.test.fail(f"{title}: {ran.status} {ran.out[:500]} {ran.err}, wanted {status} {out[:500]} {said}, of {given}")


def fail(title, said):
    with case_of(title):
        Held.test.fail(said)


def hold(test, program):
    """The cases that come are of this test and program."""
    Held.test, Held.program = test, program


def drawn(test, program, examples, tried):
    """Tries what is drawn, and tells whether it was by seeds: by hypothesis the first case that fails ends an example, which is
    then made smaller."""
    hold(test, program)
    Held.ends = common.SHRINKS
    try:
        return common.each_drawn(examples, tried)
    finally:
        Held.ends = False


def parts(program, *tried):
    """Gives a class a test for each of these parts, of this program."""

    def test_of(part):
        def test(self):
            hold(self, program)
            part()

        test.__doc__ = part.__doc__
        return common.takes(common.seconds_of(part, part))(test)

    def given(case):
        for part in tried:
            setattr(case, f"test_{part.__name__}", test_of(part))
        return case

    return given
