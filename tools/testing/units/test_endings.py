"""Tests how judge ends if something fails: no status says that a table is not sound."""

import contextlib
import io
import json
import unittest
from unittest import mock

from pgshard_tools.judging import command, starting
from pgshard_tools.judging.faults import BAD_COMMAND, NO_ANSWER, NO_OUTPUT, NO_PROGRAM, NOT_READ, Fault
from pgshard_tools.judging.monitoring import UNKNOWN
from pgshard_tools.judging.outputs import NoOutput

# What may be raised while judge runs, its status, and the reason that is printed.
ENDINGS: list[tuple[Exception, int, str]] = [
    (Fault(BAD_COMMAND, "words"), BAD_COMMAND, "words"),
    (Fault(NOT_READ, "words"), NOT_READ, "words"),
    (Fault(NO_ANSWER, "words"), NO_ANSWER, "words"),
    (MemoryError(), NO_PROGRAM, "out of memory"),
    (ImportError("no module"), NO_PROGRAM, "a module of judge cannot be loaded: no module"),
    (OSError(12, "Cannot allocate memory"), NO_PROGRAM, "judge cannot continue: [Errno 12] Cannot allocate memory"),
    (BrokenPipeError(32, "Broken pipe"), NO_PROGRAM, "judge cannot continue: [Errno 32] Broken pipe"),
    (KeyError("unforeseen"), NO_PROGRAM, "judge itself fails, at the place that is printed on standard error"),
    (AssertionError(), NO_PROGRAM, "judge itself fails, at the place that is printed on standard error"),
]


class Kept(io.BytesIO):
    """An output that can be read after the run."""

    def close(self) -> None:
        pass


def run(fault: BaseException, *words: str) -> tuple[int, str, str]:
    """Runs judge, in which this is raised. Returns its status, output and standard error."""
    output, told = Kept(), io.StringIO()
    with contextlib.redirect_stdout(io.TextIOWrapper(output, "utf-8")), contextlib.redirect_stderr(told):
        with mock.patch.object(command, "judge", side_effect=fault), mock.patch("os.dup2"):
            status = command.run(words)
    return status, output.getvalue().decode(), told.getvalue()


class Endings(unittest.TestCase):
    def test_lines(self) -> None:
        for fault, status, words in ENDINGS:
            with self.subTest(fault):
                found, output, told = run(fault)
                line = (output if status == NOT_READ else told).splitlines()[-1].removeprefix("judge: ")
                self.assertEqual((found, line), (status, words))
                self.assertEqual("Traceback" in told, "itself" in words)

    def test_json(self) -> None:
        for fault, status, words in ENDINGS:
            with self.subTest(fault):
                found, output, _ = run(fault, "--json")
                self.assertEqual((found, json.loads(output)), (status, {"status": status, "error": words}))

    def test_a_plugin(self) -> None:
        for fault, _, words in ENDINGS:
            with self.subTest(fault):
                self.assertEqual(run(fault, "--nagios")[:2], (UNKNOWN, f"PGSHARD UNKNOWN - {words}\n"))

    def test_an_output_that_cannot_be_written(self) -> None:
        for words, status in ((), NO_OUTPUT), (("--json",), NO_OUTPUT), (("--nagios",), UNKNOWN):
            with self.subTest(words):
                self.assertEqual(run(NoOutput("the output was closed"), *words), (
                    status, "", "judge: the output was closed\n"))

    def test_an_interrupt(self) -> None:
        with self.assertRaises(KeyboardInterrupt):
            run(KeyboardInterrupt())


class Starting(unittest.TestCase):
    def test_modules_that_cannot_be_loaded(self) -> None:
        for fault, words in ((MemoryError(), "out of memory"),
                             (ImportError("gone"), "a module of judge cannot be loaded: gone")):
            for option, status, line in (("--all", NO_PROGRAM, f"judge: {words}\n"),
                                         ("--nagios", UNKNOWN, f"PGSHARD UNKNOWN - {words}\n")):
                told = io.StringIO()
                with self.subTest(line), contextlib.redirect_stdout(told), contextlib.redirect_stderr(told):
                    with mock.patch("builtins.__import__", side_effect=fault), mock.patch("sys.argv", ["judge", option]):
                        found = starting.main()
                    self.assertEqual((found, told.getvalue()), (status, line))


if __name__ == "__main__":
    unittest.main()
