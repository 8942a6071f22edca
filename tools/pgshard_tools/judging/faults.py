"""Exit statuses, and the exceptions that end a run or the reading of a filter."""

SOUND, NOT_SOUND, BAD_COMMAND, NOT_READ, NO_ANSWER, NO_PROGRAM, NO_OUTPUT = range(7)

# The exceptions in which an unforeseen form may end.
FAILURES = (ArithmeticError, AttributeError, LookupError, RecursionError, StopIteration, TypeError, ValueError)


class Fault(Exception):
    """An exit status, and the line to print."""

    def __init__(self, status: int, words: str) -> None:
        super().__init__(words)
        self.status = status
        self.words = words


class Undecided(Exception):
    """Why nothing is known about a table. The others are judged."""

    def __init__(self, words: str) -> None:
        super().__init__(words)
        self.words = words


class Unread(Exception):
    """A form of filter that is not read, and another way to write it, if one is known."""

    def __init__(self, form: str, advice: str = "") -> None:
        super().__init__(form)
        self.form = form
        self.advice = advice
