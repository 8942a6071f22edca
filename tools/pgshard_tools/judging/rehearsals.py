"""Runs a migration in a transaction that is rolled back, and asks the server questions in it."""

import contextlib
import json
import os
import re
import signal
import uuid
from collections.abc import Iterator, Sequence

from pgshard_tools.judging.database import FOLDER, Database
from pgshard_tools.judging.faults import BAD_COMMAND, NO_ANSWER, Fault
from pgshard_tools.judging.migrations import Statement, refused
from pgshard_tools.judging.session import LOST, SETUP, Session

# The SQLSTATEs of a statement that cannot run in a transaction, of a lock that is not granted in time, and of a
# timeout.
IN_TRANSACTION, LOCKED, CANCELLED = "25001", "55P03", "57014"

ROLLBACK = "ROLLBACK"
# No question may contain this, since it would commit the migration.
ENDS = re.compile(r";\s*(COMMIT|END)\s*;?\s*$", re.I)

PSQL = SETUP.partition("SET ")[0]
BEGIN = r"""
\encoding UTF8
BEGIN ISOLATION LEVEL READ COMMITTED READ WRITE;
"""
# Set before each statement, so that nothing in the file gives another statement more time. The results are of no
# interest.
LIMITS = "SET LOCAL lock_timeout = '1s';\nSET LOCAL statement_timeout = '{milliseconds}ms';\n"
RUN = "{limits}\\o /dev/null\nSELECT {text} \\gexec\n\\o\n\\echo\n\\echo '{end}' :ERROR :LAST_ERROR_SQLSTATE "
RUN += ":LAST_ERROR_MESSAGE\n\\echo '{end}'\n"
# A question that fails leaves the transaction as it was. From here on nothing can be written.
QUESTIONS = "\\set ON_ERROR_ROLLBACK on\nSET transaction_read_only = on;\n"


class Rehearsal(Session):
    """A psql with a single transaction. All questions are asked in it, and it ends with a rollback."""

    def __init__(self, words: Sequence[str], seconds: float) -> None:
        super().__init__(words, seconds)
        self.is_begun = False

    def setup(self) -> str:
        """Returns only psql's own settings: the statements must find those of the role."""
        if self.is_begun:
            # The transaction ended with its psql, and no other one has the same tables.
            raise Fault(NO_ANSWER, LOST)
        self.is_begun = True
        return PSQL

    def answered(self, query: str) -> str:
        """Returns the answer. If the time limit of a table expires meanwhile, that is reported only after the server
        has answered, for which it has a time limit of its own, so that the next question does not find the rest of this
        answer."""
        if ENDS.search(query):
            raise AssertionError(f"a question would end the transaction: {query}")
        with alarm_held():
            return super().answered(query)

    def ask_for(self, seconds: int, query: str) -> str:
        """Returns the answer of a query with its own time limit. The transaction continues: a COMMIT would keep the
        migration."""
        answer = self.ask(f"SET LOCAL statement_timeout = '{seconds}s'; {query}")
        self.ask(f"SET LOCAL statement_timeout = '{max(1, int(self.seconds * 1000))}ms'")
        return answer

    def stop(self) -> None:
        """Does nothing, since no question may be left without its answer."""

    def close(self) -> None:
        """Rolls everything back. If that is not answered, the server does so after psql has ended."""
        try:
            if self.process is not None:
                self.ask(ROLLBACK)
        except Fault:
            pass
        finally:
            super().close()

    def want_primary(self) -> None:
        """Ends the run on a hot standby."""
        answer = self.ask("SELECT pg_catalog.pg_is_in_recovery()")
        if answer != "f":
            raise Fault(BAD_COMMAND, "--with: the server is a hot standby, where no statement of a migration can run; "
                                     "use its primary" if answer == "t" else LOST)

    def run(self, statements: Sequence[Statement]) -> Database:
        """Runs the statements, and returns the database after them."""
        assert self.process is not None and self.process.stdin is not None
        self.process.stdin.write(BEGIN)
        for statement in statements:
            self.run_one(statement)
        if statements:
            self.run_one(Statement("SET CONSTRAINTS ALL IMMEDIATE", statements[-1].place))
        self.process.stdin.write(QUESTIONS)
        script = os.path.join(FOLDER, "reading.sql").replace("'", "''").replace("\\", "\\\\")
        printed = self.ask(f"\\set within\n\\i '{script}'\n\\set ON_ERROR_STOP off\n{super().setup()}")
        try:
            return Database(json.loads(printed))
        except ValueError as fault:
            raise Fault(NO_ANSWER, "psql does not answer with the catalog, so nothing is judged") from fault

    def run_one(self, statement: Statement) -> None:
        """Runs one statement; psql sends its text unchanged."""
        process = self.process
        assert process is not None and process.stdin is not None and process.stdout is not None
        end = f"end {uuid.uuid4()}"
        limits = LIMITS.format(milliseconds=max(1, int(self.seconds * 1000)))
        process.stdin.write(RUN.format(limits=limits, text=escaped(statement.text), end=end))
        process.stdin.flush()
        lines = []
        for line in process.stdout:
            if line.rstrip("\n") == end:
                break
            lines.append(line)
        else:
            raise Fault(NO_ANSWER, LOST)
        told = "".join(lines).rpartition(end)[2].split(maxsplit=2)
        if told[:1] != ["false"]:
            raise refused(statement.place, words_of(told[1], told[2].strip()))


def words_of(state: str, message: str) -> str:
    """Returns what the server says about a statement, and what to do."""
    if state == IN_TRANSACTION:
        return f"{message}; --with runs the file in one, which is rolled back, so try it without this statement"
    if state == LOCKED:
        return f"{message}: another session holds a lock on what it changes; try again"
    if state == CANCELLED:
        return f"{message}; --seconds gives it more"
    return message


def escaped(text: str) -> str:
    """Returns a constant for any text, whatever the string settings are."""
    doubled = text.replace("\\", "\\\\").replace("'", "''")
    return f"E'{doubled}'"


@contextlib.contextmanager
def alarm_held() -> Iterator[None]:
    """If the time limit expires in the block, raises that at its end."""
    before = signal.pthread_sigmask(signal.SIG_BLOCK, [signal.SIGALRM])
    try:
        yield
    finally:
        signal.pthread_sigmask(signal.SIG_SETMASK, before)
