"""Asks the server questions about values, without naming tables, in one read-only psql."""

import json
import subprocess
import uuid
from collections.abc import Sequence

from pgshard_tools.judging.database import Database
from pgshard_tools.judging.faults import NO_ANSWER, Fault, Undecided
from pgshard_tools.judging.meanings import Meanings
from pgshard_tools.judging.server_types import collation_sql, quoted

# For texts in UTF8, psql omits noncharacters of Unicode and invalid UTF8. If it is told that they are bytes, it prints
# them completely.
SETUP = r"""
\set QUIET on
\set ON_ERROR_STOP off
\set ECHO none
\timing off
\pset pager off
\pset expanded off
\pset format unaligned
\pset recordsep '\n'
\pset tuples_only on
SET default_transaction_read_only = on;
SET search_path = pg_catalog;
SELECT CASE WHEN current_setting('server_encoding') IN ('UTF8', 'SQL_ASCII') THEN 'SQL_ASCII' ELSE 'UTF8' END AS encoding \gset
SET client_encoding = :'encoding';
\unset encoding
SET standard_conforming_strings = on;
SET timezone = 'UTC';
SET datestyle = 'ISO, YMD';
SET intervalstyle = 'postgres';
SET bytea_output = 'hex';
SET extra_float_digits = 1;
SET lock_timeout = '5s';
SET statement_timeout = '{milliseconds}ms';
"""

LOST = "the connection to the server is lost"


class Session:
    """A psql that is started with the first question. The server cancels a question after some seconds."""

    def __init__(self, words: Sequence[str], seconds: float = 60) -> None:
        self.words = words
        self.seconds = seconds
        self.process: "subprocess.Popen[str] | None" = None
        self.known_meanings: Meanings | None = None

    def meanings(self, db: Database) -> Meanings:
        """Returns what the server reports about the calls in its filters, which is asked only once."""
        if self.known_meanings is None:
            self.known_meanings = Meanings(self, db)
        return self.known_meanings

    def ask(self, query: str) -> str:
        """Returns the answer to a query, or '' if it fails."""
        try:
            return self.answered(query)
        except BrokenPipeError as fault:
            raise Fault(NO_ANSWER, LOST) from fault

    def ask_for(self, seconds: int, query: str) -> str:
        """Returns the answer to a query that has its own time limit."""
        return self.ask(f"BEGIN; SET LOCAL statement_timeout = '{seconds}s'; {query}; COMMIT")

    def answered(self, query: str) -> str:
        """Returns the same, from a psql that is started if there is none."""
        process = self.process or self.started()
        assert process.stdin is not None and process.stdout is not None
        end = f"end {uuid.uuid4()}"
        process.stdin.write(f"{query};\n\\echo\n\\echo '{end}'\n")
        process.stdin.flush()
        lines: list[str] = []
        for line in process.stdout:
            if line.rstrip("\n") == end:
                return "".join(lines).removesuffix("\n").removesuffix("\n")
            lines.append(line)
        raise Fault(NO_ANSWER, LOST)

    def started(self) -> "subprocess.Popen[str]":
        """Starts a psql with its settings."""
        self.process = subprocess.Popen(
            ["psql", "-X", "-q", *self.words], stdin=subprocess.PIPE, stdout=subprocess.PIPE,
            stderr=subprocess.DEVNULL, encoding="utf-8", errors="surrogateescape")
        assert self.process.stdin is not None
        self.process.stdin.write(self.setup())
        return self.process

    def setup(self) -> str:
        """Returns the settings, including the time limit of a question."""
        return SETUP.replace("{milliseconds}", str(max(1, int(self.seconds * 1000))))

    def close(self) -> None:
        """Ends the psql, if there is one."""
        process, self.process = self.process, None
        if process is not None:
            assert process.stdin is not None and process.stdout is not None
            process.stdin.close()
            process.stdout.close()
            process.wait()

    def stop(self) -> None:
        """Ends the psql in the middle of a question. The next question starts another."""
        process, self.process = self.process, None
        if process is not None:
            process.kill()
            process.communicate()

    def sorted_texts(self, collation: str, texts: Sequence[str]) -> list[str]:
        """Returns texts in the order of a collation. The server distinguishes those that are equal under it by their
        bytes."""
        # A server with the encoding SQL_ASCII stores the bytes of a character, and knows no code point.
        listed = quoted(json.dumps(sorted(texts), ensure_ascii=False))
        name = collation_sql(collation)
        answer = self.ask(
            f"SELECT json_agg(x ORDER BY x COLLATE {name}) FROM json_array_elements_text({listed}) AS t (x)")
        if not answer:
            raise Undecided(f"the server does not order the constants of its filters by the collation {name}")
        found: list[str] = json.loads(answer)
        return found
