"""Tests what catalog.sql prints of databases, and what pgshard and judge answer for it, against a server."""

import pathlib
import shlex
import tempfile

import forms
import rows
from comparison import Comparison
from programs import catalog_of, judge, pgshard, without_subscriptions
from pythons import python_with
from server import Server
from tally import Tally

CASES = pathlib.Path(__file__).resolve().parent / "cases"

# What judge prints for a server if no subscriptions are named, and if some are.
NOTE = "each publication counts as a subscriber of its own; -v subscriptions='..' names others\n"
TOLD = "the subscribers are those of -v subscriptions\n"


def check_filters(tally: Tally, server: Server) -> None:
    """Tests each form of filter: its text in the catalog, and its value on 10,000 rows."""
    comparison = Comparison(server, "forms", forms.FORMS)
    comparison.check_texts(tally)
    comparison.check_values(tally, list(rows.rows(10_000)))


def check_unread(tally: Tally, server: Server) -> None:
    """Tests each form that pgshard refuses, in a catalog of its own."""
    server.create("refused", f"CREATE TABLE refused ({forms.COLUMNS});")
    for form in forms.REFUSED:
        server.psql("refused", f"""
            SET client_min_messages = error;
            DROP PUBLICATION IF EXISTS p;
            CREATE PUBLICATION p FOR TABLE refused WHERE ({form.filter});
        """)
        catalog = catalog_of(server, "refused")
        entry = f"TABLE public.refused WHERE ({form.printed});"
        tally.check(f"the text of {form.filter}", entry if entry in catalog else catalog, entry)
        status, output = pgshard("make", text=catalog)
        _, place, kind = output.split()
        there = catalog.encode()[int(place):].decode()
        found = status, kind, there[:len(form.there)]
        tally.check(f"how {form.filter} is refused", found, (3, form.kind, form.there))


def check_cases(tally: Tally, server: Server) -> None:
    """Tests the databases of testing/cases: the catalog that is printed of each, and what judge says of the database
    and of the printed catalog, if that differs. The expected texts are written by hand."""
    with_judge = python_with("pglast") is not None
    if not with_judge:
        print("skipped: what judge says of these servers, since pglast is not installed (apt-get install python3-pglast)")
    for path in sorted(CASES.glob("*.txt")):
        setup, catalog, judged, *of_text = path.read_text(encoding="utf-8").split("%%\n")
        words = shlex.split(setup.splitlines()[0].removeprefix("-- words:")) if setup.startswith("-- words:") else []
        server.create(path.stem, setup)
        printed = catalog_of(server, path.stem, *words)
        tally.check(f"{path.name}: the catalog", printed, catalog)
        check_second(tally, server, path, printed)
        if with_judge:
            tally.check(f"{path.name}: what judge says", judge(*server.words(path.stem), *words), judged)
        with tempfile.NamedTemporaryFile("w", suffix=".sql", encoding="utf-8") as file:
            file.write(printed)
            file.flush()
            expected = of_text[0] if of_text else judged.replace(NOTE, "").replace(TOLD, "")
            tally.check(f"{path.name}: what judge says of its text", judge(file.name), expected)


def check_second(tally: Tally, server: Server, path: pathlib.Path, catalog: str) -> None:
    """Checks that a database created from a printed catalog has that catalog again, except that columns of other types
    are text."""
    second = f"{path.stem}_again"
    server.create(second, without_subscriptions(catalog))
    tally.check(
        f"{path.name}: the second database",
        without_subscriptions(catalog_of(server, second)), without_subscriptions(without_comments(catalog)))


def without_comments(catalog: str) -> str:
    """Returns the catalog without tables that are not published, and without the types that are given in comments."""
    lines = [line for line in catalog.splitlines(keepends=True) if not line.startswith("-- not published: ")]
    for at, line in enumerate(lines):
        if line.startswith("    ") and " text /* " in line:
            before, after = line.split(" /* ", 1)
            lines[at] = before + after.split(" */", 1)[1]
    return "".join(lines)


def check_reader(tally: Tally, server: Server) -> None:
    """Checks that the script needs no privileges, assigns no transaction ID, and prints the same whatever output format
    psql is set to."""
    setup = (CASES / "names.txt").read_text(encoding="utf-8").split("%%\n")[0]
    server.create("reader", setup)
    server.psql("reader", """
        CREATE ROLE reader LOGIN;
        ALTER ROLE reader SET quote_all_identifiers = on;
        ALTER ROLE reader SET standard_conforming_strings = off;
        REVOKE ALL ON SCHEMA public FROM public;
    """)
    counting = "SELECT txid_snapshot_xmax(txid_current_snapshot());"
    before = server.psql("reader", counting)
    catalog = catalog_of(server, "reader")
    tally.check("a reader's catalog", catalog_of(server, "reader", "-U", "reader", "-x", "-H", "-R", ";"), catalog)
    tally.check("the number of the next transaction", server.psql("reader", counting), before)
