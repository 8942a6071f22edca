"""For each table of a database, prints catalogs with its filters and rows as judge rewrites them, in JSON.

It is run by a Python that has pglast, with the arguments with which psql connects.
"""

import json
import pathlib
import sys

sys.dont_write_bytecode = True
sys.path.insert(0, str(pathlib.Path(__file__).resolve().parent.parent.parent))

from pgshard_tools.judging import catalogs, database, facts, formulas, laws, printing
from pgshard_tools.judging.faults import Unread
from pgshard_tools.judging.rewriting import rewritten
from pgshard_tools.judging.session import Session
from pgshard_tools.judging.terms import Reader

# Filters per catalog: together they may have at most 64 conditions.
FILTERS = 4


def main(words):
    db = database.read_database(words)
    session = Session(words)
    found = [catalog for table in db.tables for catalog in catalogs_of(db, table, session)]
    session.close()
    print(json.dumps(found))


def catalogs_of(db, table, session):
    reader = Reader(table["columns"], session.meanings(db), [table["oid"]])
    having = {name: it for name, it in db.publications.items() if db.entry(it, table["oid"])}
    entries = {name: db.filter_of(it, table["oid"]) for name, it in having.items()}
    names = [name for name in entries if is_read(reader, entries[name])]
    for begin in range(0, len(names), FILTERS):
        part = names[begin:begin + FILTERS]
        read = [reader.formula(entries[name]) for name in part]
        known = laws.laws_of(read, reader.nulls)
        coded = rewritten([*read, *known], set(), session.sorted_texts)
        held = {f"fact_{place}": fact for place, fact in enumerate([
            *coded.formulas[len(read):], *facts.facts_of(coded, set())])}
        yield {
            "table": table["name"],
            "catalog": catalog_text(table, coded, part, held),
            "facts": {name: printing.text_of(fact) for name, fact in held.items()},
            "rows": rows_of(table, coded, session),
            "filters": {name: entries[name] for name in part},
            "has_null": [name for name, formula in zip(part, read) if formulas.has_null(formula)],
        }


def is_read(reader, text):
    try:
        return reader.formula(text) is not None
    except Unread as fault:
        print(f"not read: {text}: {fault.form} {fault.advice}", file=sys.stderr)
        return False


def catalog_text(table, coded, names, held):
    name = catalogs.table_name(table)
    lines = [catalogs.table_text(name, coded.codings)]
    lines += [f"CREATE PUBLICATION {it} FOR TABLE {name} WHERE ({printing.text_of(formula)});"
              for it, formula in [*zip(names, coded.formulas), *held.items()]]
    return "\n".join(lines) + "\n"


def rows_of(table, coded, session):
    texts = ", ".join(f"CASE WHEN ({it}) IS NOT NULL THEN format('%s', {it}) END" for it in (
        coding.subject.sql for coding in coded.codings))
    answer = session.ask(
        f"SELECT json_agg(json_build_array({texts}) ORDER BY row_number) FROM {table['quoted']}")
    if not answer:
        raise SystemExit(f"the server does not say {texts}")
    rows = []
    for number, listed in enumerate(json.loads(answer)):
        values = ["NULL" if text is None else it.encoded(text) for it, text in zip(coded.codings, listed)]
        rows.append(f"({', '.join([str(number), *values])})")
    return rows


if __name__ == "__main__":
    main(sys.argv[1:])
