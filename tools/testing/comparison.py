"""Compares filters as people write them with filters as catalog.sql prints them, in two databases and in pgshard."""

import json

import forms
from programs import catalog_of, pgshard, without_subscriptions

# Each publication has a subscription of its own, and pgshard reads at most 32 subscriptions.
FORMS_A_TABLE = 30


class Comparison:
    """A database in which each form is the filter of a table in a publication, and a second database created from the
    catalog of the first."""

    def __init__(self, server, name, listed):
        self.server = server
        self.first, self.second = name, f"{name}_again"
        self.tables = [listed[at:at + FORMS_A_TABLE] for at in range(0, len(listed), FORMS_A_TABLE)]
        server.create(self.first, self.setup())
        self.catalog = catalog_of(server, self.first)
        server.create(self.second, without_subscriptions(self.catalog))
        # The text of each filter as the server prints it, by table and publication.
        self.texts = {database: self.texts_of(database) for database in (self.first, self.second)}

    def setup(self):
        statements = []
        for table in range(len(self.tables)):
            statements.append(f"CREATE TABLE forms{table} ({forms.COLUMNS});")
            statements.append(f"ALTER TABLE forms{table} REPLICA IDENTITY FULL;")
        for place in range(len(self.tables[0])):
            entries = ", ".join(
                f"TABLE forms{table} WHERE ({listed[place].filter})"
                for table, listed in enumerate(self.tables) if place < len(listed))
            statements.append(f"CREATE PUBLICATION p{place} FOR {entries};")
        return "\n".join(statements)

    def texts_of(self, database):
        return json.loads(self.server.psql(database, """
            SELECT json_object_agg(c.relname || ' ' || p.pubname, pg_get_expr(r.prqual, r.prrelid))
            FROM pg_publication_rel r
            JOIN pg_publication p ON p.oid = r.prpubid
            JOIN pg_class c ON c.oid = r.prrelid;
        """))

    def check_texts(self, tally):
        statements = self.catalog.split("CREATE PUBLICATION ")
        for table, listed in enumerate(self.tables):
            for place, form in enumerate(listed):
                statement = next(it for it in statements if it.startswith(f"p{place} "))
                entry = f"TABLE public.forms{table} WHERE ({form.printed})"
                tally.check(f"the text of {form.filter}", entry if entry in statement else statement, entry)
                first, second = (self.texts[it][f"forms{table} p{place}"] for it in (self.first, self.second))
                what = f"whether {form.filter} is the same in both databases, where it is {first} and {second}"
                tally.check(what, first == second, form.is_same)

    def check_values(self, tally, rows):
        self.fill(rows)
        for table, listed in enumerate(self.tables):
            first = self.server_values(self.first, table)
            second = self.server_values(self.second, table)
            for place, form in enumerate(listed):
                what = f"rows of which {form.filter} has another value in the second database"
                tally.check(what, unlike(first, second, place), [])
            status, output = pgshard("eval", f"forms{table}", text="\n".join([self.catalog + "%%", *rows, ""]))
            tally.check(f"pgshard reads table {table} of {self.first}", output[:200] if status else "", "")
            by_name = [dict(word.split("=") for word in line.split()) for line in output.splitlines()]
            ours = [[values.get(f"p{place}") for place in range(len(listed))] for values in by_name]
            for place, form in enumerate(listed):
                what = f"rows of which {form.filter} has another value by pgshard"
                tally.check(what, unlike(first, ours, place), [])

    def fill(self, rows):
        statements = [f"INSERT INTO forms0 VALUES {', '.join(rows)};"]
        for table in range(1, len(self.tables)):
            statements.append(f"INSERT INTO forms{table} SELECT * FROM forms0;")
        for database in self.first, self.second:
            self.server.psql(database, "\n".join(statements))

    def server_values(self, database, table):
        """Returns the value of each filter for each row, in order, as the server computes it in that database."""
        values = ", ".join(
            f"coalesce(({self.texts[database][f'forms{table} p{place}']})::text, 'null')"
            for place in range(len(self.tables[table])))
        lines = self.server.psql(database, f"SELECT concat_ws(' ', {values}) FROM forms{table} ORDER BY id;")
        return [line.split() for line in lines.split("\n")]


def unlike(some, others, place):
    """Returns the first rows for which the two lists differ in the value at a place."""
    if len(some) != len(others):
        return [f"{len(some)} rows and {len(others)}"]
    return [row for row, (one, other) in enumerate(zip(some, others)) if one[place] != other[place]][:5]
