"""Changes of the rows of a table, each of which a slot is told about: as a catalog and a script of `simulate`, as
statements
of a PostgreSQL server, and as the words of the program in limits/stream.rs. All three change the same rows.

A row is a number and a text. The numbers of rows that come one after the other are far apart. Each slot gets an equal
part of the numbers.
"""

from dataclasses import dataclass

# A prime above all numbers of rows: the number of a row is its place times this, divided by the number of all rows.
SPREAD = 2_654_435_761
# How many commands a transaction of `simulate` may have.
MOST_COMMANDS = 1_000


@dataclass(frozen=True)
class Load:
    """What is done with each of this many rows: insert, update or delete."""

    deed: str = "insert"
    identity: str = "DEFAULT"
    in_a_commit: int = 1_000
    slots: int = 1
    text: int = 8
    rows: int = 10_000
    before: int = 0
    tables: int = 1

    @property
    def first(self):
        """The place of the first row that is changed."""
        return self.there if self.deed == "insert" else 0

    @property
    def there(self):
        """How many rows there are before; those that are updated or deleted are among them."""
        return self.before if self.deed == "insert" else max(self.before, self.rows)

    @property
    def all_rows(self):
        return self.there + self.rows if self.deed == "insert" else self.there

    def key(self, place):
        return place * SPREAD % self.all_rows

    def words(self):
        """The words of the program of limits/, but for the phase."""
        return self.deed, self.identity, self.in_a_commit, self.slots, self.text, self.rows, self.before

    # ---- the catalog

    def condition(self, at):
        """Which rows a slot gets, the first one all below and the last one all above."""
        low, high = at * self.all_rows // self.slots, (at + 1) * self.all_rows // self.slots
        bounds = [f"id >= {low}"] * (at > 0) + [f"id < {high}"] * (at < self.slots - 1)
        return " AND ".join(bounds) or "TRUE"

    def table_lines(self):
        yield "CREATE TABLE t (id integer PRIMARY KEY, region text);"
        if self.identity == "FULL":
            yield "ALTER TABLE t REPLICA IDENTITY FULL;"
        for at in range(1, self.tables):
            yield f"CREATE TABLE t{at} (id integer PRIMARY KEY, region text);"

    def publication_lines(self):
        others = "".join(f", t{at}" for at in range(1, self.tables))
        for at in range(self.slots):
            yield f"CREATE PUBLICATION p{at} FOR TABLE t WHERE ({self.condition(at)}){others if at == 0 else ''};"

    def catalog(self):
        subscriptions = (f"CREATE SUBSCRIPTION s{at} CONNECTION '' PUBLICATION p{at};" for at in range(self.slots))
        return "".join(f"{line}\n" for line in [*self.table_lines(), *self.publication_lines(), *subscriptions])

    # ---- a script

    def command(self, deed, place):
        key = self.key(place)
        if deed == "insert":
            return f"INSERT t ({key}, '{'i' * self.text}')"
        return f"UPDATE t ({key}) ({key}, '{'u' * self.text}')" if deed == "update" else f"DELETE t ({key})"

    def commits(self, deed, first, count, size):
        """COMMIT of this many commands each."""
        for start in range(first, first + count, size):
            places = range(start, min(start + size, first + count))
            yield f"COMMIT {', '.join(self.command(deed, place) for place in places)};\n"

    def changes(self):
        return list(self.commits(self.deed, self.first, self.rows, self.in_a_commit))

    def prefix(self):
        """The rows that are there before, and one more, so that the log is never empty."""
        return ["COMMIT INSERT t (-1, 'first');\n", *self.commits("insert", 0, self.there, MOST_COMMANDS)]

    # ---- statements of a server

    def statement(self, deed):
        if deed == "insert":
            return f"INSERT INTO t VALUES (k, repeat('i', {self.text}))"
        return f"UPDATE t SET region = repeat('u', {self.text}) WHERE id = k" if deed == "update" else "DELETE FROM t WHERE id = k"

    def loop(self, deed, first, count, size):
        """A statement a row, each prepared once, and COMMIT after this many."""
        return (
            f"DO $$ DECLARE k integer; BEGIN FOR place IN {first}..{first + count - 1} LOOP "
            f"k := place::bigint * {SPREAD} % {self.all_rows}; {self.statement(deed)}; "
            f"IF (place + 1) % {size} = 0 THEN COMMIT; END IF; END LOOP; END $$;"
        )

    def change_loop(self, first, count):
        return self.loop(self.deed, self.first + first, count, self.in_a_commit)

    def prefix_loop(self):
        return self.loop("insert", 0, self.there, MOST_COMMANDS)
