"""Catalogs that several topics share, and a certificate."""

# Splits a table in two.
BASE = """\
CREATE TABLE t (id integer, region text, PRIMARY KEY (id));
ALTER TABLE t REPLICA IDENTITY FULL;
CREATE PUBLICATION pa FOR TABLE t WHERE (id < 100);
CREATE PUBLICATION pb FOR TABLE t WHERE (id >= 100);
"""

# The rows of a table go to three subscribers, by region.
REGIONS = """\
CREATE TABLE t (id integer, region text, PRIMARY KEY (id));
ALTER TABLE t REPLICA IDENTITY FULL;
CREATE PUBLICATION pa FOR TABLE t WHERE (region = 'eu');
CREATE PUBLICATION pb FOR TABLE t WHERE (region <> 'eu');
CREATE PUBLICATION pc FOR TABLE t WHERE (region IS NULL);
CREATE SUBSCRIPTION s0 CONNECTION '' PUBLICATION pa;
CREATE SUBSCRIPTION s1 CONNECTION '' PUBLICATION pb;
CREATE SUBSCRIPTION s2 CONNECTION '' PUBLICATION pc;
"""

# Halves of a table whose replica identity is a unique index; they are divided by the index's column.
INDEXED = """\
CREATE TABLE u (id integer, code text NOT NULL, note text, PRIMARY KEY (id));
CREATE UNIQUE INDEX u_code ON u (code);
ALTER TABLE u REPLICA IDENTITY USING INDEX u_code;
CREATE PUBLICATION pa FOR TABLE u WHERE (code = 'a');
CREATE PUBLICATION pb FOR TABLE u WHERE (code <> 'a');
CREATE SUBSCRIPTION s0 CONNECTION '' PUBLICATION pa;
CREATE SUBSCRIPTION s1 CONNECTION '' PUBLICATION pb;
"""

# A certificate for two halves that two conditions on one column define.
C = "s 0 s 1 e 0 o 0 n 1 s 1 o 1 e 0 n 1 n 0\n"


def halves(first: str, second: str, others: str = "region text") -> str:
    """Splits a table with a key and other columns in two, by two conditions, each with its own subscriber."""
    return f"""\
CREATE TABLE t (id integer, {others}, PRIMARY KEY (id));
ALTER TABLE t REPLICA IDENTITY FULL;
CREATE PUBLICATION pa FOR TABLE t{first};
CREATE PUBLICATION pb FOR TABLE t{second};
CREATE SUBSCRIPTION s0 CONNECTION '' PUBLICATION pa;
CREATE SUBSCRIPTION s1 CONNECTION '' PUBLICATION pb;
"""
