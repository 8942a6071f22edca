"""Databases with tables that are repaired and tables that are not, with what is printed about them."""

from dataclasses import dataclass, field


@dataclass
class Repaired:
    """A database with a table `t`, judge's arguments, the statements of its repair, and rows to fill it with. If there
    is no repair, `why` is the line that says so."""

    name: str
    setup: str
    statements: list[str] = field(default_factory=list)
    rows: str = ""
    words: list[str] = field(default_factory=list)
    why: str = ""
    # The subscribers, if not each publication is a subscriber of its own.
    takers: dict[str, list[str]] = field(default_factory=dict)


T = "CREATE TABLE t (id integer PRIMARY KEY, region integer); ALTER TABLE t REPLICA IDENTITY FULL;\n"
ROWS = "SELECT n, nullif(n % 23, 7) FROM generate_series(-200, 200) AS n"

REPAIRED = [
    Repaired("rest", T + "CREATE PUBLICATION p FOR TABLE t WHERE (region < 5);", [
        "CREATE PUBLICATION t_rest FOR TABLE public.t WHERE (region >= 5 OR region IS NULL);"], ROWS),
    # The new publication's name is taken by a publication of another table.
    Repaired("name_taken", T + """
        CREATE TABLE u (id integer PRIMARY KEY);
        CREATE PUBLICATION t_rest FOR TABLE u;
        CREATE PUBLICATION p FOR TABLE t WHERE (region IS NOT NULL);
    """, ["CREATE PUBLICATION t_rest_2 FOR TABLE public.t WHERE (region IS NULL);"], ROWS),
    # Three publications have the same rows. The second one has other tables too, which stay unchanged.
    Repaired("three", T + """
        CREATE TABLE u (id integer PRIMARY KEY);
        CREATE PUBLICATION p FOR TABLE t WHERE (id < 50);
        CREATE PUBLICATION q FOR TABLE t WHERE (id BETWEEN 0 AND 99), u WHERE (id < 5);
        CREATE PUBLICATION r FOR TABLE t WHERE (id >= 40);
    """, ["BEGIN;", "ALTER PUBLICATION q DROP TABLE public.t;",
          "ALTER PUBLICATION q ADD TABLE public.t WHERE (id BETWEEN 50 AND 99);",
          "ALTER PUBLICATION r SET TABLE public.t WHERE (id >= 100);", "COMMIT;"], ROWS),
    Repaired("kept", T + """
        CREATE PUBLICATION p FOR TABLE t WHERE (id < 50);
        CREATE PUBLICATION q FOR TABLE t WHERE (id >= 0);
    """, ["ALTER PUBLICATION p SET TABLE public.t WHERE (id < 0);"], ROWS, ["--keep", "q"]),
    # A publication without a filter keeps its rows, and a subscriber that is left without any rows loses the table.
    Repaired("everything", T + """
        CREATE PUBLICATION a FOR TABLE t WHERE (id < 50);
        CREATE PUBLICATION b FOR ALL TABLES;
    """, ["ALTER PUBLICATION a DROP TABLE public.t;"], ROWS),
    Repaired("whole", T + """
        CREATE PUBLICATION p FOR TABLE t WHERE (region < 5);
        CREATE PUBLICATION q FOR TABLE t;
    """, ["ALTER PUBLICATION q SET TABLE public.t WHERE (region >= 5 OR region IS NULL);"], ROWS),
    # Quoted names, and column lists.
    Repaired("columns", """
        CREATE TABLE t (id integer, "Region" integer, note text, PRIMARY KEY (id, "Region"));
        CREATE PUBLICATION "P" FOR TABLE t (id, "Region") WHERE ("Region" < 9);
        CREATE PUBLICATION q FOR TABLE t (id, "Region") WHERE ("Region" BETWEEN 5 AND 20);
    """, ["BEGIN;", 'CREATE PUBLICATION t_rest FOR TABLE public.t (id, "Region") WHERE ("Region" >= 21);',
          'ALTER PUBLICATION q SET TABLE public.t (id, "Region") WHERE ("Region" BETWEEN 9 AND 20);', "COMMIT;"],
        "SELECT n, n % 23, 'x' FROM generate_series(-200, 200) AS n"),
    # Each of a subscriber's several publications loses the rows.
    Repaired("several", T + """
        CREATE PUBLICATION a FOR TABLE t WHERE (id < 0);
        CREATE PUBLICATION b FOR TABLE t WHERE (id > 50);
        CREATE PUBLICATION c FOR TABLE t WHERE (id BETWEEN -10 AND 60);
    """, ["BEGIN;",
          "ALTER PUBLICATION a SET TABLE public.t WHERE (((id < 0)) AND "
          "(((id >= '-10'::integer) AND (id <= 60))) IS NOT TRUE);",
          "ALTER PUBLICATION b SET TABLE public.t WHERE (((id > 50)) AND "
          "(((id >= '-10'::integer) AND (id <= 60))) IS NOT TRUE);", "COMMIT;"], ROWS,
        ["-v", "subscriptions=one=a,b two=c", "--keep", "two"], takers={"one": ["a", "b"], "two": ["c"]}),
    # Many regions are expressed by the existing filters.
    Repaired("long", f"""{T}
        CREATE PUBLICATION p FOR TABLE t;
        CREATE PUBLICATION q FOR TABLE t WHERE (id < 0 AND region < 3 OR {' OR '.join(
            f'id BETWEEN {n} AND {n + 4} AND region = {n % 7}' for n in range(0, 100, 10))});
    """, ["ALTER PUBLICATION q DROP TABLE public.t;"], ROWS),
    Repaired("part", T + """
        CREATE PUBLICATION p FOR TABLE t WHERE (id < 5);
        CREATE PUBLICATION q FOR TABLE t WHERE (id BETWEEN 0 AND 9);
    """, ["ALTER PUBLICATION q SET TABLE public.t WHERE (id BETWEEN 5 AND 9);"], ROWS, ["--partial", "t"]),
    # Tables that are not repaired, and the reasons.
    Repaired("fine", T + "CREATE PUBLICATION p FOR TABLE t;", ["-- public.t: sound, so there is nothing to repair"]),
    Repaired("shared", T + "CREATE PUBLICATION p FOR TABLE t; CREATE PUBLICATION q FOR TABLE t WHERE (id < 5);",
             words=["-v", "subscriptions=a=p b=p,q"],
             why="b would have to lose rows, but publication p is taken by b and a, and each needs one of its own; "
                 "use --keep b to leave them there"),
    Repaired("two_of_all", T + "CREATE PUBLICATION p FOR ALL TABLES; CREATE PUBLICATION q FOR TABLES IN SCHEMA public;",
             why="q would have to lose rows, but publication q is FOR TABLES IN SCHEMA, which has no filters; FOR "
                 "TABLE allows them; use --keep q to leave them there"),
    Repaired("identity", """
        CREATE TABLE t (id integer PRIMARY KEY, region integer);
        CREATE PUBLICATION p FOR TABLE t WHERE (region < 5);
    """, why="with the repair it would be refused: the server refuses updates and deletes, since the filters of "
             "publications p and t_rest name column region, which is not in the replica identity; ALTER TABLE public.t "
             "REPLICA IDENTITY FULL mends that; if rows are only ever inserted, append-only = [\"public.t\"] in a file "
             "of --intent allows it; do one of these first, or filter by the columns of the identity"),
    # No subscriber may fail that did not fail before.
    Repaired("failing", """
        CREATE TABLE t (id integer PRIMARY KEY, a integer NOT NULL, b integer NOT NULL);
        ALTER TABLE t REPLICA IDENTITY FULL;
        CREATE PUBLICATION p FOR TABLE t WHERE (a < 5 AND a + b > 3);
        CREATE PUBLICATION q FOR TABLE t WHERE (a < 5 AND b < 3);
    """, why="with the repair a row with a = -2147483648, b = -2147483648 stops the replication of p, q, t_rest: the "
             "filter fails; a CHECK constraint that keeps such rows out, or filters that do not fail, come first"),
    Repaired("failing_before", """
        CREATE TABLE t (id integer PRIMARY KEY, a integer NOT NULL CHECK (a BETWEEN -1000 AND 1000),
                        b integer NOT NULL CHECK (b BETWEEN -1000 AND 1000));
        ALTER TABLE t REPLICA IDENTITY FULL;
        CREATE PUBLICATION p FOR TABLE t WHERE (a < 5 AND a + b > 3);
        CREATE PUBLICATION q FOR TABLE t WHERE (a < 5 AND b < 3);
    """, ["BEGIN;", "CREATE PUBLICATION t_rest FOR TABLE public.t WHERE ((a < 5 AND a + b < 4 AND b >= 3) OR a >= 5);",
          "ALTER PUBLICATION q SET TABLE public.t WHERE (a < 5 AND a + b < 4 AND b < 3);", "COMMIT;"],
        "SELECT a * 50 + b, a, b FROM generate_series(-9, 9) AS a, generate_series(-9, 9) AS b"),
    Repaired("copied", T + "CREATE PUBLICATION p FOR TABLE t WHERE (id < 5);", words=["--copied", "t"],
             why="each subscriber is to get each row of it, so each needs a publication of it without a filter"),
]
