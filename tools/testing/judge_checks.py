"""Tests what judge says of keywords as names, of files and programs that do not exist, and of tables that it cannot
decide."""

import pathlib
import tempfile

from catalog_checks import NOTE
from programs import judge
from server import Server
from tally import Tally

# A program that answers as pgshard does if the first of two tables has a certificate and the second one's answer is
# this line.
UNDECIDED = """\
#!/bin/sh
case $1 in
    make) printf '%s\\n' 'o 0' '{line}' ;;
    check) echo 'refused CertCount' ;;
esac
exit 1
"""

UNDECIDED_WORDS = {
    "unknown public.u":
        "pgshard found neither a proof that its rows are divided nor a row that shows a fault; split the table by one "
        "column, or say one filter as NOT of another",
    "too large public.u":
        "it exceeds a limit of pgshard: 1,000,000 nodes of a certificate, or 64 splits on a path of one; split the "
        "table by fewer columns, or by ranges of one",
}


def check_keywords(tally: Tally, server: Server) -> None:
    """Tests all keywords of the server as names of columns, and some as names of schemas, tables and publications."""
    words = server.psql("postgres", "SELECT quote_ident(word) FROM pg_get_keywords() ORDER BY word;").split("\n")
    tables = [words[at:at + 50] for at in range(0, len(words), 50)]
    statements = []
    for schema, table, key, one, other, *more in tables:
        some = [schema, table, key, one, other, *more]
        columns = ", ".join(f"{word} integer" for word in some)
        all_five = " AND ".join(f"{word} = 5" for word in some)
        statements.append(f"CREATE SCHEMA {schema};")
        statements.append(f"CREATE TABLE {schema}.{table} ({columns}, PRIMARY KEY ({key}));")
        statements.append(f"ALTER TABLE {schema}.{table} REPLICA IDENTITY FULL;")
        statements.append(f"CREATE PUBLICATION {one} FOR TABLE {schema}.{table} WHERE ({all_five});")
        statements.append(f"CREATE PUBLICATION {other} FOR TABLE {schema}.{table} WHERE (({all_five}) IS NOT TRUE);")
    server.create("keywords", "\n".join(statements))
    ending = f"{NOTE}tables: {len(tables)} judged, {len(tables)} sound\nstatus 0\n"
    tally.check("what judge says of keywords", judge(*server.words("keywords"))[-len(ending):], ending)


def check_no_server(tally: Tally) -> None:
    """Tests judge on a new folder, in which no server listens."""
    with tempfile.TemporaryDirectory() as folder:
        tally.check("a server that is not there", judge("-h", folder).split("\n")[-3:], [
            "judge: psql ended with status 2, so nothing is judged", "status 4", ""])


def check_files(tally: Tally) -> None:
    """Tests inputs that yield no judgement: a file or a program that does not exist."""
    with tempfile.TemporaryDirectory() as folder:
        file = pathlib.Path(folder) / "catalog.sql"
        file.write_bytes(b"CREATE SCHEMA \"\xe9\";")
        tally.check("a file that is not UTF-8", judge(str(file)).split("\n")[-2], "status 2")
        file.write_text("CREATE TABLE t (id integer PRIMARY KEY);\n%%\n")
        tally.check("a file of two parts", judge(str(file)).split("\n")[-2], "status 3")
        file.write_text("CREATE TABLE t (id integer PRIMARY KEY);")
        no_program = f"{folder}/none"
        tally.check("a program that is not there", judge(str(file), program=no_program).split("\n")[-2], "status 5")
        tally.check("a program that fails", judge(str(file), program="/bin/false").split("\n")[-2], "status 5")
        tally.check("a table that no publication carries", judge(str(file)), "\n".join([
            "public.t: NOT SOUND: the row (0) goes to no subscriber",
            "    no filter names a column",
            "tables: 1 judged, 0 sound",
            "status 1", ""]))


def check_undecided(tally: Tally) -> None:
    """Tests what judge says of a table for which `make` finds neither a certificate nor a row."""
    with tempfile.TemporaryDirectory() as folder:
        catalog, program = pathlib.Path(folder) / "catalog.sql", pathlib.Path(folder) / "program"
        catalog.write_text(
            "CREATE TABLE t (id integer PRIMARY KEY); CREATE TABLE u (id integer PRIMARY KEY);\n"
            "CREATE PUBLICATION p FOR ALL TABLES; CREATE SUBSCRIPTION s CONNECTION '' PUBLICATION p;\n")
        for line, because in UNDECIDED_WORDS.items():
            program.write_text(UNDECIDED.format(line=line))
            program.chmod(0o700)
            found = judge(str(catalog), program=str(program))
            tally.check(f"what judge says where make says {line}", found, "\n".join([
                "public.t: sound",
                f"public.u: not decided: {because}",
                "tables: 2 judged, 1 sound",
                "status 1", ""]))
