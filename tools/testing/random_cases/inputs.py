"""Cases of inputs: each ASCII control character in each part, and inputs with a wrong number of parts, that are not
UTF-8, or that end too early."""

import random
from collections.abc import Callable

from model.catalogs import Catalog, Column, Publication, Subscription, Table
from model.certificates import check_lines
from model.worlds import World

from .case import Case, parts
from .catalog_texts import CatalogText
from .catalogs import CatalogMaker
from .row_texts import NO_TOKENS
from .scripts import ScriptMaker, ScriptText

CONTROLS = [*map(chr, range(32)), "\x7f"]
WHITE = "\t\n\r\f"

CATALOG = """\
CREATE TABLE t (id integer PRIMARY KEY, note text);
CREATE PUBLICATION p FOR TABLE t;
CREATE SUBSCRIPTION s CONNECTION '' PUBLICATION p;
"""
TABLE = Table("public", "t", (Column("id", "integer", False), Column("note", "text", False)), (0,))
AS_DATA = Catalog((TABLE,), (Publication("p", ((0, None),)),), (Subscription("s", (0,)),))
SCRIPT = "OPEN 0; COMMIT INSERT t (1, 'a'); PUMP 0; VIEW;\n"
LINES = [
    "opened", "commit 1", "at 0/80", "log 1", "public.t (1, 'a')", "s 0/80 1 confirmed 0/80", "s public.t (1, 'a')"]

Maker = Callable[[random.Random, str], Case]


def spaces_of(text: str) -> list[int]:
    """Returns the places of spaces between tokens in texts of this module."""
    return [at for at, letter in enumerate(text) if letter == " " and text[at - 1] != "'"]


def faulty(part: str, place: int) -> tuple[int, str]:
    """Returns the status and the line for a character that begins no token."""
    return 3, f"{part} {place} BadToken\n"


def in_catalog(chance: random.Random, control: str) -> Case:
    """A character replaces a space of a catalog."""
    at = chance.choice(spaces_of(CATALOG))
    text = CATALOG[:at] + control + CATALOG[at + 1:]
    status, output = (0, "p=all\n") if control in WHITE else faulty("catalog", at)
    return Case(("eval", "t"), parts(text, "(1, 'a')"), status, output)


def in_name(_: random.Random, control: str) -> Case:
    """A character in a quoted name."""
    text = CATALOG.replace(" p ", f' "a{control}b" ').replace(" p;", f' "a{control}b";')
    status, output = (0, f"a{control}b=all\n") if control != "\0" else faulty("catalog", CATALOG.index(" p ") + 1)
    return Case(("eval", "t"), parts(text, "(1, 'a')"), status, output)


def in_literal(_: random.Random, control: str) -> Case:
    """A character in a text of a filter."""
    begin = "CREATE TABLE t (id integer PRIMARY KEY, note text); CREATE PUBLICATION p FOR TABLE t WHERE (note = "
    text = f"{begin}'a{control}b');\n"
    status, output = (0, "p=false\n") if control != "\0" else faulty("catalog", len(begin))
    return Case(("eval", "t"), parts(text, "(1, 'a')"), status, output)


def in_comment(_: random.Random, control: str) -> Case:
    """A character in comments of both kinds."""
    first = f"/* a{control}b */ -- c{control}\n"
    status, output = (0, "p=all\n") if control != "\0" else faulty("catalog", 0)
    return Case(("eval", "t"), parts(first + CATALOG, "(1, 'a')"), status, output)


def in_certificate(chance: random.Random, control: str) -> Case:
    """A character in a certificate, or after it."""
    text = chance.choice([f"o{control}0", f"o {control}0", f"o 0{control}", f"{control}o 0", f"o 0{control}\no 0"])
    status, line = check_lines(AS_DATA, text.split("\n"))
    return Case(("check",), parts(CATALOG, f"{text}\n"), status, f"{line}\n")


def in_script(chance: random.Random, control: str) -> Case:
    """A character replaces a space of a script."""
    at = chance.choice(spaces_of(SCRIPT))
    text = SCRIPT[:at] + control + SCRIPT[at + 1:]
    status, output = (0, "\n".join([*LINES, ""])) if control in WHITE else faulty("script", at)
    return Case(("simulate",), parts(CATALOG, "o 0\n", text), status, output)


def in_text_of_script(_: random.Random, control: str) -> Case:
    """A character in a text of a script."""
    text = SCRIPT.replace("'a'", f"'a{control}'")
    output = "\n".join([*LINES, ""]).replace("'a'", f"'a{control}'")
    status, output = (0, output) if control != "\0" else faulty("script", SCRIPT.index("'a'"))
    return Case(("simulate",), parts(CATALOG, "o 0\n", text), status, output)


def in_rows(chance: random.Random, control: str) -> Case:
    """A character in a row, within a text or elsewhere. A newline ends the row."""
    if control == "\n":
        return Case(("eval", "t"), parts(CATALOG, "(1,\n'a')\n"), 1, "unreadable 3 Expected\nunreadable 0 Expected\n")
    if chance.random() < 0.5:
        bad = control == "\0"
        return Case(
            ("eval", "t"), parts(CATALOG, f"(1, 'a{control}')\n(2, NULL)\n"), int(bad),
            ("unreadable 4 BadToken" if bad else "p=all") + "\np=all\n")
    place, text = chance.choice([(0, f"{control}(1, 'a')"), (3, f"(1,{control}'a')"), (8, f"(1, 'a'){control}")])
    bad = control not in WHITE
    answer = f"unreadable {place} BadToken" if bad else "p=all"
    return Case(("eval", "t"), parts(CATALOG, f"{text}\n(2, NULL)\n"), int(bad), f"{answer}\np=all\n")


BY_CONTROL: list[Maker] = [
    in_catalog, in_name, in_literal, in_comment, in_certificate, in_script, in_text_of_script, in_rows]

GOOD = {
    ("eval", "t"): [CATALOG, "(1, 'a')\n"], ("check",): [CATALOG, "o 0\n"], ("make",): [CATALOG],
    ("simulate",): [CATALOG, "o 0\n", SCRIPT],
}


def other_parts(chance: random.Random) -> Case:
    """An input with a wrong number of parts, or that is not UTF-8."""
    words, good = chance.choice(list(GOOD.items()))
    if chance.random() < 0.5:
        texts = [*good, chance.choice(good)] if chance.random() < 0.5 or len(good) == 1 else good[:-1]
        return Case(words, parts(*texts), 3, "input\n")
    text = parts(*good)
    at = chance.randrange(len(text))
    bad = chance.choice([b"\xff", b"\xc3", b"\xed\xa0\x80", b"\xc0\x80", b"\xf4\x90\x80\x80", b"\x80"])
    return Case(words, text[:at] + bad + text[at:], 3, "input\n")


def ends_early(chance: random.Random) -> Case:
    """A catalog or a script without its last semicolon or its last words."""
    if chance.random() < 0.5:
        text = CATALOG[:CATALOG.rindex(chance.choice([";", "p;", "PUBLICATION p;", "CONNECTION"]))]
        return Case(("make",), parts(text), 3, f"catalog {len(text)} Expected\n")
    text = SCRIPT[:SCRIPT.rindex(chance.choice([";", "0;", ")", "'a'", "t (1", "INSERT"]))]
    return Case(("simulate",), parts(CATALOG, "o 0\n", text), 3, f"script {len(text)} Expected\n")


def bad_token(chance: random.Random) -> Case:
    """A catalog with a character that begins no token, between two of its tokens."""
    catalog = CatalogMaker(chance).any(chance.randint(1, 3), chance.randint(1, 4), chance.randint(0, 3))
    text, place = with_bad_token(chance, CatalogText(catalog, chance, False).statements())
    return Case(("make",), parts(text), *faulty("catalog", place))


def bad_step(chance: random.Random) -> Case:
    """A script with a character that begins no token, between two of its tokens."""
    catalog = CatalogMaker(chance).sound(chance.randint(1, 2), 2, 1)
    made = ScriptMaker(chance, catalog, World(catalog))
    for _ in range(chance.randint(1, 20)):
        made.add_any()
    writer = ScriptText(catalog, chance, True)
    text, place = with_bad_token(chance, [writer.statement(step) for step in made.steps])
    return Case(("simulate",), parts(CatalogText(catalog, chance, True).text(), "", text), *faulty("script", place))


def with_bad_token(chance: random.Random, statements: list[list[str]]) -> tuple[str, int]:
    """Returns a text in which some token is followed by a character that begins none, and its position."""
    tokens = [token for statement in statements for token in statement]
    at = chance.randrange(len(tokens) + 1)
    before = "".join(f"{token} " for token in tokens[:at])
    return f"{before}{chance.choice(NO_TOKENS)} {' '.join(tokens[at:])}\n", len(before.encode())


def case(chance: random.Random, number: int) -> Case:
    """Returns the case with a number from 0. The first cases have each character in each part."""
    if number < len(CONTROLS) * len(BY_CONTROL):
        control, maker = CONTROLS[number // len(BY_CONTROL)], BY_CONTROL[number % len(BY_CONTROL)]
        found = maker(chance, control)
        found.met[f"a control character {maker.__name__}"] += 1
        return found
    maker = chance.choice([other_parts, ends_early, bad_token, bad_step])
    found = maker(chance)
    found.met["the answer input"] += found.output == "input\n"
    found.met[f"a bad character, {maker.__name__}"] += maker in (bad_token, bad_step)
    return found
