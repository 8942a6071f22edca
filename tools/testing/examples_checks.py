"""Tests that the program prints what the documents show."""

import subprocess
from dataclasses import dataclass

from programs import PGSHARD, TOOLS, judge, pgshard
from tally import Tally

ROOT = TOOLS.parent
EXAMPLES = ROOT / "examples"

# The example of docs/JUDGING.md.
SHOWN = """
    CREATE TABLE orders (id integer PRIMARY KEY, region text);
    ALTER TABLE orders REPLICA IDENTITY FULL;
    CREATE PUBLICATION p FOR TABLE orders WHERE (id < 200 AND region IS NOT NULL);
    CREATE PUBLICATION q FOR TABLE orders WHERE (id >= 100 AND region IS NOT NULL);
"""


@dataclass(frozen=True)
class Example:
    """A run with its input and status, and the documents that show its output or the end of it."""

    documents: tuple[str, ...]
    words: tuple[str, ...]
    text: str
    status: int
    lines: int | None = None


def check_examples(tally: Tally) -> None:
    """Runs the examples, and checks the messages at a terminal for some of them."""
    for example in examples():
        status, output = pgshard(*example.words, text=example.text)
        shown = "".join(output.splitlines(keepends=True)[-example.lines:]) if example.lines else output
        what = f"{example.words[0]} of {example.documents[0]}"
        tally.check(f"{what}: its status", status, example.status)
        for document in example.documents:
            tally.check(f"{what}: what {document} shows", is_shown(document, shown), True)
    for file, words in (("lossy.sql", ["make"]), ("orders.txt", ["eval", "orders"])):
        with open(EXAMPLES / file, "rb") as given:
            answer = subprocess.run(
                [TOOLS / "explain", PGSHARD, *words], stdin=given, stdout=subprocess.DEVNULL, stderr=subprocess.PIPE,
                encoding="utf-8", cwd=ROOT)
        tally.check(f"what is told of {file}", is_shown("docs/OUTPUT.md", answer.stderr), True)


def check_judge_example(tally: Tally, server) -> None:
    """Checks what judge says of the README's database."""
    server.create("shown", read("server.sql"))
    output, status = judge(*server.words("shown")).rsplit("status ", 1)
    tally.check("the status of the README's database", status, "1\n")
    tally.check("what the README shows of its database", is_shown("README.md", output), True)
    server.create("shown_of_judge", SHOWN)
    words = server.words("shown_of_judge")
    regions = judge(*words).partition("each publication")[0]
    repair = judge(*words, "--repair", "orders").rpartition("status ")[0]
    for what, text in ("regions", regions), ("a repair", repair):
        tally.check(f"what docs/JUDGING.md shows of {what}", text if not is_shown("docs/JUDGING.md", text) else "", "")


def examples() -> list[Example]:
    """Returns the examples of the documents."""
    lossy, shop = read("lossy.sql"), read("shop.sql")
    certificates = pgshard("make", text=shop)[1]
    moves = f"{shop}%%\n{certificates}%%\n{read('moves.txt')}"
    return [
        Example(("README.md",), ("make",), lossy, 1),
        Example(("docs/OUTPUT.md",), ("show",), lossy, 0),
        Example(("docs/CERTIFICATES.md",), ("make",), shop, 0),
        Example(("docs/CERTIFICATES.md",), ("make",), shop.replace(", nowhere;", ";"), 1),
        Example(("docs/OUTPUT.md",), ("eval", "orders"), read("orders.txt"), 1),
        Example(("docs/OUTPUT.md",), ("eval", "t", "--insert"), read("regions.txt"), 0),
        Example(("README.md",), ("simulate",), moves, 0, lines=1),
        Example(("docs/OUTPUT.md",), ("simulate",), moves, 0),
    ]


def read(name: str) -> str:
    """Returns the text of an example."""
    return (EXAMPLES / name).read_text(encoding="utf-8")


def is_shown(document: str, output: str) -> bool:
    """Returns whether a document shows an output as a block."""
    return f"```\n{output}```\n" in (ROOT / document).read_text(encoding="utf-8")
