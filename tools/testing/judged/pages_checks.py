"""Tests the page of judge --html: its content, and that a browser shows it."""

import html.parser
import pathlib
import re
import shutil
import struct
import subprocess
import tempfile
import zlib

from programs import judge
from server import Server
from tally import Tally

SETUP = """
    CREATE TABLE orders (id integer PRIMARY KEY, region text, amount integer NOT NULL CHECK (amount >= 0));
    CREATE TABLE days (id integer PRIMARY KEY, day date);
    CREATE TABLE kinds (id integer PRIMARY KEY, a integer NOT NULL, b integer NOT NULL, c boolean NOT NULL);
    CREATE TABLE rates (id integer PRIMARY KEY);
    CREATE TABLE "<b>&x" (id integer PRIMARY KEY, name text);
    ALTER TABLE orders REPLICA IDENTITY FULL; ALTER TABLE days REPLICA IDENTITY FULL;
    ALTER TABLE kinds REPLICA IDENTITY FULL; ALTER TABLE "<b>&x" REPLICA IDENTITY FULL;
    INSERT INTO days VALUES (1, '2024-01-01'), (2, '2024-06-01'), (3, '2024-12-01'), (4, NULL);
    CREATE PUBLICATION london FOR TABLE orders WHERE (region = 'eu' AND amount < 500), days WHERE (day < '2024-07-01'),
        kinds WHERE (a < 5 AND b < 5 AND c), rates, "<b>&x" WHERE (name = '<script>alert(1)</script>');
    CREATE PUBLICATION tokyo FOR TABLE orders WHERE (region IN ('eu', 'us') AND amount >= 200),
        days WHERE (day >= '2024-06-01' AND day < '2024-09-01'), kinds WHERE (NOT (a < 5 AND b < 5 AND c)), rates;
"""
WORDS = ["--copied", "rates", "--count", "--repair", "days"]
# Each cell of the maps: its condition, who gets it, and how many rows it has.
CELLS = [
    # A name that has to be escaped in HTML.
    ("name = '<script>alert(1)</script>'", "london", "0 rows"),
    ("name <> '<script>alert(1)</script>'", "nobody", "0 rows"), ("name IS NULL", "nobody", "0 rows"),
    # A line, on which NULL is a cell of its own.
    ("day < '2024-06-01'", "london", "1 row"),
    ("day BETWEEN '2024-06-01' AND '2024-06-30'", "london and tokyo", "1 row"),
    ("day BETWEEN '2024-07-01' AND '2024-08-31'", "tokyo", "0 rows"), ("day >= '2024-09-01'", "nobody", "1 row"),
    ("day IS NULL", "nobody", "1 row"),
    # A list, since there are three terms.
    ("a < 5 AND b < 5 AND c", "london", "0 rows"), ("a < 5 AND b < 5 AND NOT (c)", "tokyo", "0 rows"),
    ("a < 5 AND b >= 5", "tokyo", "0 rows"), ("a >= 5", "tokyo", "0 rows"),
    # A grid of two terms.
    *((f"{region} AND {amount}", who, "0 rows") for region, its in {
        "region = 'eu'": ("london", "london and tokyo", "tokyo"), "region = 'us'": ("nobody", "tokyo", "tokyo"),
        "region NOT IN ('eu', 'us')": ("nobody", "nobody", "nobody"), "region IS NULL": ("nobody", "nobody", "nobody"),
    }.items() for amount, who in zip(("amount < 200", "amount BETWEEN 200 AND 499", "amount >= 500"), its)),
    # A table that is copied.
    ("all rows", "each subscriber", "0 rows"),
]
SIZES = [(400, 3000), (1400, 2000)]
# The page in a frame of a given width, which reports the width of its content.
FRAME = """<!DOCTYPE html><body><iframe id="f" width="{width}" height="2000" style="border: 0" srcdoc="{page}"></iframe>
<p id="w"></p><script>document.getElementById("f").onload = function () {{
document.getElementById("w").textContent = "width " + this.contentDocument.documentElement.scrollWidth; }};</script>
</body>"""
VOID = {"meta", "link", "br"}


def check_pages(tally: Tally, server: Server) -> None:
    """Tests the page of a database, by its text and in a browser."""
    server.create("pictured", SETUP)
    with tempfile.TemporaryDirectory() as name:
        folder = pathlib.Path(name)
        page = folder / "page.html"
        output = judge(*server.words("pictured"), *WORDS, "--html", str(page))
        text = page.read_text(encoding="utf-8")
        lines = judge(*server.words("pictured"), "--copied", "rates", "--count").splitlines()
        check_text(tally, text, lines, output.rpartition("status ")[0])
        check_fault(tally, server, folder)
        if shutil.which("chromium") is None:
            print("skipped: pages in a browser, since chromium is not installed (apt-get install chromium)")
            return
        for width, height in SIZES:
            for is_dark in False, True:
                check_shot(tally, folder, page, width, height, is_dark)
            check_width(tally, folder, text, width)
        shown = re.sub(r"\s+", " ", browser("--dump-dom", page.as_uri()).stdout)
        verdict = "public.days: NOT SOUND: the row (0, NULL) goes to no subscriber"
        tally.check("the text of a verdict in the browser", verdict in shown, True)


def check_text(tally: Tally, text: str, lines: list[str], repair: str) -> None:
    """Checks the text of the page: judge's lines, each cell of the maps, the repair, and that nothing is loaded from
    elsewhere."""
    found = Reading()
    found.feed(text)
    tally.check("tags that are not closed", found.open, [])
    tally.check("cells of the maps", sorted(found.cells), sorted(CELLS))
    missing = [line for line in lines if line.startswith(("public", "    ")) and line not in found.text]
    tally.check("lines of judge that the page lacks", missing, [])
    tally.check("the repair in the page", repair.rstrip("\n") in found.text, True)
    tally.check("what the page loads", re.findall(r"<script|src=|https?://|url\(|@import", text), [])
    tally.check("the rule for dark screens", "prefers-color-scheme: dark" in text, True)


class Reading(html.parser.HTMLParser):
    """Collects a page's text, its cells with condition, owner and count, and elements that are not closed."""

    def __init__(self) -> None:
        super().__init__()
        self.open: list[str] = []
        self.text = ""
        self.cells: list[tuple[str, ...]] = []
        self.cell: dict[str, str] | None = None
        self.part = ""
        self.is_legend = False

    def handle_starttag(self, tag: str, attributes: list[tuple[str, str | None]]) -> None:
        kinds = (dict(attributes).get("class") or "").split()
        self.open += [tag] if tag not in VOID else []
        self.is_legend = tag == "ul" and "legend" in kinds or self.is_legend and tag != "section"
        if "cell" in kinds and not self.is_legend:
            self.cell = {}
        if tag == "span" and self.cell is not None:
            self.part = kinds[0]

    def handle_data(self, data: str) -> None:
        self.text += data
        if self.part and self.cell is not None:
            self.cell[self.part] = self.cell.get(self.part, "") + data

    def handle_endtag(self, tag: str) -> None:
        if self.open[-1:] == [tag]:
            self.open.pop()
        if tag == "span":
            self.part = ""
        if tag in ("li", "div") and self.cell is not None:
            self.cells.append(tuple(self.cell.get(it, "") for it in ("where", "who", "count")))
            self.cell = None


def check_fault(tally: Tally, server: Server, folder: pathlib.Path) -> None:
    """Tests a page that cannot be written."""
    found = judge(*server.words("pictured"), "--html", str(folder / "none" / "page.html"))
    tally.check("a page that cannot be written", found.splitlines()[-2:], [
        f"judge: cannot write {folder}/none/page.html: No such file or directory", "status 2"])


def browser(*words: str) -> "subprocess.CompletedProcess[str]":
    """Runs the browser without a window. What a page writes to the console is on standard error."""
    with tempfile.TemporaryDirectory() as folder:
        return subprocess.run(
            ["chromium", "--headless", "--no-sandbox", "--disable-gpu", "--hide-scrollbars",
             f"--user-data-dir={folder}", "--enable-logging=stderr", "--virtual-time-budget=5000", *words],
            capture_output=True, encoding="utf-8", errors="replace", timeout=300)


def check_shot(tally: Tally, folder: pathlib.Path, page: pathlib.Path, width: int, height: int, is_dark: bool) -> None:
    """Checks a screenshot of the page: its size, whether it is light or dark, and that nothing is written to the
    console."""
    what = f"the page at {width} pixels, {'dark' if is_dark else 'light'}"
    shot = folder / "shot.png"
    shot.unlink(missing_ok=True)
    answer = browser(f"--blink-settings=preferredColorScheme={0 if is_dark else 1}", f"--window-size={width},{height}",
                     f"--screenshot={shot}", page.as_uri())
    tally.check(f"{what}: the console", [it for it in answer.stderr.splitlines() if "CONSOLE" in it], [])
    size, pixel = picture(shot.read_bytes()) if shot.exists() else ((0, 0), (0, 0, 0))
    tally.check(f"{what}: its size", size, (width, height))
    tally.check(f"{what}: its background", max(pixel) < 64 if is_dark else min(pixel) > 192, True)


def picture(data: bytes) -> tuple[tuple[int, int], tuple[int, ...]]:
    """Returns the size of a PNG and its first pixel, which no filter changes."""
    width, height = struct.unpack(">II", data[16:24])
    parts, at = b"", 8
    while at < len(data):
        length, kind = struct.unpack(">I4s", data[at:at + 8])
        parts += data[at + 8:at + 8 + length] if kind == b"IDAT" else b""
        at += length + 12
    return (width, height), tuple(zlib.decompress(parts)[1:4])


def check_width(tally: Tally, folder: pathlib.Path, text: str, width: int) -> None:
    """Checks, in a frame, that nothing is wider than the page."""
    frame = folder / "frame.html"
    page = text.replace("&", "&amp;").replace('"', "&quot;")
    frame.write_text(FRAME.format(width=width, page=page), encoding="utf-8")
    found = re.search(r"width (\d+)", browser("--window-size=1600,2200", "--dump-dom", frame.as_uri()).stdout)
    tally.check(f"how wide the page is at {width} pixels", found[1] if found else "none", str(width))
