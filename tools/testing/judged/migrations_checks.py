"""Tests the steps of the workflow in examples/ci, which judges a folder of migrations."""

import pathlib
import re
import shutil
import subprocess
import tempfile
import textwrap

from programs import PGSHARD, TOOLS
from server import Server, environment
from tally import Tally

ROOT = TOOLS.parent
EXAMPLE = ROOT / "examples" / "ci"
STEP = re.compile(r"      - name: (.*)\n(?:        if: .*\n)?        run: \|\n((?:          .*\n)+)")
EACH = "each publication counts as a subscriber of its own; -v subscriptions='..' names others"
SETTINGS = "public.settings: sound (copied to all subscribers, as copied in pgshard.toml says)"
FOLDER = f"""\
public.orders: sound
{SETTINGS}
{EACH}
tables: 2 judged, 2 sound
"""
NO_CHANGE = f"{FOLDER}with new.sql no answer changes\n"
# A wrong migration, which leaves out a region.
WRONG = EXAMPLE.joinpath("migrations", "003_asia.sql").read_text().replace("199", "198")
GAP = """\
public.orders: NOT SOUND: the row (0, 199, '2000-01-01') goes to no subscriber
    region = 199, no filter names another column
    but partial = ["public.orders"] in pgshard.toml would allow it
    region = 199 -> nobody, as (0, 199, '2000-01-01')
"""
CHANGES = f"""\
{GAP}{SETTINGS}
{EACH}
tables: 2 judged, 1 sound
with new.sql these answers change:
    public.orders: sound -> NOT SOUND
"""


def check_migrations(tally: Tally, server: Server) -> None:
    """Tests the steps as they are written, in a repository like that of the example, and with a wrong migration."""
    workflow = EXAMPLE.joinpath("judge-migrations.yml").read_text()
    steps = {name: textwrap.dedent(text) for name, text in STEP.findall(workflow)}
    server.create("staging", "".join(it.read_text() for it in sorted(EXAMPLE.glob("migrations/00[12]*.sql"))))
    staging = f"host={server.folder} user=postgres dbname=staging"
    with tempfile.TemporaryDirectory() as name:
        folder = pathlib.Path(name) / "repository"
        made(folder)
        for migration, in_folder, in_staging in (None, (FOLDER, 0), (NO_CHANGE, 0)), (WRONG, (GAP, 1), (CHANGES, 1)):
            if migration is not None:
                (folder / "migrations" / "003_asia.sql").write_text(migration)
                git(folder, "commit", "-qam", "wrong")
            found, status = run(folder, steps["Judge the folder"], staging)
            tally.check("the folder", (found[:len(in_folder[0])], status), in_folder)
            tally.check("the new migrations", run(folder, steps["Judge the new migrations"], staging), in_staging)


def made(folder: pathlib.Path) -> None:
    """Creates a repository that has the example on a branch, with two migrations on its base."""
    shutil.copytree(EXAMPLE, folder)
    (folder / "pgshard").symlink_to(ROOT)
    new = folder / "migrations" / "003_asia.sql"
    text = new.read_text()
    new.unlink()
    git(folder, "init", "-q", "-b", "base")
    for branch in "base", "change":
        if branch == "change":
            git(folder, "checkout", "-q", "-b", branch)
            new.write_text(text)
        git(folder, "add", "migrations", "pgshard.toml")
        git(folder, "commit", "-qm", branch)


def git(folder: pathlib.Path, *words: str) -> None:
    """Runs git with a placeholder identity."""
    subprocess.run(["git", "-c", "user.name=a", "-c", "user.email=a@b", *words], cwd=folder, check=True)


def run(folder: pathlib.Path, step: str, staging: str) -> tuple[str, int]:
    """Runs a step as the workflow runner does. Returns its output and its status."""
    home = folder.parent / "home"
    home.mkdir(exist_ok=True)
    given = {"PGSHARD": PGSHARD, "HOME": str(home), "BASE": "base", "STAGING": staging}
    answer = subprocess.run(["bash", "-e", "-c", step], cwd=folder, stdout=subprocess.PIPE, encoding="utf-8",
                            env=environment() | given)
    return answer.stdout, answer.returncode
