"""The version, and the releases of CHANGELOG.md."""

import re
from dataclasses import dataclass

from releasing.manifest import ROOT, Repository

RELEASE = re.compile(r"## \[(\d+\.\d+\.\d+)\] - (\d{4}-\d{2}-\d{2})")


@dataclass(frozen=True)
class Release:
    """A section of the file, which tells users what is new in a version."""

    version: str
    date: str
    changes: tuple[str, ...]


def version() -> str:
    """Returns the version of this repository, or of this installed copy."""
    return Repository().version


def releases(text: str | None = None) -> list[Release]:
    """Returns the releases, the newest first, from the text of the file."""
    lines = ((ROOT / "CHANGELOG.md").read_text(encoding="utf-8") if text is None else text).splitlines()
    found: list[Release] = []
    changes: list[str] = []
    for line in lines:
        head = RELEASE.fullmatch(line)
        if head is not None:
            changes = []
            found.append(Release(head[1], head[2], ()))
        elif found and line.startswith("- "):
            changes = [*changes, line.removeprefix("- ")]
            found[-1] = Release(found[-1].version, found[-1].date, tuple(changes))
    return found
