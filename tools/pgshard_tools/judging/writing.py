"""Writes the files that options name, which other programs read."""

import os
import secrets
import stat

from pgshard_tools.judging.faults import BAD_COMMAND, Fault


def write(path: str, text: str, mode: int | None = None) -> None:
    """Writes a file, whose mode is that of any new file unless one is given."""
    data = text.encode("utf-8", "backslashreplace")
    try:
        if is_special(path):
            with open(path, "wb") as file:
                file.write(data)
        else:
            replace(os.path.realpath(path), data, mode)
    except OSError as fault:
        raise Fault(BAD_COMMAND, f"cannot write {path}: {fault.strerror or fault}") from fault


def is_special(path: str) -> bool:
    """Returns whether something that is no regular file has this name, such as a device or a pipe. It is written to,
    since a file in its place would not be the same."""
    try:
        return not stat.S_ISREG(os.stat(path).st_mode)
    except FileNotFoundError:
        return False


def replace(path: str, data: bytes, mode: int | None) -> None:
    """Writes a regular file atomically, so that nobody reads a part of it. The name of the temporary file is new, so
    that no file is lost, and two runs may write the same file."""
    temporary = os.path.join(os.path.dirname(path), f".pgshard_{secrets.token_hex(8)}")
    with open(temporary, "xb") as file:
        try:
            file.write(data)
            file.flush()
            if mode is not None:
                os.fchmod(file.fileno(), mode)
            os.replace(temporary, path)
        except BaseException:
            os.unlink(temporary)
            raise
