"""Runs a PostgreSQL 15 server in a temporary folder. It listens only on a socket there, and nothing of it remains."""

import contextlib
import os
import pwd
import shutil
import signal
import subprocess
import tempfile
import time
from collections.abc import Iterator, Sequence
from types import FrameType
from typing import Any

from pgshard_tools.judging.faults import NO_ANSWER, Fault

# Where packages install the server's programs, which need not be on the path.
FOLDERS = (
    "/usr/lib/postgresql/15/bin", "/usr/pgsql-15/bin", "/usr/local/pgsql/bin", "/opt/homebrew/opt/postgresql@15/bin",
    "/usr/local/opt/postgresql@15/bin")
ROLE, PORT = "postgres", "5432"
# No subscription worker may be started, and nothing has to survive a crash.
SETTINGS = (
    "listen_addresses=", "max_logical_replication_workers=0", "wal_level=logical", "fsync=off", "autovacuum=off",
    "shared_buffers=16MB", "logging_collector=off")
# The server cannot run as root. Any other user will do.
USERS = ("postgres", "nobody")
SECONDS = 60.0
ENDINGS = (signal.SIGINT, signal.SIGTERM, signal.SIGHUP)


class Ended(BaseException):
    """A signal requested the program to end."""

    def __init__(self, number: int) -> None:
        super().__init__(number)
        self.number = number


def programs() -> str | None:
    """Returns the folder of the server's programs, if version 15 is installed."""
    on_path = shutil.which("initdb")
    for folder in [*FOLDERS, *([os.path.dirname(os.path.realpath(on_path))] if on_path else [])]:
        if os.access(os.path.join(folder, "initdb"), os.X_OK) and os.access(os.path.join(folder, "postgres"), os.X_OK):
            words = [os.path.join(folder, "postgres"), "--version"]
            answer = subprocess.run(words, stdout=subprocess.PIPE, encoding="utf-8", errors="replace")
            if " 15." in answer.stdout:
                return folder
    return None


@contextlib.contextmanager
def server(folder_of_programs: str) -> Iterator[list[str]]:
    """Yields the arguments with which psql connects to a server that runs inside the block. A signal that ends the
    program does so after the server has been removed."""
    with endings_told(), contextlib.ExitStack() as stack:
        folder = made_folder()
        stack.callback(removed, folder)
        data, log = os.path.join(folder, "data"), os.path.join(folder, "log")
        run_initdb(folder_of_programs, folder, data)
        words = [os.path.join(folder_of_programs, "postgres"), "-D", data, "-k", folder, "-p", PORT]
        words += [word for it in SETTINGS for word in ("-c", it)]
        with open(log, "wb") as output:
            process = started(words, folder, output)
        stack.callback(stopped, process)
        wait_until_ready(process, data, log)
        yield ["-h", folder, "-p", PORT, "-U", ROLE]


def made_folder() -> str:
    """Creates a folder for the server's user. The path of a socket has at most 107 bytes, and another user has to have
    access to it."""
    parent = tempfile.gettempdir()
    if os.geteuid() == 0 or len(os.fsencode(parent)) > 60:
        parent = "/tmp"
    folder = tempfile.mkdtemp(prefix="pgshard_judge_", dir=parent)
    if os.geteuid() == 0:
        user = server_user()
        os.chown(folder, user.pw_uid, user.pw_gid)
    return folder


def server_user() -> pwd.struct_passwd:
    """Returns the user under which root starts the server."""
    for name in USERS:
        with contextlib.suppress(KeyError):
            return pwd.getpwnam(name)
    raise Fault(NO_ANSWER, f"root cannot start a PostgreSQL server, and there is no user {' or '.join(USERS)}")


def started(words: Sequence[str], folder: str, output: Any) -> "subprocess.Popen[bytes]":
    """Starts a program of the server in a process group of its own, so that a terminal's interrupt does not reach
    it."""
    given: dict[str, Any] = {}
    if os.geteuid() == 0:
        user = server_user()
        given = {"user": user.pw_uid, "group": user.pw_gid, "extra_groups": []}
    environment = {name: value for name, value in os.environ.items() if not name.startswith(("PG", "LC_"))}
    return subprocess.Popen(
        words, stdin=subprocess.DEVNULL, stdout=output, stderr=subprocess.STDOUT, cwd=folder, start_new_session=True,
        env=environment | {"LANG": "C", "TZ": "UTC"}, **given)


def run_initdb(folder_of_programs: str, folder: str, data: str) -> None:
    """Creates the server's files. Its locale is C, so that a file has the same answers wherever it is judged."""
    process = started(
        [os.path.join(folder_of_programs, "initdb"), "-D", data, "-U", ROLE, "-A", "trust", "-E", "UTF8", "--locale=C",
         "--no-sync"], folder, subprocess.PIPE)
    try:
        output = process.communicate()[0]
    finally:
        stopped(process)
    if process.returncode != 0:
        raise Fault(NO_ANSWER, f"initdb fails: {output.decode('utf-8', 'replace').strip()}")


def wait_until_ready(process: "subprocess.Popen[bytes]", data: str, log: str) -> None:
    """Waits until the server has written to a file that it is ready."""
    until = time.monotonic() + SECONDS
    while time.monotonic() < until and process.poll() is None:
        with contextlib.suppress(FileNotFoundError), open(os.path.join(data, "postmaster.pid"), "rb") as file:
            if file.read().rstrip().endswith(b"ready"):
                return
        time.sleep(0.02)
    with open(log, encoding="utf-8", errors="replace") as file:
        raise Fault(NO_ANSWER, f"the server for the file does not start: {file.read().strip()}")


def stopped(process: "subprocess.Popen[bytes]") -> None:
    """Ends a program of the server, and those that it has started."""
    with endings_held():
        if process.poll() is None:
            process.send_signal(signal.SIGQUIT)
            with contextlib.suppress(subprocess.TimeoutExpired):
                process.wait(10)
        with contextlib.suppress(ProcessLookupError):
            os.killpg(process.pid, signal.SIGKILL)
        process.wait()


def removed(folder: str) -> None:
    """Removes the folder, even if a process that is ending still writes to it."""
    with endings_held():
        for _ in range(50):
            shutil.rmtree(folder, ignore_errors=True)
            if not os.path.exists(folder):
                return
            time.sleep(0.1)


@contextlib.contextmanager
def endings_told() -> Iterator[None]:
    """Turns a signal that asks the program to end into an exception in the block. The program ends after the block."""
    before = {it: signal.signal(it, ended) for it in ENDINGS if signal.getsignal(it) is not signal.SIG_IGN}
    try:
        yield
    except Ended as fault:
        signal.signal(fault.number, signal.SIG_DFL)
        os.kill(os.getpid(), fault.number)
    finally:
        for number, handler in before.items():
            signal.signal(number, handler)


def ended(number: int, frame: FrameType | None) -> None:
    """Handles these signals."""
    raise Ended(number)


@contextlib.contextmanager
def endings_held() -> Iterator[None]:
    """Delays such a signal until the block is done."""
    before = signal.pthread_sigmask(signal.SIG_BLOCK, ENDINGS)
    try:
        yield
    finally:
        signal.pthread_sigmask(signal.SIG_SETMASK, before)
