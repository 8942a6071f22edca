"""Runs a private PostgreSQL 15 server, which listens only on a socket in its own folder and is removed afterwards."""

import contextlib
import os
import pathlib
import pwd
import shutil
import signal
import subprocess
import sys
import tempfile

PROGRAMS = pathlib.Path("/usr/lib/postgresql/15/bin")
USER = "postgres"
# How long a server may take to start or to stop, also on a busy machine, in seconds.
SECONDS = 600
# The signals that ask a program to end.
ENDINGS = (signal.SIGTERM, signal.SIGINT, signal.SIGHUP)


def is_installed():
    return (PROGRAMS / "initdb").exists() and shutil.which("psql") is not None and (os.geteuid() != 0 or has_user())


def has_user():
    try:
        return pwd.getpwnam(USER) is not None
    except KeyError:
        return False


def run_as_user(*words):
    """Runs a program as the server's user, who cannot be root."""
    words = [str(word) for word in words]
    user = ["runuser", "-u", USER, "--"] if os.geteuid() == 0 else []
    subprocess.run([*user, *words], check=True, stdout=subprocess.DEVNULL, cwd="/tmp", env=environment())


class Server:
    def __init__(self, folder):
        self.folder = folder

    def words(self, database):
        """Returns the arguments with which psql connects."""
        return ["-h", str(self.folder), "-U", USER, "-d", database]

    def psql(self, database: str, sql: str) -> str:
        """Returns what some statements print, without the last newline."""
        words = ["psql", "-X", "-q", "-A", "-t", "-v", "ON_ERROR_STOP=1", *self.words(database)]
        answer = subprocess.run(
            words, input=sql, stdout=subprocess.PIPE, encoding="utf-8", check=True, env=environment())
        return answer.stdout.removesuffix("\n")

    def refusal(self, database: str, sql: str) -> str:
        """Returns the server's message if it refuses one of the statements, and '' otherwise."""
        words = ["psql", "-X", "-q", "-A", "-t", "-v", "ON_ERROR_STOP=1", *self.words(database)]
        answer = subprocess.run(words, input=sql, capture_output=True, encoding="utf-8", env=environment())
        return answer.stderr if answer.returncode else ""

    def told(self, database: str, sql: str) -> str:
        """Returns all that psql prints for some statements, with notices and errors, but without positions in its
        input."""
        answer = subprocess.run(
            ["psql", "-X", "-q", "-A", "-t", *self.words(database), "-c", sql], stdin=subprocess.DEVNULL,
            stdout=subprocess.PIPE, stderr=subprocess.STDOUT, encoding="utf-8", env=environment())
        return answer.stdout

    def create(self, database, sql):
        """Creates a database, and runs some statements in it."""
        begin = f"CREATE DATABASE {database};\n\\connect {database}\nSET client_min_messages = error;\n"
        self.psql("postgres", begin + sql)


def environment():
    """Returns the environment without variables that name another server or change the format of its answers."""
    others = {name: value for name, value in os.environ.items() if not name.startswith("PG")}
    return others | {"PGCLIENTENCODING": "UTF8", "PYTHONUTF8": "1"}


def stop_on_endings():
    """Makes signals that ask the program to end raise an exit from now on, so that the server is stopped first."""
    for ending in ENDINGS:
        signal.signal(ending, lambda number, _: sys.exit(128 + number))


@contextlib.contextmanager
def endings_held():
    """Delays such signals until the block is done."""
    before = signal.pthread_sigmask(signal.SIG_BLOCK, ENDINGS)
    try:
        yield
    finally:
        signal.pthread_sigmask(signal.SIG_SETMASK, before)


@contextlib.contextmanager
def server(settings=""):
    """Runs a server, started with these additional options."""
    with tempfile.TemporaryDirectory(prefix="pgshard_tools_", dir="/tmp") as name:
        folder = pathlib.Path(name)
        if os.geteuid() == 0:
            user = pwd.getpwnam(USER)
            os.chown(folder, user.pw_uid, user.pw_gid)
        data = folder / "data"
        try:
            with endings_held():
                start(data, folder, settings)
            yield Server(folder)
        finally:
            with endings_held():
                stop(data)


def start(data, folder, settings=""):
    run_as_user(PROGRAMS / "initdb", "-D", data, "-U", USER, "-A", "trust", "-E", "UTF8", "--locale=C", "--no-sync")
    # The server starts nothing that could change or lock tables while they are examined.
    options = f"-k {folder} -c listen_addresses='' -c wal_level=logical -c fsync=off -c autovacuum=off {settings}"
    run_as_user(PROGRAMS / "pg_ctl", "-D", data, "-o", options, "-l", folder / "log", "-w", "-t", SECONDS, "start")


def stop(data):
    if (data / "postmaster.pid").exists():
        run_as_user(PROGRAMS / "pg_ctl", "-D", data, "-m", "immediate", "-w", "-t", SECONDS, "stop")
