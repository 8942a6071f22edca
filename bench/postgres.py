"""A PostgreSQL server of its own, in a folder that is gone afterwards, and one connection to it by `psql`."""

import contextlib
import glob
import os
import pathlib
import pwd
import shutil
import subprocess
import tempfile

from measuring import processor_time

USER = "postgres"


def folder_of_programs():
    """Where Debian's package has initdb and pg_ctl of PostgreSQL 15, or None."""
    found = glob.glob("/usr/lib/postgresql/15/bin/pg_ctl")
    return pathlib.Path(found[0]).parent if found and shutil.which("psql") else None


def as_user(words):
    """The words to run a program as the server's user, which is not root."""
    return ["runuser", "-u", USER, "--", *words] if os.geteuid() == 0 else words


def run(words):
    subprocess.run([str(it) for it in words], check=True, stdout=subprocess.DEVNULL, cwd="/tmp")


class Connection:
    """`psql`, whose backend stays the same."""

    def __init__(self, folder, database="postgres"):
        words = as_user(["psql", "-X", "-q", "-A", "-t", "-v", "ON_ERROR_STOP=1", "-h", str(folder), "-U", USER, database])
        self.psql = subprocess.Popen(words, stdin=subprocess.PIPE, stdout=subprocess.PIPE, text=True, cwd="/tmp")
        self.ask("SET client_min_messages = warning;")

    def ask(self, command):
        """The lines that a command prints."""
        self.psql.stdin.write(f"{command}\n\\echo ended\n")
        self.psql.stdin.flush()
        lines = []
        for line in self.psql.stdout:
            if line == "ended\n":
                return lines
            lines.append(line.strip())
        raise RuntimeError(f"psql ended at {command!r}")

    def backend(self):
        """The process that answers here."""
        return int(self.ask("SELECT pg_backend_pid();")[0])

    def milliseconds(self, command, runs):
        """The least processor time that the backend takes for a command in some runs, and what the last one printed."""
        backend, times = self.backend(), []
        for _ in range(runs):
            before = processor_time(backend)
            lines = self.ask(command)
            times.append((processor_time(backend) - before) / 1_000)
        return min(times), lines

    @contextlib.contextmanager
    def pinned(self, core):
        """Keeps the backend on a core, where that may be done."""
        if core is None or os.geteuid() != 0:
            yield
            return
        backend = self.backend()
        before = os.sched_getaffinity(backend)
        os.sched_setaffinity(backend, {core})
        try:
            yield
        finally:
            os.sched_setaffinity(backend, before)

    def close(self):
        self.psql.stdin.close()
        self.psql.wait()


@contextlib.contextmanager
def server(more=""):
    """A new server with these options, which listens to a socket in its folder alone: the folder, and a connection."""
    programs = folder_of_programs()
    with tempfile.TemporaryDirectory(prefix="pgshard_bench_", dir="/tmp") as name:
        folder = pathlib.Path(name)
        if os.geteuid() == 0:
            user = pwd.getpwnam(USER)
            os.chown(folder, user.pw_uid, user.pw_gid)
        data = folder / "data"
        run(as_user([programs / "initdb", "-D", data, "-U", USER, "-A", "trust", "--no-sync"]))
        options = f"-k {folder} -c listen_addresses='' -c shared_buffers=512MB -c max_wal_size=4GB {more}"
        run(as_user([programs / "pg_ctl", "-D", data, "-o", options, "-l", folder / "log", "-w", "start"]))
        try:
            connection = Connection(folder)
            yield folder, connection
            connection.close()
        finally:
            run(as_user([programs / "pg_ctl", "-D", data, "-m", "immediate", "-w", "stop"]))
