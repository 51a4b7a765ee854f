"""A PostgreSQL of its own for a test: made below a temporary folder, with a Unix socket alone, ended with the test."""

from __future__ import annotations

import glob
import os
import pwd
import shutil
import signal
import subprocess
import tempfile
import time

USER = "postgres"
PATIENCE = 120


class NoPostgres(Exception):
    """There is no PostgreSQL on this machine."""


def find_folder() -> str:
    """The folder with the programs of the newest PostgreSQL."""
    found = sorted(glob.glob("/usr/lib/postgresql/*/bin/initdb"), key=lambda it: int(it.split("/")[4]))
    if found:
        return os.path.dirname(found[-1])
    path = shutil.which("initdb")
    if path is None:
        raise NoPostgres("there is no PostgreSQL: its Debian package is postgresql")
    return os.path.dirname(path)


class Postgres:
    """The server. It refuses to be run by root, and is run by the user `postgres` then. Its files are synced as those of any server.

    `base` is a backup by `pg_basebackup` from which it begins. `recovery` are settings for that: with them it goes on to a point in time.
    """

    def __init__(self, settings: "dict[str, str] | None" = None, base: "str | None" = None, recovery: "dict[str, str] | None" = None) -> None:
        self.programs = find_folder()
        self.folder = tempfile.mkdtemp(prefix="editlens-postgres-", dir=os.environ.get("TMPDIR", "/tmp"))
        self.is_root = os.getuid() == 0
        self.server: "subprocess.Popen[bytes] | None" = None
        self.user = USER if self.is_root else pwd.getpwuid(os.getuid()).pw_name
        if self.is_root:
            shutil.chown(self.folder, USER)
            os.chmod(self.folder, 0o755)
        self.data = os.path.join(self.folder, "data")
        if base is None:
            self._run("initdb", "--pgdata", self.data, "--auth", "trust", "--username", USER, "--encoding", "UTF8", "--locale", "C", "--no-instructions")
        else:
            os.rename(base, self.data)
        if recovery:
            settings = {**(settings or {}), **recovery}
            with open(os.path.join(self.data, "recovery.signal"), "w", encoding="ascii"):
                pass
        self.settings = {"listen_addresses": "", "unix_socket_directories": self.folder, "max_connections": "200", **(settings or {})}
        self.start()

    def _words(self, name: str, *given: str) -> "list[str]":
        as_user = ["setpriv", f"--reuid={USER}", f"--regid={USER}", "--init-groups"] if self.is_root else []
        return [*as_user, os.path.join(self.programs, name), *given]

    def _run(self, name: str, *given: str) -> str:
        ran = subprocess.run(self._words(name, *given), cwd=self.folder, capture_output=True, text=True, check=False)
        if ran.returncode:
            raise OSError(f"{name}: {ran.stderr}")
        return ran.stdout

    @property
    def dsn(self) -> str:
        """The database, as a client names it."""
        return f"postgresql://{USER}@/editlens?host={self.folder}"

    @property
    def pid(self) -> int:
        """The process of the server."""
        assert self.server
        return self.server.pid

    def start(self) -> None:
        """Starts the server, and waits until it answers."""
        settings = [word for name, value in self.settings.items() for word in ("-c", f"{name}={value}")]
        with open(os.path.join(self.folder, "log"), "ab") as log:
            self.server = subprocess.Popen(self._words("postgres", "-D", self.data, *settings), cwd=self.folder, stdout=log, stderr=log)
        deadline = time.monotonic() + PATIENCE
        while subprocess.run(self._words("pg_isready", "-q", "-h", self.folder), cwd=self.folder, check=False).returncode:
            if time.monotonic() > deadline or self.server.poll() is not None:
                raise OSError(f"PostgreSQL does not start: {self.log()[-2000:]}")
            time.sleep(0.05)

    def log(self) -> str:
        """What the server wrote."""
        with open(os.path.join(self.folder, "log"), encoding="utf-8", errors="replace") as file:
            return file.read()

    def make(self, name: str = "editlens") -> None:
        """Makes a database."""
        self._run("createdb", "-h", self.folder, "-U", USER, name)

    def run(self, name: str, *given: str) -> str:
        """Runs another program of PostgreSQL against the server."""
        return self._run(name, "-h", self.folder, "-U", USER, *given)

    def children(self) -> "list[int]":
        """The processes of the server's connections and helpers."""
        said = subprocess.run(["ps", "-o", "pid=", "--ppid", str(self.pid)], capture_output=True, text=True, check=False).stdout
        return [int(it) for it in said.split()]

    def kill(self) -> None:
        """Kills the server and all its processes by SIGKILL, as when the machine is switched off."""
        assert self.server
        found = self.children()
        self.server.send_signal(signal.SIGKILL)
        for pid in found:
            try:
                os.kill(pid, signal.SIGKILL)
            except ProcessLookupError:
                pass
        self.server.wait()

    def close(self) -> None:
        """Ends the server, and removes its files."""
        if self.server and self.server.poll() is None:
            self.server.send_signal(signal.SIGINT)
            try:
                self.server.wait(30)
            except subprocess.TimeoutExpired:
                self.kill()
        shutil.rmtree(self.folder, ignore_errors=True)

    def __enter__(self) -> "Postgres":
        return self

    def __exit__(self, *_: object) -> None:
        self.close()
