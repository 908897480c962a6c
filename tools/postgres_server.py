"""A PostgreSQL server on loopback, in a folder of its own, for trials of tools/archive.py. It wants Debian's `postgresql`."""
import contextlib
import glob
import os
import shutil
import signal
import subprocess
import tempfile
import time

from command_line import Mistake
from kill_loop import free_port

USER = "postgres"


class Failed(Exception):
    """What a program of PostgreSQL said."""


def folder_of_programs():
    found = sorted(glob.glob("/usr/lib/postgresql/*/bin"), key=lambda it: int(it.split("/")[-2]))
    beside = shutil.which("initdb")
    if not found and beside is None:
        raise Mistake("PostgreSQL is not installed: sudo apt-get install postgresql python3-psycopg2")
    return found[-1] if found else os.path.dirname(beside)


class Server:
    """Made at once, and removed at the end of the `with`."""

    def __init__(self, **settings):
        self.programs, self.port = folder_of_programs(), free_port()
        self.folder = tempfile.mkdtemp(prefix="postgres-server-")
        self.data, self.as_user = f"{self.folder}/data", []
        if os.getuid() == 0:
            # The server refuses to run as root.
            shutil.chown(self.folder, USER)
            self.as_user = ["runuser", "-u", USER, "--"]
        self.run("initdb", "-D", self.data, "-U", USER, "-A", "trust", "-E", "UTF8", "--locale=C")
        with open(f"{self.data}/postgresql.conf", "a", encoding="ascii") as file:
            file.write(f"listen_addresses = '127.0.0.1'\nport = {self.port}\nunix_socket_directories = ''\n")
            file.writelines(f"{name} = {value}\n" for name, value in settings.items())

    def run(self, program, *words):
        ran = subprocess.run([*self.as_user, f"{self.programs}/{program}", *words], capture_output=True, text=True, cwd="/")
        if ran.returncode:
            raise Failed(f"{program}: {ran.stdout}{ran.stderr}")
        return ran.stdout

    def start(self):
        """Also after a kill: then it is tried again until what was killed is gone."""
        until = time.monotonic() + 60
        while True:
            ran = subprocess.run(
                [*self.as_user, f"{self.programs}/pg_ctl", "-D", self.data, "-l", f"{self.folder}/log", "-w", "start"],
                stdin=subprocess.DEVNULL, stdout=subprocess.DEVNULL, stderr=subprocess.DEVNULL, cwd="/",
            )
            if ran.returncode == 0:
                return
            if time.monotonic() > until:
                with open(f"{self.folder}/log", encoding="utf-8") as file:
                    raise Failed(file.read()[-2000:])
            time.sleep(0.2)

    def processes(self):
        with open(f"{self.data}/postmaster.pid", encoding="ascii") as file:
            first = file.readline().strip()
        found = subprocess.run(["ps", "-o", "pid=", "--ppid", first], capture_output=True, text=True, check=False)
        return [int(first), *map(int, found.stdout.split())]

    def seconds_used(self):
        """The seconds of a processor that the server took, those of processes that ended among them."""
        found = 0
        for process in self.processes():
            with contextlib.suppress(FileNotFoundError), open(f"/proc/{process}/stat", encoding="ascii") as file:
                found += sum(map(int, file.read().rpartition(")")[2].split()[11:15]))
        return found / os.sysconf("SC_CLK_TCK")

    def kill(self):
        """Ends the server and all that it started as a loss of power would."""
        for process in self.processes():
            with contextlib.suppress(ProcessLookupError):
                os.kill(process, signal.SIGKILL)

    def dsn(self, database=USER):
        return f"host=127.0.0.1 port={self.port} user={USER} dbname={database}"

    def make(self, database):
        """Makes an empty database, and says how it is reached."""
        self.run("createdb", "-h", "127.0.0.1", "-p", str(self.port), "-U", USER, database)
        return self.dsn(database)

    def __enter__(self):
        self.start()
        return self

    def __exit__(self, *_):
        with contextlib.suppress(Failed):
            self.run("pg_ctl", "-D", self.data, "-m", "immediate", "stop")
        shutil.rmtree(self.folder, ignore_errors=True)
