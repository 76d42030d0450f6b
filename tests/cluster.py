"""A PostgreSQL of a test's own: begun, killed and begun again; and parts of the package as processes."""

import importlib.util
import os
import pwd
import select
import shutil
import signal
import socket
import subprocess
import sys
import tempfile
import time
from collections.abc import Iterator, Sequence
from contextlib import contextmanager
from pathlib import Path
from typing import Self

TOP = Path(__file__).resolve().parent.parent
BIN = Path("/usr/lib/postgresql/15/bin")
# A file system in memory, and the bytes that it has to have free.
MEMORY, ROOM = Path("/dev/shm"), 4 << 30
# Seconds for what comes to be so, on a machine with much else to do.
PATIENCE = 60.0


def explain_lack() -> str:
    """Why there can be no PostgreSQL here; empty where there can."""
    if not (BIN / "postgres").exists():
        return "PostgreSQL 15 is not installed (Debian: apt-get install postgresql)"
    if importlib.util.find_spec("psycopg") is None:
        return "psycopg is not installed for this Python (Debian: apt-get install python3-psycopg)"
    return ""


def find_port() -> int:
    """A port of this machine that is free."""
    with socket.socket() as one:
        one.bind(("127.0.0.1", 0))
        return int(one.getsockname()[1])


def make_folder(name: str, is_durable: bool = True) -> Path:
    """A folder for a server's files: on a disk, or in memory where what is committed needn't be on one. A database of a
    store has a thousand files, and a busy disk takes minutes to remove those of many tests."""
    is_roomy = MEMORY.is_dir() and shutil.disk_usage(MEMORY).free > ROOM
    place = None if is_durable or not is_roomy else MEMORY
    return Path(tempfile.mkdtemp(prefix=f"ocpp_board_{name}_", dir=place))


class Cluster:
    """A server of PostgreSQL in a folder of its own, run by a user that is not root."""

    def __init__(self, folder: Path | None = None, is_durable: bool = True) -> None:
        self.folder = folder or make_folder("postgres", is_durable)
        self.port, self.is_durable = find_port(), is_durable
        self.process: subprocess.Popen[bytes] | None = None
        self.user = pwd.getpwnam("postgres") if os.getuid() == 0 else pwd.getpwuid(os.getuid())
        self.data = self.folder / "data"

    def run(self, *command: object) -> None:
        """Runs a command as the server's user. Raises CalledProcessError."""
        subprocess.run(
            list(map(str, command)),
            check=True,
            timeout=2 * PATIENCE,
            stdout=subprocess.DEVNULL,
            user=self.user.pw_uid,
            group=self.user.pw_gid,
            cwd=self.folder,
        )

    def make(self) -> None:
        """Makes its files."""
        os.chmod(self.folder, 0o755)
        if os.getuid() == 0:
            os.chown(self.folder, self.user.pw_uid, self.user.pw_gid)
        self.run(BIN / "initdb", "-D", self.data, "-U", "owner", "-A", "trust", "-E", "UTF8", "-N")

    def start(self, **settings: object) -> None:
        """Begins it, and waits until it answers."""
        durable = "on" if self.is_durable else "off"
        words = {
            "listen_addresses": "127.0.0.1",
            "port": self.port,
            "unix_socket_directories": "",
            "max_connections": 100,
            "fsync": durable,
            "synchronous_commit": durable,
            "full_page_writes": durable,
            "shared_buffers": "256MB",
            # After a kill it else syncs each file by itself, which takes up to a quarter of a minute on a busy disk.
            "recovery_init_sync_method": "syncfs",
        } | settings
        options = [word for key, value in words.items() for word in ("-c", f"{key}={value}")]
        with open(self.folder / "log", "ab") as log:
            self.process = subprocess.Popen(
                [BIN / "postgres", "-D", self.data, *options],
                stdout=log,
                stderr=log,
                user=self.user.pw_uid,
                group=self.user.pw_gid,
                cwd=self.folder,
            )
        self.wait()

    def wait(self) -> None:
        """Waits until it answers."""
        due = time.monotonic() + PATIENCE
        ask = [str(BIN / "pg_isready"), "-q", "-h", "127.0.0.1", "-p", str(self.port)]
        while subprocess.run(ask, check=False, timeout=PATIENCE).returncode:
            if time.monotonic() > due or not self.is_running:
                log = (self.folder / "log").read_text()[-2000:]
                raise TimeoutError(f"PostgreSQL does not answer; its log ends with:\n{log}")
            time.sleep(0.05)

    @property
    def is_running(self) -> bool:
        """Whether its first process runs."""
        return self.process is not None and self.process.poll() is None

    def kill(self) -> None:
        """Kills all of its processes, as a power cut does."""
        assert self.process
        # Stopped, it begins none that would be left over.
        pids = [self.process.pid]
        for number in (signal.SIGSTOP, signal.SIGKILL):
            kill_all(pids, number)
            if number == signal.SIGSTOP:
                pids += list_children(self.process.pid)
        self.process.wait(PATIENCE)
        due = time.monotonic() + PATIENCE
        while any(Path(f"/proc/{pid}").exists() for pid in pids):
            if time.monotonic() > due:
                raise TimeoutError(f"processes {pids} of PostgreSQL did not end")
            time.sleep(0.01)
        (self.data / "postmaster.pid").unlink(missing_ok=True)

    def stop(self) -> None:
        """Ends it."""
        if self.process and self.is_running:
            self.process.send_signal(signal.SIGINT)
            try:
                self.process.wait(20)
            except subprocess.TimeoutExpired:
                self.kill()

    def remove(self) -> None:
        """Ends it, and removes its files."""
        if self.is_running:
            self.kill()  # To end it in order takes long on a busy disk, and serves nobody.
        shutil.rmtree(self.folder, ignore_errors=True)

    def name(self, database: str, user: str = "owner", port: int | None = None) -> str:
        """A database of it, as a store is named."""
        return f"postgresql://{user}@127.0.0.1:{port or self.port}/{database}"

    def query(self, database: str, text: str, user: str = "owner") -> str:
        """What psql prints of a statement. Raises CalledProcessError."""
        return subprocess.run(
            ["psql", "-XAtq", "-v", "ON_ERROR_STOP=1", "-d", self.name(database, user), "-c", text],
            check=True,
            capture_output=True,
            text=True,
            timeout=PATIENCE,
        ).stdout.strip()

    def create(self, database: str) -> str:
        """Makes a database, and gives its name as a store."""
        self.query("postgres", f"create database {database}")
        return self.name(database)


def kill_all(pids: Sequence[int], number: int = signal.SIGKILL) -> None:
    """Sends a signal to processes, of which some may be gone."""
    for pid in pids:
        try:
            os.kill(pid, number)
        except ProcessLookupError:
            pass


def list_children(pid: int) -> list[int]:
    """The processes that this one started, and those that they started."""
    try:
        own = [int(word) for word in Path(f"/proc/{pid}/task/{pid}/children").read_text().split()]
    except OSError:
        return []
    return own + [one for child in own for one in list_children(child)]


@contextmanager
def keep_cluster(is_durable: bool = True) -> Iterator[Cluster]:
    """A server that is there for as long as it is used."""
    cluster = Cluster(is_durable=is_durable)
    try:
        cluster.make()
        cluster.start()
        yield cluster
    finally:
        cluster.remove()


class Part:
    """A command of the package as a process: what it prints first says that it is ready."""

    def __init__(self, *words: object, **environment: str) -> None:
        self.words = [str(word) for word in words]
        self.log = tempfile.TemporaryFile()
        self.process = subprocess.Popen(
            [
                sys.executable,
                *os.environ.get("PROFILE", "").split(),
                "-m",
                "ocpp_board",
                *self.words,
            ],
            stdout=subprocess.PIPE,
            stderr=self.log,
            env=os.environ | {"PYTHONPATH": f"{TOP / 'python'}:{TOP}"} | environment,
        )
        self.first = self.read_first()

    def read_first(self) -> str:
        """The first line that it prints. Raises TimeoutError."""
        assert self.process.stdout
        output, line = self.process.stdout.fileno(), b""
        due = time.monotonic() + PATIENCE
        while not line.endswith(b"\n"):
            is_there, _, _ = select.select([output], [], [], max(0.0, due - time.monotonic()))
            if not is_there:
                self.kill()
                raise TimeoutError(f"{self.words} printed nothing; it logged:\n{self.read_log()}")
            data = os.read(output, 4096)
            if not data:
                break
            line += data
        return line.decode().strip()

    @property
    def pid(self) -> int:
        """Its number."""
        return self.process.pid

    def read_log(self) -> str:
        """What it wrote to standard error."""
        self.log.seek(0)
        return self.log.read().decode("utf-8", "replace")

    def count_seconds(self) -> float:
        """Seconds of a processor that it and its processes took."""
        return sum(map(count_seconds, (self.pid, *list_children(self.pid))))

    def kill(self) -> None:
        """Kills it with its processes."""
        kill_all([self.pid, *list_children(self.pid)])
        self.process.wait(PATIENCE)

    def stop(self) -> int:
        """Ends it, and gives its status."""
        if self.process.poll() is None:
            self.process.terminate()
            try:
                self.process.wait(20)
            except subprocess.TimeoutExpired:
                self.kill()
        return self.process.returncode

    def __enter__(self) -> Self:
        return self

    def __exit__(self, *_fault: object) -> None:
        self.stop()


class GatewayPart(Part):
    """A gateway."""

    def __init__(self, store: str, *words: object, **environment: str) -> None:
        super().__init__("gateway", "--store", store, "--port", 0, *words, **environment)
        self.port = int(self.first.rpartition(":")[2] or 0)
        assert self.port, self.read_log()

    @property
    def url(self) -> str:
        """Where stations connect."""
        return f"ws://127.0.0.1:{self.port}/ocpp"


def count_seconds(pid: int) -> float:
    """Seconds of a processor that a process took."""
    try:
        words = Path(f"/proc/{pid}/stat").read_text().rpartition(")")[2].split()
    except OSError:
        return 0.0
    return (int(words[11]) + int(words[12])) / os.sysconf("SC_CLK_TCK")
