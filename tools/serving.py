"""What the rows and the measurements of a served store have in common: a server in a folder of its own, and its clients."""
import json
import os
import shutil
import signal
import socket
import struct
import subprocess
import tempfile
import time

STEP = 0.01  # seconds between two polls
POLLS = 2000  # as often is looked for what has to come
SECONDS = 60  # no call of the program and no reply may take longer
BOOT = "rows"


def comes(look, polls=POLLS):
    """The first result of the look that isn't nothing, or the last one once the polls are used up."""
    for _ in range(polls):
        found = look()
        if found:
            return found
        time.sleep(STEP)
    return look()


def text_of(path):
    """The text of a file; none where it isn't there."""
    try:
        with open(path, encoding="utf-8", errors="replace") as file:
            return file.read()
    except OSError:
        return None


def frame(request):
    """The frame of a request, or of these bytes."""
    text = request if isinstance(request, bytes) else json.dumps(request, separators=(",", ":")).encode()
    return len(text).to_bytes(4, "big") + text


class Client:
    """A client at the server's socket."""

    def __init__(self, path):
        self.socket = socket.socket(socket.AF_UNIX, socket.SOCK_STREAM)
        self.socket.settimeout(SECONDS)
        try:
            self.socket.connect(path)
        except OSError:
            self.socket.close()
            raise
        self.read = b""

    def send(self, request):
        self.socket.sendall(frame(request))

    def take(self, count):
        """This number of bytes; none if the connection ends before."""
        while len(self.read) < count:
            try:
                more = self.socket.recv(1 << 16)
            except ConnectionError:
                more = b""
            if not more:
                return None
            self.read += more
        taken, self.read = self.read[:count], self.read[count:]
        return taken

    def reply(self):
        """The next reply; none where the connection ends before."""
        header = self.take(4)
        text = self.take(int.from_bytes(header, "big")) if header else None
        return json.loads(text) if text else None

    def ask(self, verb, **fields):
        """The reply to a request; none where the connection ends before."""
        try:
            self.send({"verb": verb, **fields})
        except ConnectionError:
            pass
        return self.reply()

    def value(self, verb, **fields):
        """The value of the reply to a request; the whole reply where it has none."""
        reply = self.ask(verb, **fields)
        return reply["value"] if reply and "value" in reply else reply

    def listener(self):
        """The pid of the process that listens at the socket, or listened there when that was made."""
        return struct.unpack("3i", self.socket.getsockopt(socket.SOL_SOCKET, socket.SO_PEERCRED, 12))[0]

    def close(self):
        self.socket.close()


class Server:
    """A store in a folder, and who serves it. After a `with` nobody does, and no process is left of those that it started."""

    def __init__(self, program, folder=None):
        self.program = program
        self.is_own = folder is None
        self.folder = folder or tempfile.mkdtemp(prefix="umd-")
        self.file = f"{self.folder}/store"
        self.socket = f"{self.folder}/socket"
        self.dir = f"{self.folder}/processes"
        self.runner = program
        self.boot = BOOT
        self.options = []
        self.running = None

    def __enter__(self):
        return self

    def __exit__(self, *_):
        self.kill()
        self.end_processes()
        if self.is_own:
            shutil.rmtree(self.folder, ignore_errors=True)

    def run(self, *words, **how):
        """A call of the program, with what it wrote."""
        if "input" not in how:
            how["stdin"] = subprocess.DEVNULL
        how = {"text": True, "errors": "replace", "timeout": SECONDS, **how}
        return subprocess.run([self.program, *words], stdout=subprocess.PIPE, stderr=subprocess.PIPE, **how)

    def create(self, slot=1024, log=1024):
        made = self.run("create", "--slot", str(slot), "--log", str(log), self.file)
        if made.returncode:
            raise RuntimeError(f"no store is made: status {made.returncode}, {made.stderr.strip()}")
        return self

    def words(self):
        named = ["--boot", self.boot, "--socket", self.socket, "--dir", self.dir, "--runner", self.runner]
        return [self.program, "serve", *named, *self.options, self.file]

    def start(self, **how):
        """Has the store served, and waits for nothing."""
        self.errors = open(f"{self.folder}/errors", "ab")
        how = {"stdin": subprocess.DEVNULL, "stdout": subprocess.DEVNULL, "stderr": self.errors, **how}
        self.running = subprocess.Popen(self.words(), **how)
        self.errors.close()

    def told(self):
        """The servers' lines on standard error."""
        return text_of(f"{self.folder}/errors") or ""

    def client(self):
        """A client, or none where nobody serves. A process that a killed server has forked, and that doesn't run its program yet, keeps that one's
        socket for a moment: who connects there is connected to nobody."""
        try:
            client = Client(self.socket)
        except OSError:
            return None
        if self.running and client.listener() != self.running.pid:
            client.close()
            return None
        return client

    def first_client(self, polls=POLLS):
        """A client as soon as the store is served; an error if the server ends before, or once the polls are used up."""
        found = comes(lambda: self.running.poll() is not None or self.client(), polls)
        if not isinstance(found, Client):
            raise RuntimeError(f"nobody serves the store: status {self.running.poll()}, told {self.told()[-400:]!r}")
        return found

    def serve(self, polls=POLLS, **how):
        """Has the store served, and gives the first client."""
        self.start(**how)
        return self.first_client(polls)

    def kill(self):
        """Kills who serves, with what it can't catch."""
        if self.running:
            if self.running.poll() is None:
                os.kill(self.running.pid, signal.SIGKILL)
            self.running.wait()
            self.running = None

    def again(self, **how):
        """Kills who serves, and has the store served again."""
        self.kill()
        return self.serve(**how)

    def ends(self, polls=POLLS):
        """The exit status of the server, once it has ended; none if it hasn't once the polls are used up."""
        comes(lambda: self.running.poll() is not None, polls)
        return self.running.poll()

    def ctl(self, *words, **how):
        return self.run("ctl", "--socket", self.socket, *words, **how)

    def files(self):
        """The names of the files of processes: all that stands in their folder but the socket by which runners wake the manager."""
        return sorted(it for it in os.listdir(self.dir) if it != "news") if os.path.isdir(self.dir) else []

    def live_pids(self):
        """The pids of processes that were started and have no status."""
        names = self.files()
        numbers = [it[: -len(".pid")] for it in names if it.endswith(".pid")]
        texts = [text_of(f"{self.dir}/{it}.pid") for it in numbers if f"{it}.status" not in names]
        return [int(it) for it in texts if it and it.strip().isdigit()]

    def end_processes(self):
        """Ends the processes that are left, so that their runners end too, and waits for these."""
        for pid in self.live_pids():
            try:
                os.kill(pid, signal.SIGKILL)
            except ProcessLookupError:
                pass
        comes(lambda: not self.live_pids(), 200)


def put(client, name, text):
    """Puts a unit's file, which has to be taken."""
    reply = client.ask("put-file", path=f"lib/{name}", text=text)
    if reply != {"ok": True}:
        raise RuntimeError(f"put-file of {name} is answered {reply}")


def service(command, *lines, unit=()):
    """The text of a service."""
    return "\n".join(["[Unit]", *unit, "[Service]", f"ExecStart={command}", *lines, "[Install]", "WantedBy=all.target", ""])


def is_alive(pid):
    """Whether the process runs: it is there and hasn't ended."""
    about = text_of(f"/proc/{pid}/stat")
    return about is not None and about.rpartition(")")[2].split()[0] != "Z"
