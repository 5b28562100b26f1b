"""A running bnc with settings that change: reload, stop and a new start, for try_random.py,
try_metrics.py and try_budget.py."""

import errno
import hashlib
import os
import pathlib
import subprocess

from small_network import PATIENCE, Wrong, reserve_port, wait_for

TOP = """listen = "127.0.0.1:{port}"
history = 10000
retry = 1
kept = "kept"
[[user]]
name = "ann"
salt = "61"
password = "{digest}"
"""
NETWORK = """[[user.network]]
name = "{name}"
address = "127.0.0.1:{port}"
nick = "ann"
user = "ann"
realname = "Ann"
join = [{join}]
"""


class Bouncer:
    """bnc in a folder, which keeps its messages there and takes words by a FIFO."""

    def __init__(self, program, folder):
        self.program, self.folder = program, pathlib.Path(folder)
        self.reserved = reserve_port()
        self.port = self.reserved.getsockname()[1]
        self.settings, self.log = self.folder / "bnc.toml", self.folder / "log"
        self.fifo = self.folder / "bnc.toml.control"
        os.mkfifo(self.fifo, 0o600)
        self.process, self.reloads = None, 0

    def write_settings(self, networks):
        """Writes the settings: of each network its name, port and channels."""
        text = TOP.format(port=self.port, digest=hashlib.sha256(b"abc").hexdigest())
        for name, port, channels in networks:
            join = ", ".join(f'"{channel}"' for channel in channels)
            text += NETWORK.format(name=name, port=port, join=join)
        self.settings.write_text(text)
        self.settings.chmod(0o600)

    def start(self):
        self.reloads = 0
        with self.log.open("w") as log:
            self.process = subprocess.Popen([self.program, "serve", self.settings], stdout=log, stderr=log)
        wait_for("a port to log in at", lambda: "listening" in self.log.read_text())

    def order(self, word):
        """Gives bnc a word; it may read the FIFO only some time after it listens."""
        wait_for("reader of the FIFO", lambda: self.is_given(word))

    def is_given(self, word):
        """Gives bnc a word if it reads the FIFO, and says whether it does."""
        try:
            fifo = os.open(self.fifo, os.O_WRONLY | os.O_NONBLOCK)
        except OSError as error:
            if error.errno != errno.ENXIO:
                raise
            return False
        os.write(fifo, word.encode() + b"\n")
        os.close(fifo)
        return True

    def wait_for_reload(self):
        self.reloads += 1
        wait_for("reload", lambda: self.log.read_text().count(" reloaded: networks ") >= self.reloads)

    def has_ended(self, name, network, port):
        """Whether the session of a client name that logged in from this port has ended, by the log."""
        who = f" ann@{name}/{network}: "
        _, came, since = self.log.read_text().rpartition(f"{who}logged in from 127.0.0.1:{port},")
        return came != "" and f"{who}session ended: " in since

    def wait_for_end(self):
        """Waits until bnc has ended by itself."""
        try:
            status = self.process.wait(PATIENCE)
        except subprocess.TimeoutExpired:
            raise Wrong("bnc does not stop") from None
        if status:
            raise Wrong(f"bnc ended with status {status}")

    def kill(self):
        if self.process:
            self.process.kill()
            self.process.wait(PATIENCE)
