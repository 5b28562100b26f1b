#!/usr/bin/env python3
"""Tries the way of a newcomer, from the first command of README to a chat and back.

    try_install.py [FOLDER]

It types README's lines in a copy of this commit: the first command, and, after Ctrl-C, those that name
a network, here a small one of contrib's, check the settings and serve. Then it logs in with the password
that was printed, hears a message, stops bnc, and takes all back with contrib/uninstall.sh. It changes
nothing outside a folder of its own, which is HOME meanwhile. FOLDER is a minimal Debian, as debootstrap
makes one, with /proc in it; then all of bnc's part happens there, by chroot, which root alone can
begin. If root begins it, a user without rights goes on, in a network of its own; else port 6667 has to
be free. PROGRAM names a program to hand out in place of that in dist/. The status is 1 if anything else
happens.
"""

import contextlib
import gzip
import hashlib
import os
import pathlib
import re
import signal
import socket
import subprocess
import sys
import tempfile
import time

from small_network import PATIENCE, Network, Wrong, wait_for

REPOSITORY = pathlib.Path(__file__).resolve().parent.parent
NAME = "bnc-x86_64-linux-gnu"
USER = 1000
FIRST = "contrib/install.sh && ~/.local/bin/bnc serve ~/.config/bnc/bnc.toml"
EDIT = "${EDITOR:-vi} ~/.config/bnc/bnc.toml"
CHECK = "~/.local/bin/bnc check ~/.config/bnc/bnc.toml"
SERVE = "~/.local/bin/bnc serve ~/.config/bnc/bnc.toml"
PORT = 6667  # of contrib/bnc.toml


class Newcomer:
    """Somebody with a copy of the repository at home, maybe in another system."""

    def __init__(self, home, root=None):
        self.home, self.root = pathlib.Path(home), root
        inside = pathlib.Path("/") / self.home.relative_to(root) if root else self.home
        self.before = ["chroot", f"--userspec={USER}:{USER}", root] if root else []
        if not root and os.getuid() == 0:
            self.before = ["setpriv", f"--reuid={USER}", f"--regid={USER}", "--clear-groups"]
        path = "/usr/local/bin:/usr/bin:/bin" if root else os.environ["PATH"]
        self.before += ["env", "-i", f"HOME={inside}", f"PATH={path}"]
        self.copy, self.inside = self.home / "bnc", inside / "bnc"
        self.log = self.home / "log"

    def fetch(self):
        """A copy of this commit, with the program that is to be tried in dist/."""
        self.copy.mkdir()
        archive = subprocess.run(
            ["git", "archive", "HEAD"], cwd=REPOSITORY, stdout=subprocess.PIPE, check=True
        )
        subprocess.run(["tar", "-x", "-C", self.copy], input=archive.stdout, check=True)
        program = os.environ.get("PROGRAM")
        if program:
            dist, bytes_ = self.copy / "dist", pathlib.Path(program).read_bytes()
            dist.mkdir(exist_ok=True)
            packed = gzip.compress(bytes_, 1, mtime=0)
            (dist / f"{NAME}.gz").write_bytes(packed)
            sums = [(f"{NAME}.gz", packed), (NAME, bytes_)]
            (dist / "SHA256SUMS").write_text(
                "".join(f"{hashlib.sha256(b).hexdigest()}  {name}\n" for name, b in sums)
            )
        if os.getuid() == 0:
            subprocess.run(["chown", "-R", f"{USER}:{USER}", self.home], check=True)

    def begin(self, line, editor="false"):
        """Starts a line of the shell in the copy; its output comes into the log."""
        words = [*self.before, f"EDITOR={editor}", "sh", "-c", f"cd {self.inside} && {line}"]
        with self.log.open("w") as log:
            return subprocess.Popen(words, stdout=log, stderr=log, start_new_session=True)

    def type(self, line, editor="false"):
        """Types a line, to its end; what it says."""
        ended = self.begin(line, editor).wait(PATIENCE)
        said = self.log.read_text()
        if ended:
            raise Wrong(f"{line}: status {ended}\n{said}")
        return said

    def settings(self):
        return self.home / ".config/bnc/bnc.toml"


@contextlib.contextmanager
def running(newcomer, line):
    """Runs a line until it listens, and ends it at the end if it has not ended by itself."""
    process = newcomer.begin(line)
    try:
        wait_for(
            "line that says listening",
            lambda: "listening " in newcomer.log.read_text() or process.poll() is not None,
        )
        if process.poll() is not None:
            raise Wrong(f"{line}: ended\n{newcomer.log.read_text()}")
        yield process
    finally:
        with contextlib.suppress(ProcessLookupError):
            os.killpg(process.pid, signal.SIGKILL)
        process.wait(PATIENCE)


def install(newcomer):
    """README's first command, until Ctrl-C; the password that it prints."""
    with running(newcomer, FIRST) as process:
        said = newcomer.log.read_text()
        os.killpg(process.pid, signal.SIGINT)
        process.wait(PATIENCE)
    found = re.search(r"shown this once: (\S+)", said)
    if not found:
        raise Wrong(f"no password in: {said}")
    return found[1]


def chat(newcomer, password):
    """A network is named, a client logs in, hears what is said, and bnc is asked to stop."""
    network = Network(["#c"])
    port = network.listener.getsockname()[1]
    newcomer.type(EDIT, f"sed -i s/127.0.0.1:6660/127.0.0.1:{port}/")
    if "users 1 networks 1" not in newcomer.type(CHECK):
        raise Wrong("bnc check does not say what it has to")
    with running(newcomer, f"exec {SERVE}") as process:
        network.let_in()
        wait_for("JOIN", lambda: network.joined, network.hear)
        network.ask()
        with socket.create_connection(("127.0.0.1", PORT), PATIENCE) as client:
            client.sendall(f"PASS ann@pc/net:{password}\r\nNICK x\r\nUSER x 0 * x\r\n".encode())
            heard = b""
            while b"JOIN #c" not in heard:
                piece = client.recv(65536)
                if not piece:
                    raise Wrong(f"the login ended: {heard}")
                heard += piece
            network.put(":bob!b@h PRIVMSG #c :the build is green")
            network.flush()
            while b"the build is green" not in heard:
                heard += client.recv(65536)
        log, newcomer.log = newcomer.log, newcomer.home / "other log"
        newcomer.type("~/.local/bin/bnc control ~/.config/bnc/bnc.toml stop")
        newcomer.log = log
        if process.wait(PATIENCE):
            raise Wrong("bnc did not stop with status 0")


def uninstall(newcomer):
    newcomer.type("contrib/uninstall.sh")
    left = [path for path in (newcomer.home / ".local").rglob("*") if not path.is_dir()]
    if left or not newcomer.settings().exists():
        raise Wrong(f"left {left}, and the settings are there: {newcomer.settings().exists()}")


def main():
    if len(sys.argv) > 2 or "-h" in sys.argv:
        sys.exit(__doc__)
    if os.getuid() == 0 and not os.environ.get("ALONE"):
        alone = "ip link set lo up && exec env ALONE=1 \"$@\""
        os.execvp("unshare", ["unshare", "--net", "sh", "-c", alone, "-", sys.executable, *sys.argv])
    readme = (REPOSITORY / "README.md").read_text()
    lacking = [line for line in (FIRST, EDIT, CHECK, SERVE) if line not in readme]
    if lacking:
        sys.exit(f"try_install: README has no line {lacking[0]}")
    root = os.path.realpath(sys.argv[1]) if len(sys.argv) == 2 else None
    at = pathlib.Path(root) / "tmp" if root else None
    with tempfile.TemporaryDirectory(dir=at) as home:
        newcomer = Newcomer(home, root)
        try:
            newcomer.fetch()
            start = time.monotonic()
            password = install(newcomer)
            installed = time.monotonic()
            chat(newcomer, password)
            chatted = time.monotonic()
            uninstall(newcomer)
        except (Wrong, OSError, subprocess.SubprocessError) as wrong:
            sys.exit(f"try_install: {wrong}")
    print(
        f"try_install: installed and listening in {installed - start:.1f} s, in a chat after"
        f" {chatted - start:.1f} s, and taken back"
    )


if __name__ == "__main__":
    main()
