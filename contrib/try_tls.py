#!/usr/bin/env python3
"""Tries TLS on both sides: irssi, stunnel, bnc, stunnel, ngIRCd, as contrib/tls.sh sets it up.

    try_tls.py BNC

A certificate that is not trusted ends the connection, of the network and of irssi. With the right ones
irssi reads what was said while no client was attached, and a message goes each way. Debian packages:
irssi, ngircd, stunnel4, openssl. The status is 1 if anything else happens.
"""

import contextlib
import hashlib
import os
import pathlib
import pty
import re
import socket
import ssl
import subprocess
import sys
import tempfile
import threading

from small_network import PATIENCE, Wrong, reserve_port, wait_for

HERE = pathlib.Path(__file__).resolve().parent
SETTINGS = """listen = "127.0.0.1:{plain}"
listen_proxy = "127.0.0.1:{proxied}"
retry = 1
[[user]]
name = "ann"
salt = "61"
password = "{digest}"
[[user.network]]
name = "net"
address = "127.0.0.1:{local}"
nick = "ann"
user = "ann"
realname = "Ann"
join = ["#c"]
"""
NGIRCD = """[Global]
Name = irc.example.net
Info = try
Listen = 127.0.0.1
Ports = {open}
[SSL]
CertFile = {folder}/net.crt
KeyFile = {folder}/net.key
Ports = {network}
[Limits]
MaxConnectionsIP = 0
[Options]
DNS = no
Ident = no
PAM = no
"""


class Bob:
    """A person on the network, who came by TLS."""

    def __init__(self, port, trusted):
        context = ssl.create_default_context(cafile=trusted)
        plain = socket.create_connection(("localhost", port), PATIENCE)
        self.socket = context.wrap_socket(plain, server_hostname="localhost")
        self.heard = ""
        threading.Thread(target=self.read, daemon=True).start()
        self.say("NICK bob\r\nUSER bob 0 * :bob\r\nJOIN #c")
        wait_for("channel of bob", lambda: " 366 bob #c " in self.heard)

    def say(self, line):
        self.socket.sendall(line.encode() + b"\r\n")

    def read(self):
        with contextlib.suppress(OSError):
            while piece := self.socket.recv(65536):
                self.heard += piece.decode()


class Irssi:
    """irssi at a terminal of its own."""

    def __init__(self, home):
        self.terminal, other = pty.openpty()
        environment = {**os.environ, "TERM": "vt100", "LINES": "50", "COLUMNS": "120"}
        words = ["irssi", f"--home={home}", "-n", "ann"]
        self.process = subprocess.Popen(
            words, stdin=other, stdout=other, stderr=other, env=environment, start_new_session=True
        )
        os.close(other)
        self.shown = ""
        threading.Thread(target=self.read, daemon=True).start()
        wait_for("window of irssi", lambda: "Irssi" in self.shown)
        self.type("/set window_auto_change on")

    def type(self, line):
        os.write(self.terminal, line.encode() + b"\r")

    def read(self):
        with contextlib.suppress(OSError):
            while piece := os.read(self.terminal, 65536):
                self.shown += piece.decode(errors="replace")

    def connect(self, trusted, port, name):
        self.type(f"/connect -tls -tls_verify -tls_cafile {trusted} localhost {port} ann@{name}/net:bc")


class Stage:
    """A folder with all programs, which end with it."""

    def __init__(self, program, folder):
        self.program, self.folder, self.running = program, pathlib.Path(folder), contextlib.ExitStack()
        names = ("open", "network", "local", "plain", "proxied", "front")
        self.reserved = {name: reserve_port() for name in names}
        self.port = {name: it.getsockname()[1] for name, it in self.reserved.items()}
        for name in ("net", "other"):
            self.certify(name)

    def certify(self, name):
        """A certificate for localhost, which nobody has signed but itself."""
        words = "req -x509 -newkey rsa:2048 -nodes -days 2 -subj /CN=localhost -addext subjectAltName=DNS:localhost"
        files = ["-keyout", self.folder / f"{name}.key", "-out", self.folder / f"{name}.crt"]
        subprocess.run(["openssl", *words.split(), *files], check=True, capture_output=True)

    def write(self, name, text):
        text = text.format(folder=self.folder, digest=hashlib.sha256(b"abc").hexdigest(), **self.port)
        (self.folder / name).write_text(text)
        (self.folder / name).chmod(0o600)

    def begin(self, name, *words):
        """Starts a program, whose output comes into a file; it ends at the end at the latest."""
        with (self.folder / f"{name}.log").open("a") as log:
            process = subprocess.Popen(words, cwd=self.folder, stdout=log, stderr=log)
        self.running.callback(process.wait, PATIENCE)
        self.running.callback(process.kill)
        return process

    def log(self, name):
        return (self.folder / f"{name}.log").read_text()

    def tls(self, trusted):
        """Has contrib/tls.sh set stunnel up, and starts it."""
        network = f"{self.port['local']}=localhost:{self.port['network']}"
        front = f"127.0.0.1:{self.port['front']}"
        subprocess.run(
            [HERE / "tls.sh", self.folder / "bnc.toml", "-a", front, network],
            env={**os.environ, "CAFILE": str(self.folder / trusted)}, check=True, capture_output=True,
        )
        return self.begin("stunnel", "stunnel", self.folder / "bnc.stunnel.conf")


def of_program(name, *places):
    """A program's path, also one of those that only root has in PATH."""
    found = [place for place in places if pathlib.Path(place).exists()]
    if not found:
        raise Wrong(f"{name} is not installed")
    return found[0]


def a_network_that_is_not_trusted(stage):
    stunnel = stage.tls("other.crt")
    wait_for("refusal of the network", lambda: "not registered: cannot read" in stage.log("bnc"))
    if "Rejected by CERT" not in stage.log("stunnel") and "verify failed" not in stage.log("stunnel"):
        raise Wrong(f"stunnel does not say why:\n{stage.log('stunnel')[-600:]}")
    stunnel.kill()
    stunnel.wait(PATIENCE)


def a_client_that_does_not_trust(stage, irssi):
    irssi.connect(stage.folder / "other.crt", stage.port["front"], "wary")
    wait_for("refusal by irssi", lambda: "Could not verify TLS" in irssi.shown)
    if "ann@wary/net" in stage.log("bnc"):
        raise Wrong("irssi logged in, though it does not trust the certificate")


def a_chat(stage, irssi):
    bob = Bob(stage.port["network"], stage.folder / "net.crt")
    wait_for("bnc on the channel", lambda: re.search(r"[ @:]ann[ !\r]", bob.heard))
    bob.say("PRIVMSG #c :said-before")
    irssi.connect(stage.folder / "bnc.crt", stage.port["front"], "irssi")
    wait_for("message that came before", lambda: "said-before" in irssi.shown)
    if "ann@irssi/net" not in stage.log("bnc"):
        raise Wrong("the log has no session of irssi")
    bob.say("PRIVMSG #c :said-now")
    wait_for("message of now", lambda: "said-now" in irssi.shown)
    irssi.type("/msg #c said-by-irssi")
    wait_for("message of irssi", lambda: "PRIVMSG #c :said-by-irssi" in bob.heard)


def main():
    if len(sys.argv) != 2:
        sys.exit(__doc__)
    ngircd = of_program("ngircd", "/usr/sbin/ngircd", "/usr/local/sbin/ngircd")
    with tempfile.TemporaryDirectory() as folder:
        stage = Stage(str(pathlib.Path(sys.argv[1]).resolve()), folder)
        with stage.running:
            try:
                stage.write("ngircd.conf", NGIRCD)
                stage.write("bnc.toml", SETTINGS)
                stage.begin("ngircd", ngircd, "-n", "-f", stage.folder / "ngircd.conf")
                stage.begin("bnc", stage.program, "serve", "bnc.toml")
                a_network_that_is_not_trusted(stage)
                stage.tls("net.crt")
                irssi = Irssi(stage.folder / "irssi")
                stage.running.callback(irssi.process.wait, PATIENCE)
                stage.running.callback(irssi.process.kill)
                a_client_that_does_not_trust(stage, irssi)
                a_chat(stage, irssi)
            except (Wrong, OSError, subprocess.SubprocessError) as wrong:
                logs = [stage.log(name)[-800:] for name in ("bnc", "stunnel", "ngircd")]
                sys.exit("\n".join([f"try_tls: {wrong}", *logs]))
    print("try_tls: irssi over TLS to bnc to ngIRCd over TLS, and no certificate that is not trusted")


if __name__ == "__main__":
    main()
