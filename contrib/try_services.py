#!/usr/bin/env python3
"""Tries logins with InspIRCd and Atheme of Debian: bnc joins a channel that lets only accounts in.

    try_services.py BNC

Debian packages: inspircd, atheme-services, openssl, and stunnel4 for EXTERNAL, which is left out without
it. bnc logs in by SASL PLAIN and EXTERNAL or by a line at connect, with right and wrong passwords and
certificates, and while the services are away. The status is 1 if it joins although it should not, or
the other way round, or if its log has a password.
"""

import os
import pathlib
import re
import shutil
import signal
import socket
import subprocess
import sys
import tempfile
import threading
import time

from small_network import Wrong, reserve_port, serving, wait_for

INSPIRCD = """<server name="irc.try" description="try" network="try" id="00A">
<admin name="x" nick="x" email="x@example.net"> <pid file="{at}/ircd.pid">
<log method="file" type="*" level="default" target="{at}/ircd.log">
<bind address="127.0.0.1" port="{plain}" type="clients"> <bind address="127.0.0.1" port="{link}" type="servers">
<bind address="127.0.0.1" port="{tls}" type="clients" sslprofile="tls">
<sslprofile name="tls" provider="gnutls" certfile="{at}/irc.crt" keyfile="{at}/irc.key" hash="sha256"
  requestclientcert="yes">
<connect allow="*" localmax="500" globalmax="500" useident="no" resolvehostnames="no">
<module name="cap"> <module name="sasl"> <module name="services_account"> <module name="spanningtree">
<module name="ssl_gnutls"> <module name="sslinfo"> <module name="chghost"> <module name="svshold">
<sasl target="services.try"> <uline server="services.try" silent="yes">
<link name="services.try" ipaddr="127.0.0.1" port="{link}" allowmask="127.0.0.1" sendpass="pw" recvpass="pw">
"""
MODULES = """backend/opensex protocol/inspircd crypto/pbkdf2v2 nickserv/main nickserv/cert nickserv/identify
nickserv/register saslserv/main saslserv/plain saslserv/external"""
ATHEME = """
serverinfo {{ name = "services.try"; desc = "x"; numeric = "00B"; recontime = 1; netname = "try"; adminname = "x";
adminemail = "x@example.net"; registeremail = "x@example.net"; mta = "/bin/true"; loglevel = {{ error; }};
maxlogins = 9; maxusers = 9; auth = none; casemapping = rfc1459; }};
uplink "irc.try" {{ host = "127.0.0.1"; send_password = "pw"; receive_password = "pw"; port = {link}; }};
nickserv {{ nick = "NickServ"; user = "x"; host = "services.try"; real = "x"; }};
saslserv {{ nick = "SaslServ"; user = "x"; host = "services.try"; real = "x"; }};
general {{ commit_interval = 1; }};
"""


class Person:
    """A client of the server itself."""

    def __init__(self, port, nick):
        self.text, self.socket = "", socket.create_connection(("127.0.0.1", port), 60)
        threading.Thread(target=self.read, daemon=True).start()
        self.ask(f"NICK {nick}\r\nUSER {nick} 0 * :x", " 422 ")

    def read(self):
        while piece := self.socket.recv(65536):
            self.text += piece.decode().replace("\2", "")
            for ping in re.findall(r"^PING (.*)\r", piece.decode(), re.M):
                self.socket.sendall(f"PONG {ping}\r\n".encode())

    def ask(self, line, answer):
        """Says a line, and gives what comes up to the answer."""
        start = len(self.text)
        self.socket.sendall(line.encode() + b"\r\n")
        wait_for(f"{answer} to {line}", lambda: re.search(answer, self.text[start:]))
        return self.text[start:]


class Server:
    """InspIRCd and Atheme in a folder. As a network it has the address that bnc dials."""

    def __init__(self, at):
        self.at, self.listener, self.running = at, self, []
        self.held = [reserve_port() for _ in range(4)]
        names = ("plain", "link", "tls", "stunnel")
        self.ports = {name: one.getsockname()[1] for name, one in zip(names, self.held)}
        self.dialled = "plain"
        for name in ("irc", "me", "other"):
            subprocess.run(
                ["openssl", "req", "-x509", "-newkey", "ec", "-pkeyopt", "ec_paramgen_curve:prime256v1",
                 "-nodes", "-subj", f"/CN={name}", "-keyout", at / f"{name}.key", "-out", at / f"{name}.crt"],
                check=True, capture_output=True,
            )
        (at / "ircd.conf").write_text(INSPIRCD.format(at=at, **self.ports))
        lines = "".join(f'loadmodule "modules/{name}";\n' for name in MODULES.split())
        (at / "atheme.conf").write_text(lines + ATHEME.format(**self.ports))
        for path in (at, *at.iterdir()):
            path.chmod(0o777)
        self.run("/usr/sbin/inspircd", "--runasroot", "--nofork", f"--config={at}/ircd.conf")
        time.sleep(2)
        self.services = self.start_services()

    def getsockname(self):
        return "127.0.0.1", self.ports[self.dialled]

    def run(self, *command):
        nowhere = subprocess.DEVNULL
        self.running.append(subprocess.Popen(command, stdout=nowhere, stderr=nowhere, cwd=self.at))
        return self.running[-1]

    def start_services(self):
        """Atheme refuses to run as root."""
        user = ["setpriv", "--reuid=65534", "--regid=65534", "--clear-groups"] if os.getuid() == 0 else []
        names = {"c": "atheme.conf", "D": "", "l": "a.log", "p": "a.pid"}
        paths = [f"-{letter}{self.at}/{name}" for letter, name in names.items()]
        return self.run(*user, "atheme-services", "-n", *paths)

    def start_stunnel(self, name):
        """A TLS proxy that shows this certificate."""
        path = self.at / f"{name}.conf"
        path.write_text(
            f"foreground = yes\npid =\n[net]\nclient = yes\naccept = 127.0.0.1:{self.ports['stunnel']}\n"
            f"connect = 127.0.0.1:{self.ports['tls']}\ncert = {self.at}/{name}.crt\nkey = {self.at}/{name}.key\n"
        )
        return self.run("stunnel4", path)


def try_login(program, server, bob, more, is_let_in, meanwhile=lambda: None):
    """bnc with these keys joins the channel, or it does not within 8 seconds, and logs why not."""
    log, start = [], len(bob.text)
    with serving(program, server, ["#c"], more, log):
        meanwhile()
        if is_let_in:
            wait_for(f"JOIN with {more}", lambda: re.search(r":ann!\S+ JOIN", bob.text[start:]))
        else:
            time.sleep(8)
            if re.search(r":ann!\S+ JOIN", bob.text[start:]):
                raise Wrong(f"it joined with {more}")
    if "sasl" in more and not is_let_in and "not registered: SASL failed" not in log[0]:
        raise Wrong(f"no word of a failed login: {log[0]}")
    if "secret" in log[0] or "hunter2" in log[0]:
        raise Wrong(f"the log has a password: {log[0]}")
    wait_for("end of ann", lambda: " 401 " in bob.ask("WHOIS ann", " 318 "))  # the nick is free again


def try_all(program, server):
    owner = Person(server.ports["plain"], "ann")
    wait_for("NickServ", lambda: " 311 ann NickServ" in owner.text, lambda: owner.ask("WHOIS NickServ", " 318 "))
    owner.ask("PRIVMSG NickServ :REGISTER secret ann@example.net", "now registered")
    told = subprocess.run(
        ["openssl", "x509", "-in", server.at / "me.crt", "-noout", "-fingerprint", "-sha256"],
        check=True, capture_output=True, text=True,
    ).stdout
    fingerprint = told.split("=")[1].strip().replace(":", "").lower()
    owner.ask(f"PRIVMSG NickServ :CERT ADD {fingerprint}", "Added fingerprint")
    owner.socket.sendall(b"QUIT\r\n")
    bob = Person(server.ports["plain"], "bob")
    bob.ask("JOIN #c\r\nMODE #c +R", "MODE #c")
    plain = 'sasl = "PLAIN"\nsasl_password = "{}"\n'
    try_login(program, server, bob, "", False)
    try_login(program, server, bob, plain.format("secret"), True)
    try_login(program, server, bob, plain.format("hunter2"), False)
    try_login(program, server, bob, 'on_connect = ["PRIVMSG NickServ :IDENTIFY secret"]\n', True)
    server.services.send_signal(signal.SIGTERM)  # it writes its accounts
    server.services.wait(60)
    try_login(program, server, bob, plain.format("secret"), False)
    try_login(program, server, bob, plain.format("secret"), True, server.start_services)
    if shutil.which("stunnel4"):
        server.dialled = "stunnel"
        for name in ("me", "other"):
            proxy = server.start_stunnel(name)
            time.sleep(2)
            try_login(program, server, bob, 'sasl = "EXTERNAL"\n', name == "me")
            proxy.kill()
            proxy.wait(60)


def main():
    if len(sys.argv) != 2:
        sys.exit(__doc__)
    with tempfile.TemporaryDirectory() as folder:
        server = Server(pathlib.Path(folder))
        try:
            try_all(sys.argv[1], server)
        except (Wrong, OSError) as wrong:
            sys.exit(f"try_services: {wrong}")
        finally:
            for process in server.running:
                process.kill()
    print("try_services: each login as it has to be")


if __name__ == "__main__":
    main()
