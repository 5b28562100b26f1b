#!/usr/bin/env python3
"""Tries the figures that bnc writes for a program that watches.

    try_metrics.py BNC

The file is there soon after the start and has every figure once; names cannot break out of their labels;
the word `metrics` has it written anew, with the session, the message, the refusal and the dials since; a
folder that is not there is logged once; without the key the word is answered in the log; and while the
program is stopped and its FIFO full, `bnc control` does not wait. The status is 1 if anything else happens.
"""

import hashlib
import os
import pathlib
import re
import signal
import socket
import subprocess
import sys
import tempfile

from bouncer import Bouncer
from small_network import PATIENCE, Client, Network, Wrong, reserve_port, wait_for

SETTINGS = """listen = "127.0.0.1:{port}"
retry = 1
{metrics}[[user]]
name = "ann"
salt = "61"
password = "{digest}"
[[user.network]]
name = "net"
address = "127.0.0.1:{network}"
nick = "ann"
user = "ann"
realname = "Ann"
join = ["#c"]
[[user]]
name = "b\\"ob\\\\"
salt = "61"
password = "{digest}"
[[user.network]]
name = "n\\"et"
address = "127.0.0.1:{dead}"
nick = "bob"
user = "bob"
realname = "Bob"
"""
SAMPLE = re.compile(r'(\w+)(?:\{user="((?:[^"\\]|\\.)*)",network="((?:[^"\\]|\\.)*)"\})? (\d+)')
HEADS = re.compile(r"# (HELP \w+ .+|TYPE \w+ (gauge|counter))")


def plain(value):
    """A label's value as it was before it was written."""
    return re.sub(r"\\(.)", lambda found: "\n" if found[1] == "n" else found[1], value)


def read_figures(path):
    """The figures of a file: by name, or by name and network."""
    figures = {}
    for line in path.read_text().splitlines():
        found = SAMPLE.fullmatch(line)
        if found:
            name, user, network, number = found.groups()
            key = (name, f"{plain(user)}/{plain(network)}") if user is not None else name
            if key in figures:
                raise Wrong(f"{key} stands twice")
            figures[key] = int(number)
        elif not HEADS.fullmatch(line):
            raise Wrong(f"no line of this form: {line}")
    return figures


def begin(bouncer, metrics):
    """Starts bnc with this line in its settings; answers its network."""
    network = bouncer.network = Network(["#c"])  # which is there as long as bnc dials it
    bouncer.dead = reserve_port()  # at which nobody ever listens
    text = SETTINGS.format(
        port=bouncer.port,
        metrics=metrics,
        digest=hashlib.sha256(b"abc").hexdigest(),
        network=network.listener.getsockname()[1],
        dead=bouncer.dead.getsockname()[1],
    )
    bouncer.settings.write_text(text)
    bouncer.settings.chmod(0o600)
    bouncer.start()
    return network


def refuse_one(port):
    """A login with a wrong password, to its end."""
    with socket.create_connection(("127.0.0.1", port), PATIENCE) as one:
        one.sendall(b"PASS ann/net:wrong\r\nNICK x\r\nUSER x 0 * x\r\n")
        while one.recv(4096):
            pass


def ask(bouncer, is_there):
    """Has the figures written until they are so."""
    path = bouncer.folder / "bnc.prom"

    def ordered():
        bouncer.order("metrics")
        return path.exists() and is_there(read_figures(path))

    wait_for("figures as they have to be", ordered)
    return read_figures(path)


def figures_written(bouncer):
    network = begin(bouncer, 'metrics = "bnc.prom"\n')
    path = bouncer.folder / "bnc.prom"
    wait_for("file", path.exists)
    network.let_in()
    wait_for("JOIN", lambda: network.joined, network.hear)
    network.ask()  # until it has taken that, a client is told that the network is not ready
    client = Client(bouncer.port, "pc", [])
    wait_for("channel", lambda: "#c" in client.channels, network.hear)
    network.put(":bob!b@h PRIVMSG #c :hello")
    network.flush()
    wait_for("message", lambda: client.messages)
    refuse_one(bouncer.port)
    here, there = "ann/net", 'b"ob\\/n"et'
    figures = ask(bouncer, lambda now: now["bnc_refusals_total"] == 1 and now["bnc_dials_total"] >= 2)
    want = {
        ("bnc_network_online", here): 1, ("bnc_network_online", there): 0,
        ("bnc_sessions", here): 1, ("bnc_sessions", there): 0,
        ("bnc_kept_messages", here): 1, ("bnc_kept_messages", there): 0,
        ("bnc_kept_bytes", here): 45, ("bnc_kept_bytes", there): 0,
        "bnc_cuts_total": 0, "bnc_refusals_total": 1, "bnc_log_lines_lost_total": 0,
        "bnc_dials_total": figures["bnc_dials_total"],
    }
    if figures != want:
        raise Wrong(f"figures {figures}, not {want}")
    # the last word may still be carried out
    wait_for("end of the file beside it", lambda: not (bouncer.folder / "bnc.prom.new").exists())


def a_folder_that_is_missing(bouncer):
    begin(bouncer, 'metrics = "missing/bnc.prom"\n')
    for _ in range(3):
        bouncer.order("metrics")
    bouncer.order("status")
    wait_for("status", lambda: "ann/net: offline" in bouncer.log.read_text())
    wait_for("line of the log", lambda: "metrics not written" in bouncer.log.read_text())
    for _ in range(3):
        bouncer.order("metrics")
    bouncer.order("stop")
    bouncer.wait_for_end()
    if bouncer.log.read_text().count("metrics not written") != 1:
        raise Wrong(f"the failure is not logged once: {bouncer.log.read_text()}")


def without_the_key(bouncer):
    begin(bouncer, "")
    bouncer.order("metrics")
    wait_for("line of the log", lambda: "no key `metrics`" in bouncer.log.read_text())


def has_stopped(process):
    """Whether each of its threads is stopped."""
    try:
        stats = [path.read_text() for path in pathlib.Path(f"/proc/{process.pid}/task").glob("*/stat")]
    except OSError:  # one of them has just ended
        return False
    return all(stat.rpartition(") ")[2].startswith("T") for stat in stats)


def a_full_fifo(bouncer):
    begin(bouncer, "")
    bouncer.order("metrics")
    wait_for("line of the log", lambda: "no key `metrics`" in bouncer.log.read_text())
    words = [bouncer.program, "control", bouncer.settings, "status"]
    os.kill(bouncer.process.pid, signal.SIGSTOP)
    try:
        wait_for("stop of each thread", lambda: has_stopped(bouncer.process))
        fifo = os.open(bouncer.fifo, os.O_WRONLY | os.O_NONBLOCK)
        try:
            while True:
                os.write(fifo, b"status\n")
        except BlockingIOError:
            os.close(fifo)
        told = subprocess.run(words, capture_output=True, text=True, timeout=PATIENCE)
    finally:
        os.kill(bouncer.process.pid, signal.SIGCONT)
    want = (1, f"bnc: nobody reads {bouncer.fifo}\n")
    if (told.returncode, told.stderr) != want:
        raise Wrong(f"{told}, not {want}")
    wait_for("reader of the FIFO", lambda: subprocess.run(words, capture_output=True).returncode == 0)


def main():
    if len(sys.argv) != 2:
        sys.exit(__doc__)
    tries = [figures_written, a_folder_that_is_missing, without_the_key, a_full_fifo]
    for one in tries:
        with tempfile.TemporaryDirectory() as folder:
            bouncer = Bouncer(sys.argv[1], folder)
            try:
                one(bouncer)
            except (Wrong, OSError, subprocess.TimeoutExpired) as wrong:
                log = bouncer.log.read_text()[-600:] if bouncer.log.exists() else ""
                sys.exit(f"try_metrics: {one.__name__}: {wrong}\n{log}")
            finally:
                bouncer.kill()
    print(f"try_metrics: {len(tries)} tries as they have to be")


if __name__ == "__main__":
    main()
