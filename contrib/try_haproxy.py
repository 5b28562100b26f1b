"""Four bnc behind Debian's HAProxy: 1,000 users, 2,000 sessions, one killed, one user moved.

    contrib/try_haproxy.py PROGRAM [USERS]

It runs contrib/shard.sh, contrib/haproxy.cfg with other ports, and a network of its own, and prints
figures. Each client logs in through HAProxy, so each login is by TLS and with a PROXY line. HAProxy is
reloaded too. Debian packages: haproxy, socat, openssl. Status 1 if a client gets other lines than it
should.
"""

import asyncio
import hashlib
import os
import pathlib
import re
import resource
import signal
import socket
import ssl
import subprocess
import sys
import tempfile
import time

HERE = pathlib.Path(__file__).resolve().parent
PROCESSES = 4
FIRST, FIRST_PROXY, FRONT = 16701, 16801, 16697
USER = """[[user]]
name = "{name}"
salt = "61"
password = "{digest}"
[[user.network]]
name = "net"
address = "{host}:{port}"
nick = "{name}"
user = "u"
realname = "r"
join = ["#{name}"]
"""
TOP = """listen = "127.0.0.1:{first}"
listen_proxy = "127.0.0.1:{first_proxy}"
retry = 1
kept = "kept"
"""


class Network:
    """A network of which each member has a channel alone, and a voice that speaks in all of them."""

    def __init__(self):
        self.members = {}

    async def serve(self, reader, writer):
        nick = None
        try:
            while line := (await reader.readline()).decode().rstrip("\r\n"):
                word, _, rest = line.partition(" ")
                if word == "NICK":
                    nick = rest.lstrip(":")
                elif word == "USER":
                    writer.write(f":s 001 {nick} :hi\r\n:s 376 {nick} :end\r\n".encode())
                elif word == "JOIN":
                    self.members[nick] = writer
                    writer.write(f":{nick}!u@h JOIN {rest}\r\n:s 353 {nick} = {rest} :{nick}\r\n:s 366 {nick} {rest} :end\r\n".encode())
                elif word == "PING":
                    writer.write(f":s PONG s {rest}\r\n".encode())
        except (OSError, asyncio.CancelledError):
            # bnc was killed, or this is the end
            pass
        finally:
            if self.members.get(nick) is writer:
                del self.members[nick]
            writer.close()

    def say(self, text):
        """One message to the channel of each member."""
        for nick, writer in self.members.items():
            writer.write(f":voice!v@h PRIVMSG #{nick} :{text}\r\n".encode())


async def until(what, is_there, seconds=120):
    end = time.monotonic() + seconds
    while not is_there():
        if time.monotonic() > end:
            sys.exit(f"no {what}")
        await asyncio.sleep(0.02)


class Client:
    """A client of a user, through HAProxy."""

    def __init__(self, user, name):
        self.user, self.name, self.lines, self.writer = user, name, [], None

    async def attach(self, context):
        reader, self.writer = await asyncio.open_connection("127.0.0.1", FRONT, ssl=context)
        login = f"PASS {self.user}@{self.name}/net:abc\r\nNICK x\r\nUSER x 0 * :x\r\n"
        self.writer.write(login.encode())
        self.task = asyncio.create_task(self.read(reader))

    async def read(self, reader):
        try:
            while line := await reader.readline():
                self.lines.append(line.decode().rstrip("\r\n"))
        except (OSError, asyncio.IncompleteReadError):
            pass

    def has_joined(self):
        return any(f"JOIN #{self.user}" in line for line in self.lines)

    def heard(self):
        found = [re.search(r" PRIVMSG #\S+ :?(.*)$", line) for line in self.lines]
        return [it[1] for it in found if it]

    async def leave(self):
        self.writer.write(b"QUIT\r\n")
        await self.task


async def end_tasks(server):
    """Ends the network and what still reads, so that nothing is left when the loop closes."""
    server.close()
    others = asyncio.all_tasks() - {asyncio.current_task()}
    for task in others:
        task.cancel()
    await asyncio.gather(*others, return_exceptions=True)


def memory(pid):
    """The MiB that a process has for itself."""
    text = pathlib.Path(f"/proc/{pid}/smaps_rollup").read_text()
    return sum(int(n) for n in re.findall(r"Private_\w+: +(\d+) kB", text)) / 1024


class Front:
    """The processes, and HAProxy before them, in a folder."""

    def __init__(self, program, folder, users, port):
        self.program, self.folder, self.bnc = program, folder, {}
        text = TOP.format(first=FIRST, first_proxy=FIRST_PROXY)
        digest = hashlib.sha256(b"aabc").hexdigest()
        for number, name in enumerate(users):
            # an address each, since networks at one address are dialled a second apart
            host = f"127.1.{number // 250}.{number % 250 + 1}"
            text += USER.format(name=name, digest=digest, host=host, port=port)
        (folder / "bnc.toml").write_text(text)
        subprocess.run([HERE / "shard.sh", str(PROCESSES), folder / "bnc.toml"], check=True)
        self.place = dict(line.split() for line in (folder / "bnc.map").read_text().splitlines())

    def start(self, number):
        log = open(self.folder / f"log.{number}", "a")
        fifo = self.folder / f"bnc.{number}.toml.control"
        if not fifo.exists():
            subprocess.run(["mkfifo", "-m", "600", fifo], check=True)
        self.bnc[number] = subprocess.Popen([self.program, "serve", f"bnc.{number}.toml"], cwd=self.folder, stdout=log, stderr=log)

    def front(self):
        subprocess.run(["openssl", "req", "-x509", "-newkey", "rsa:2048", "-nodes", "-days", "2", "-subj", "/CN=bnc",
                        "-keyout", self.folder / "key", "-out", self.folder / "crt"], check=True, capture_output=True)
        (self.folder / "bnc.pem").write_text((self.folder / "crt").read_text() + (self.folder / "key").read_text())
        text = (HERE / "haproxy.cfg").read_text()
        text = text.replace("/etc/haproxy", str(self.folder)).replace("/run/haproxy", str(self.folder))
        text = text.replace(":6697", f"127.0.0.1:{FRONT}").replace("127.0.0.1:680", "127.0.0.1:1680")
        (self.folder / "haproxy.cfg").write_text(text)
        # a master with a worker, as Debian's unit runs it
        words = ["haproxy", "-W", "-q", "-f", self.folder / "haproxy.cfg"]
        self.haproxy = subprocess.Popen(words, start_new_session=True)

    def workers(self):
        pid = self.haproxy.pid
        return pathlib.Path(f"/proc/{pid}/task/{pid}/children").read_text().split()

    def is_up(self):
        try:
            socket.create_connection(("127.0.0.1", FRONT), 1).close()
        except OSError:
            return False
        return True

    def order(self, number, word):
        subprocess.run([self.program, "control", f"bnc.{number}.toml", word], cwd=self.folder, check=True)

    def ask_haproxy(self, words):
        subprocess.run(["socat", "-", f"UNIX-CONNECT:{self.folder}/bnc.sock"], input=words.encode() + b"\n", check=True, capture_output=True)

    async def move(self, user, to):
        """Moves a user: its settings first out of the one file, then into the other, then HAProxy's map."""
        old = int(self.place[user][3:])
        source, target = (self.folder / f"bnc.{n}.toml" for n in (old, to))
        head, mark, rest = source.read_text().partition(f'[[user]]\nname = "{user}"\n')
        own, more, others = rest.partition("[[user]]\n")
        source.write_text(head + more + others)
        self.order(old, "reload")
        log = self.folder / f"log.{old}"
        await until("end of the user there", lambda: f"{user}/net: removed; its journal stays" in log.read_text())
        target.write_text(target.read_text() + mark + own)
        self.order(to, "reload")
        self.ask_haproxy(f"set map {self.folder}/bnc.map {user} bnc{to}")
        self.place[user] = f"bnc{to}"

    def end(self):
        os.killpg(self.haproxy.pid, signal.SIGKILL)
        for process in [*self.bnc.values(), self.haproxy]:
            process.send_signal(signal.SIGKILL)
            process.wait()


async def attach_all(clients, context):
    began = time.monotonic()
    for start in range(0, len(clients), 100):
        await asyncio.gather(*[it.attach(context) for it in clients[start:start + 100]])
    await until("late attach", lambda: all(it.has_joined() for it in clients), 30)
    return time.monotonic() - began


def check(what, clients, wanted):
    wrong = [it for it in clients if it.heard() != wanted]
    if wrong:
        sys.exit(f"{what}: {wrong[0].user}@{wrong[0].name} heard {wrong[0].heard()}, not {wanted}; {len(wrong)} of {len(clients)}")


async def trial(program, count, folder):
    network = Network()
    server = await asyncio.start_server(network.serve, "0.0.0.0", 0, backlog=4096)
    users = [f"user{number}" for number in range(count)]
    context = ssl.create_default_context()
    context.check_hostname, context.verify_mode = False, ssl.CERT_NONE
    front = Front(program, folder, users, server.sockets[0].getsockname()[1])
    for number in range(1, PROCESSES + 1):
        front.start(number)
    front.front()
    try:
        await until("all networks", lambda: len(network.members) == count)
        await until("HAProxy", front.is_up)
        clients = [Client(user, name) for user in users for name in ("desk", "phone")]
        seconds = await attach_all(clients, context)
        print(f"{len(clients)} sessions of {count} users attached in {seconds:.1f} s")
        began = time.monotonic()
        network.say("one")
        await until("one message", lambda: all(it.heard() for it in clients))
        print(f"one message to each user, {len(clients)} deliveries, in {time.monotonic() - began:.2f} s")
        check("live", clients, ["one"])
        used = [memory(process.pid) for process in front.bnc.values()]
        print(f"memory of a process with a fourth of them: {max(used):.0f} MiB; HAProxy: {memory(front.workers()[0]):.0f} MiB")

        # a process that is killed takes its own clients with it, and no others
        time.sleep(1)
        front.bnc[1].send_signal(signal.SIGKILL)
        front.bnc[1].wait()
        own = [it for it in clients if front.place[it.user] == "bnc1"]
        others = [it for it in clients if front.place[it.user] != "bnc1"]
        await until("end of its sessions", lambda: all(it.task.done() for it in own))
        front.start(1)
        await until("all networks again", lambda: len(network.members) == count)
        network.say("two")
        await until("the second message", lambda: all(len(it.heard()) == 2 for it in others))
        check("beside a killed process", others, ["one", "two"])
        again = [Client(it.user, it.name) for it in own]
        await asyncio.sleep(6)
        await attach_all(again, context)
        await until("what was missed", lambda: all(it.heard()[-1:] == ["two"] for it in again))
        wrong = [it for it in again if it.heard() not in (["two"], ["one", "two"])]
        if wrong:
            sys.exit(f"after a kill {wrong[0].user}@{wrong[0].name} heard {wrong[0].heard()}")
        print(f"one process killed and started again: {len(again)} sessions came back, the {len(others)} others stayed")

        # a reload of HAProxy ends no session, and lets others in
        worker = front.workers()
        front.haproxy.send_signal(signal.SIGUSR2)
        await until("another worker of HAProxy", lambda: len(front.workers()) > len(worker))
        await until("HAProxy", front.is_up)
        late = [Client(user, "late") for user in users[:PROCESSES]]
        await attach_all(late, context)
        network.say("reloaded")
        there = [*others, *again, *late]
        await until("the message after a reload", lambda: all(it.heard()[-1:] == ["reloaded"] for it in there))
        print(f"HAProxy reloaded: {len(others) + len(again)} sessions stayed, and {len(late)} came")

        # a user moves, with what is kept
        user = next(it for it in users if front.place[it] == "bnc2")
        mine = [it for it in clients if it.user == user and not it.task.done()]
        for it in mine:
            await it.leave()
        network.say("three")
        await asyncio.sleep(1)
        await front.move(user, 3)
        await until("the user's network", lambda: len(network.members) == count)
        await asyncio.sleep(1)
        moved = [Client(it.user, it.name) for it in mine]
        await attach_all(moved, context)
        await until("what was missed", lambda: all(it.heard() for it in moved))
        check("after a move", moved, ["three"])
        print("one user moved to another process, with its messages")
    except SystemExit:
        for number in front.bnc:
            print("".join((folder / f"log.{number}").read_text().splitlines(True)[-12:]))
        raise
    finally:
        front.end()
        await end_tasks(server)


def main():
    resource.setrlimit(resource.RLIMIT_NOFILE, (min(65536, resource.getrlimit(resource.RLIMIT_NOFILE)[1]),) * 2)
    program = str(pathlib.Path(sys.argv[1]).resolve())
    count = int(sys.argv[2]) if len(sys.argv) > 2 else 1000
    with tempfile.TemporaryDirectory() as folder:
        asyncio.run(trial(program, count, pathlib.Path(folder)))


main()
