"""A small IRC network on the loopback range, bnc at it, and clients.

For random_network.py, try_random.py, try_vanished.py, try_sasl.py, try_services.py, try_networks.py,
try_metrics.py, try_budget.py and demo.py.
"""

import base64
import binascii
import collections
import contextlib
import hashlib
import os
import pathlib
import re
import socket
import struct
import subprocess
import tempfile
import threading
import time

CAPABILITIES = [
    "multi-prefix", "extended-join", "account-notify", "away-notify", "server-time", "batch",
]
SYMBOLS = {"o": "@", "v": "+"}
PATIENCE = 60  # seconds that anything may take
SETTINGS = """listen = {listen}
{top}history = 10000
retry = 1
[[user]]
name = "ann"
salt = "61"
password = "{digest}"
[[user.network]]
name = "net"
address = "{address}"
nick = "ann"
user = "ann"
realname = "Ann"
join = [{join}]
{more}"""


class Wrong(Exception):
    """What was wrong."""


def wait_for(what, is_there, meanwhile=lambda: time.sleep(0.002)):
    """Waits until something is there, for a limited time."""
    began = time.monotonic()
    while not is_there():
        if time.monotonic() - began > PATIENCE:
            raise Wrong(f"no {what}")
        meanwhile()


def reserve_port(host="127.0.0.1"):
    """A socket that keeps a free port for bnc: both may bind it, since this one never listens."""
    reserved = socket.socket(socket.AF_INET6 if ":" in host else socket.AF_INET)
    reserved.setsockopt(socket.SOL_SOCKET, socket.SO_REUSEADDR, 1)
    reserved.bind((host, 0))
    return reserved


def sound_texts(data):
    """The texts of the whole frames at the beginning of a journal.

    A frame is the length of its text in four bytes, the text's SHA-256, and the text.
    """
    texts, at = [], 0
    while True:
        size = int.from_bytes(data[at : at + 4], "big")
        text = data[at + 36 : at + 36 + size]
        if len(text) < size or hashlib.sha256(text).digest() != data[at + 4 : at + 36]:
            return texts
        texts.append(text)
        at += 36 + size


def marks_of(path):
    """The last mark of each client name in a journal: its word, MARK or SEEN, and its number.

    There is none before the file is there.
    """
    text = b"".join(sound_texts(path.read_bytes() if path.exists() else b""))
    found = re.findall(rb"^(MARK|SEEN) (\S+) (\d+)\r?$", text, re.MULTILINE)
    return {name.decode(): (word.decode(), int(number)) for word, name, number in found}


class Channel:
    """What there is to know of a channel."""

    def __init__(self):
        self.members = {}  # nick: the letters of the ranks
        self.topic = None
        self.modes = {}  # letter: parameter


def change_modes(channel, letters, params):
    """Carries out the mode changes of a line."""
    params, is_set = list(params), True
    for letter in letters:
        if letter in "+-":
            is_set = letter == "+"
        elif letter in SYMBOLS:
            ranks = channel.members[params.pop(0)]
            (ranks.add if is_set else ranks.discard)(letter)
        elif letter == "k" or (letter == "l" and is_set):
            param = params.pop(0)
            channel.modes.update({letter: param}) if is_set else channel.modes.pop(letter, None)
        elif is_set:
            channel.modes[letter] = ""
        else:
            channel.modes.pop(letter, None)


class Client:
    """A client: what its lines tell it."""

    def __init__(self, port, name, caps, before="", host="127.0.0.1", network="net"):
        self.name, self.caps = name, caps
        self.nick, self.channels, self.messages = None, {}, []
        self.marks, self.last, self.wrong = set(), collections.deque(maxlen=5), None
        self.is_welcome, self.lock, self.is_closed = False, threading.Lock(), threading.Event()
        self.pongs = 0
        self.socket = socket.create_connection((host, port), PATIENCE)
        hello = before + ("CAP LS 302\r\n" if caps else "")
        hello += f"PASS ann@{name}/{network}:bc\r\nNICK x\r\nUSER x 0 * :x\r\n"
        if caps:
            hello += f"CAP REQ :{' '.join(caps)}\r\nCAP END\r\n"
        threading.Thread(target=self.read, daemon=True).start()
        with contextlib.suppress(ConnectionError):  # it may be refused before it has said all
            for start in range(0, len(hello), 7):
                self.socket.sendall(hello[start : start + 7].encode())

    def read(self):
        held = b""
        while True:
            try:
                piece = self.socket.recv(65536)
            except TimeoutError:
                continue
            except OSError:
                piece = b""
            if not piece:
                return self.is_closed.set()
            *lines, held = (held + piece).split(b"\n")
            with self.lock:
                for line in lines:
                    try:
                        self.take(line.rstrip(b"\r").decode())
                    except (KeyError, IndexError) as error:
                        self.wrong = self.wrong or f"{error!r} at {line}"

    def take(self, line):
        self.last.append(line)
        if line.startswith("@"):
            if not {"server-time", "batch"} & set(self.caps):
                self.wrong = f"tags: {line}"
            line = line.split(" ", 1)[1]
        source, line = line[1:].split(" ", 1) if line.startswith(":") else ("", line)
        middle, colon, trailing = line.partition(" :")
        command, *params = middle.split(" ") + ([trailing] if colon else [])
        who = source.split("!")[0]
        if command in ("JOIN", "PART", "KICK", "QUIT", "NICK", "353"):
            self.take_members(command, who, params)
        elif command == "001":
            self.nick, self.channels = params[0], {}
        elif command == "422":
            self.is_welcome = True
        elif command == "PONG":
            self.pongs += 1
        elif command == "332":
            self.channels[params[1]].topic = params[2]
        elif command == "TOPIC":
            self.channels[params[0]].topic = params[1] or None
        elif command == "324":
            self.channels[params[1]].modes = {}
            change_modes(self.channels[params[1]], params[2], params[3:])
        elif command == "MODE":
            change_modes(self.channels[params[0]], params[1], params[2:])
        elif command == "PRIVMSG":
            is_mark = params[1].startswith("mark")
            (self.marks.add if is_mark else self.messages.append)(params[1])
        elif command in ("ERROR", "464") or (command == "BATCH" and "batch" not in self.caps):
            self.wrong = self.wrong or line

    def take_members(self, command, who, params):
        if command == "JOIN":
            if who == self.nick:
                self.channels[params[0]] = Channel()
            self.channels[params[0]].members[who] = set()
        elif command in ("PART", "KICK"):
            gone = who if command == "PART" else params[1]
            del self.channels[params[0]].members[gone]
            if gone == self.nick:
                del self.channels[params[0]]
        elif command == "353":
            for word in params[3].split():
                nick = word.lstrip("@+")
                symbols = word[: len(word) - len(nick)]
                if len(symbols) > 1 and "multi-prefix" not in self.caps:
                    self.wrong = f"two symbols: {word}"
                ranks = {letter for letter, symbol in SYMBOLS.items() if symbol in symbols}
                self.channels[params[2]].members[nick] = ranks
        else:
            if command == "NICK" and who == self.nick:
                self.nick = params[0]
            for channel in self.channels.values():
                ranks = channel.members.pop(who, None)
                if command == "NICK" and ranks is not None:
                    channel.members[params[0]] = ranks

    def say(self, line):
        self.socket.sendall(line.encode() + b"\r\n")

    def reset(self):
        """Its connection is reset, as of a client that vanished; what comes of it after that is nothing."""
        self.socket.setsockopt(socket.SOL_SOCKET, socket.SO_LINGER, struct.pack("ii", 1, 0))
        self.socket.shutdown(socket.SHUT_RD)
        if not self.is_closed.wait(PATIENCE):
            raise Wrong(f"{self.name} still reads")
        self.socket.close()

    def compare(self, network):
        """Compares what this client knows with what the network does."""
        with self.lock:
            ours = [self.wrong, self.nick, sorted(self.channels)]
            theirs = [None, network.nick, sorted(network.joined)]
            if ours == theirs:
                for name in network.joined:
                    one, other = self.channels[name], network.channels[name]
                    ours += [one.topic, one.modes, sorted(one.members)]
                    theirs += [other.topic, other.modes, sorted(other.members)]
                    if "multi-prefix" in self.caps:
                        ours.append(one.members)
                        theirs.append(other.members)
            if ours != theirs:
                differing = [pair for pair in zip(ours, theirs) if pair[0] != pair[1]]
                raise Wrong(f"{self.name} has {differing}, after {list(self.last)}")


class Network:
    """An IRC network, to which one user comes, by bnc.

    With an account, a name and a password, it offers a login by SASL PLAIN (IRCv3 sasl 3.2, RFC
    4616), and EXTERNAL for anybody.
    """

    def __init__(self, channels, account=None, host="127.0.0.1"):
        self.channels, self.nick = {name: Channel() for name in channels}, "ann"
        self.account, self.mechanism, self.response = account, None, ""
        self.logged_in = None  # the account's name
        self.tokens = "PREFIX=(ov)@+ CHANTYPES=# CHANMODES=b,k,l,imnpst CASEMAPPING=ascii"
        self.joined, self.said = set(), []
        self.pings, self.pongs = 0, set()
        self.waiting, self.held, self.socket = b"", b"", None
        family = socket.AF_INET6 if ":" in host else socket.AF_INET
        self.listener = socket.create_server((host, 0), family=family)
        self.listener.settimeout(PATIENCE)

    def put(self, line):
        self.waiting += line.encode() + b"\r\n"

    def flush(self):
        """Sends what waits."""
        self.socket.sendall(self.waiting)
        self.waiting = b""

    def let_in(self):
        """Takes bnc's next connection through its registration, and to its channels."""
        self.socket, _ = self.listener.accept()
        self.socket.setsockopt(socket.IPPROTO_TCP, socket.TCP_NODELAY, 1)
        self.held, self.waiting, self.joined, self.nick = b"", b"", set(), "ann"
        self.is_open, self.logged_in, self.mechanism = False, None, None
        wait_for("registration", self.is_registered, lambda: self.hear(0.05))
        for line in (
            "001 {} :hi",
            f"005 {{}} {self.tokens} :are here",
            "376 {} :end",
        ):
            self.put(":s " + line.format(self.nick))
        self.greeted = time.monotonic()
        self.flush()

    def is_registered(self):
        return self.is_open

    def hear(self, seconds=0.0005):
        """Takes what bnc sent."""
        self.socket.settimeout(seconds)
        try:
            piece = self.socket.recv(65536)
            if not piece:
                raise Wrong("bnc closed the connection")
            self.held += piece
        except TimeoutError:
            pass
        *lines, self.held = self.held.split(b"\n")
        for line in lines:
            self.take(line.rstrip(b"\r").decode())
        self.socket.settimeout(PATIENCE)
        self.flush()

    def take(self, line):
        command, _, rest = line.partition(" ")
        if line.startswith("CAP LS"):
            sasl = ["sasl=EXTERNAL,PLAIN"] if self.account else []
            self.put(":s CAP * LS :" + " ".join(CAPABILITIES[:5] + sasl))
        elif line.startswith("CAP REQ"):
            self.put(":s CAP * ACK " + rest[4:])
        elif line.startswith("CAP END"):
            self.is_open = True
        elif command == "AUTHENTICATE":
            self.authenticate(rest)
        elif command == "JOIN":
            for name in rest.split(" ")[0].split(","):
                self.join(name)
        elif command == "PRIVMSG":
            self.said.append(rest.partition(" ")[2].removeprefix(":"))
        elif command == "PING":
            self.put(f":s PONG s {rest}")
        elif command == "PONG":
            self.pongs.add(rest.removeprefix(":"))

    def authenticate(self, param):
        """Takes a mechanism, or a piece of a response; the last piece is shorter than 400 bytes."""
        if self.mechanism is None:
            if param not in ("PLAIN", "EXTERNAL"):
                return self.put(":s 908 ann EXTERNAL,PLAIN :are available SASL mechanisms")
            self.mechanism, self.response = param, ""
            return self.put("AUTHENTICATE +")
        if len(param) > 400:
            return self.put(":s 905 ann :SASL message too long")
        self.response += "" if param == "+" else param
        if len(param) == 400:
            return None
        mechanism, self.mechanism = self.mechanism, None
        if mechanism == "EXTERNAL":
            name = "ann" if not self.response else None
        else:
            name = self.account_of(self.response)
        if name is None:
            return self.put(":s 904 ann :SASL authentication failed")
        self.logged_in = name
        self.put(f":s 900 ann ann!a@h {name} :You are now logged in as {name}")
        return self.put(":s 903 ann :SASL authentication successful")

    def account_of(self, response):
        """The account of PLAIN's message, if it acts for itself and has the password."""
        try:
            acts_for, name, password = base64.b64decode(response, validate=True).split(b"\0")
        except (binascii.Error, ValueError):
            return None
        is_right = (name.decode(), password.decode()) == self.account
        return name.decode() if is_right and acts_for in (b"", name) else None

    def ask(self):
        """Waits until bnc has taken all that it was sent: it answers a PING after that."""
        self.pings += 1
        ping = f"ping{self.pings}"
        self.put(f"PING :{ping}")
        self.flush()
        wait_for(f"answer to {ping}", lambda: ping in self.pongs, self.hear)

    def in_any_order(self, words):
        return words

    def join(self, name):
        if name in self.joined:
            return
        channel = self.channels[name]
        self.joined.add(name)
        channel.members[self.nick] = set()
        self.put(f":{self.nick}!a@h JOIN {name} * :Ann")
        if channel.topic:
            self.put(f":s 332 {self.nick} {name} :{channel.topic}")
        words = self.in_any_order([
            "".join(SYMBOLS[letter] for letter in "ov" if letter in ranks) + nick
            for nick, ranks in channel.members.items()
        ])
        for start in range(0, len(words), 5):
            self.put(f":s 353 {self.nick} = {name} :{' '.join(words[start : start + 5])}")
        self.put(f":s 366 {self.nick} {name} :End")
        modes = sorted(channel.modes.items())
        letters, params = "".join(m[0] for m in modes), "".join(f" {m[1]}" for m in modes if m[1])
        self.put(f":s 324 {self.nick} {name} +{letters}{params}")

    def leave(self, name):
        del self.channels[name].members[self.nick]
        self.joined.discard(name)


@contextlib.contextmanager
def serving(program, network, join, more="", log=None, top="", listen=None, path_of=None, told=()):
    """Runs bnc, which joins these channels of the network, and gives the port of its clients.

    `more` has further keys of the network, `top` those above it, and `listen` where bnc listens if
    not at that port alone; "PORT" stands for it. It ends bnc at the end, once its log has each text of
    `told`, since a thread of its own writes that, and adds the end of its log to what was wrong; a list
    `log` gets the whole of it, and a list `path_of` the path of the settings, with which it takes control
    words.
    """
    reserved = reserve_port("::1" if listen and "[::1]:PORT" in listen else "127.0.0.1")
    client_port = reserved.getsockname()[1]
    host, port = network.listener.getsockname()[:2]
    settings = SETTINGS.format(
        listen=(listen or '"127.0.0.1:PORT"').replace("PORT", str(client_port)),
        top=top,
        address=f"[{host}]:{port}" if ":" in host else f"{host}:{port}",
        digest=hashlib.sha256(b"abc").hexdigest(),
        join=", ".join(f'"{name}"' for name in join),
        more=more,
    )
    with tempfile.TemporaryDirectory() as folder:
        path = os.path.join(folder, "bnc.toml")
        with open(path, "w", encoding="utf-8", opener=lambda p, f: os.open(p, f, 0o600)) as file:
            file.write(settings)
        if path_of is not None:
            path_of.append(path)
            os.mkfifo(f"{path}.control", 0o600)
        written = pathlib.Path(folder, "log")
        with written.open("w", encoding="utf-8") as out:
            bnc = subprocess.Popen([program, "serve", path], stdout=out, stderr=out)
            try:
                yield client_port
                for text in told:
                    wait_for(f"'{text}' in the log", lambda: text in written.read_text())  # noqa: B023
            except (Wrong, OSError) as wrong:
                raise Wrong(f"{wrong}\n{written.read_text()[-600:]}") from wrong
            finally:
                bnc.kill()
                bnc.wait(PATIENCE)
                if log is not None:
                    log.append(written.read_text())
