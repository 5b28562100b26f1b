#!/usr/bin/env python3
"""Kills `bnc serve` again and again, to try that a restart loses nothing that stood on the disk.

    try_journal.py BNC SEED KILLS

It plays an IRC network that talks without a pause, and two clients that read all of it; a third client
reads some of it, and is away from then on until the end. At a random moment it kills bnc (SIGKILL), has
`bnc log` print what the file holds, and starts bnc again. What is missing in the file must be an end of what
was sent; each client name must get exactly what the file holds beyond its mark, in order, each message once,
and then what is said anew. Then a small file is cut at 100 random places and has 100 random bytes changed,
one at a time: `bnc log` must print the messages of the frames before that place, and say how many bytes are
damaged; ten of these files are served, and bnc must go on with the same messages. Then its file may grow no
more for a while: the log says so, and half a minute later all is written. Then the disk hangs: a reload and
`stop` wait for nothing, and the log says that a journal is not written. Last it tries two programs on one
folder, of which one must write nothing, and a folder that can't be made.

The same seed gives the same moments. It uses free ports of the loopback range, and a folder that it makes
and removes. It prints `ok` and counts, or what was wrong, with status 1; also if something has not come
after 60 seconds.
"""

import hashlib
import os
import pathlib
import random
import re
import resource
import subprocess
import sys
import tempfile
import time

from small_network import (
    PATIENCE, SETTINGS, Client, Network, Wrong, marks_of, reserve_port, sound_texts, wait_for,
)

NAMES = ["desk", "phone"]
AWAY = "tablet"
MOST = 19_000  # messages that are said over all kills: each target gets half, and 10,000 of it are kept
ROOM_FOR_THE_LOG = 8192
STOP = 2  # seconds that a stop takes at most
ANOTHER = """[[user.network]]
name = "net2"
address = "127.0.0.1:1"
nick = "ann"
user = "ann"
realname = "Ann"
"""


def numbers_in(text):
    """The numbers of the messages of a text, in order."""
    return [int(number) for number in re.findall(r"\bmessage(\d+)$", text, re.MULTILINE)]


def sound_frames(data):
    """Of each beginning of a file that is whole frames: its length, and how many messages it has."""
    frames = [(0, 0)]
    for text in sound_texts(data):
        at, count = frames[-1]
        frames.append((at + 36 + len(text), count + text.count(b" PRIVMSG ")))
    return frames


class TalkingNetwork(Network):
    """A network of one channel, in which somebody talks."""

    def __init__(self):
        super().__init__(["#c0"])
        self.count = 0

    def talk(self, rng):
        """Says some more messages, to the channel and to us."""
        for _ in range(rng.randint(1, 20)):
            self.count += 1
            target = rng.choice(["#c0", self.nick])
            self.put(f":bob!b@h PRIVMSG {target} :message{self.count}")
        self.flush()


class Program:
    """bnc, with a folder of its own."""

    def __init__(self, program, folder, network):
        self.program, self.folder, self.network = program, pathlib.Path(folder), network
        self.reserved = reserve_port()
        self.port = self.reserved.getsockname()[1]
        self.settings = self.folder / "bnc.toml"
        self.write_settings(self.settings, self.port, "kept")
        self.log, self.process = self.folder / "log", None

    def write_settings(self, path, port, kept, more=""):
        text = SETTINGS.format(
            listen=f'"127.0.0.1:{port}"',
            top="",
            address=f"127.0.0.1:{self.network.listener.getsockname()[1]}",
            digest=hashlib.sha256(b"abc").hexdigest(),
            join='"#c0"',
            more=more,
        )
        path.write_text(text.replace("retry = 1\n", f'retry = 1\nkept = "{kept}"\n'))
        path.chmod(0o600)

    @property
    def file(self):
        return self.folder / "kept" / "ann@net"

    def start(self, settings=None):
        with self.log.open("w") as log:
            command = [self.program, "serve", settings or self.settings]
            # SIGXFSZ stays ignored, so that a file that may not grow is a fault of a write
            self.process = subprocess.Popen(
                command, stdout=log, stderr=log, restore_signals=False
            )

    def is_up(self):
        return "listening" in self.log.read_text()

    def kill(self):
        self.process.kill()
        self.process.wait(PATIENCE)

    def order(self, word):
        """Has bnc take a control word; it may read the FIFO only some time after it listens."""
        words = [self.program, "control", self.settings, word]
        given = lambda: subprocess.run(words, capture_output=True, timeout=PATIENCE).returncode == 0
        wait_for(f"reader of the word {word}", given)

    def size(self):
        """The length of the file, and 0 before it is there."""
        return self.file.stat().st_size if self.file.exists() else 0

    def mark(self, name):
        """Up to which message a client name has seen all, by the file; 0 if it has no mark there."""
        _, number = marks_of(self.file).get(name, ("", 0))
        return number

    def kept(self, path=None):
        """The numbers of the messages in a file, as `bnc log` prints them, and its status."""
        done = subprocess.run(
            [self.program, "log", path or self.file], capture_output=True, text=True, timeout=PATIENCE
        )
        return numbers_in(done.stdout), done.returncode, done.stderr


class Trial:
    """bnc, its network, and what each client name has got."""

    def __init__(self, program, seed, folder):
        self.rng, self.network = random.Random(seed), TalkingNetwork()
        self.bnc = Program(program, folder, self.network)
        self.clients, self.last = {}, dict.fromkeys([*NAMES, AWAY], 0)
        self.held, self.said = [], 0  # what the file held after the last kill; what was said before
        self.lost, self.repeated, self.waits = [], [], []

    def begin(self):
        """Starts bnc and lets it in."""
        began = time.monotonic()
        self.bnc.start()
        self.network.let_in()
        wait_for("#c0", lambda: "#c0" in self.network.joined, self.network.hear)
        self.network.ask()
        wait_for("a port to log in at", self.bnc.is_up)
        self.waits.append(time.monotonic() - began)

    def come(self, name):
        client = self.clients[name] = Client(self.bnc.port, name, [])
        wait_for(f"burst for {name}", lambda: client.is_welcome, self.network.hear)

    def go(self, name):
        client = self.clients.pop(name)
        client.say("QUIT :bye")
        if not client.is_closed.wait(PATIENCE):
            raise Wrong(f"{name} is not closed")

    def got(self, name):
        client = self.clients[name]
        with client.lock:
            if client.wrong:
                raise Wrong(f"{name}: {client.wrong}")
            return [int(message.removeprefix("message")) for message in client.messages]

    def leave_one_away(self):
        """The third client reads what is said, and goes."""
        self.network.talk(self.rng)
        self.settle()
        self.go(AWAY)
        self.last[AWAY] = self.network.count
        wait_for(
            f"mark of {AWAY} in the file",
            lambda: self.bnc.mark(AWAY) == self.network.count,
            lambda: self.network.hear(0.05),
        )

    def settle(self):
        """Waits until each client has all that was said."""
        self.network.ask()
        for name in self.clients:
            wait_for(
                f"message{self.network.count} for {name}",
                lambda: self.got(name)[-1:] == [self.network.count],
            )

    def expect(self, name):
        """What a name got must be what the file held beyond its mark, and then what was said since.

        Its mark is at most the last message that it had.
        """
        got, new = self.got(name), list(range(self.said + 1, self.network.count + 1))
        # the playback has what was said in the channel first
        old = sorted(got[: len(got) - len(new)])
        unseen = [number for number in self.held if number > self.last[name]]
        if got[len(old) :] != new or old != self.held[len(self.held) - len(old) :]:
            raise Wrong(f"{name} got {got}, of {self.held[-9:]} and {new}")
        if len(old) < len(unseen):
            raise Wrong(f"{name} had {self.last[name]}, and lost some of {unseen}")
        self.repeated.append(len(old) - len(unseen))
        self.last[name] = self.network.count

    def round(self):
        """Talks for a while, kills bnc, looks at its file, and starts it again."""
        until = time.monotonic() + self.rng.uniform(0.02, 0.6)
        while time.monotonic() < until and self.network.count < MOST:
            self.network.talk(self.rng)
            self.network.hear(self.rng.uniform(0.0005, 0.02))
        self.bnc.kill()
        self.network.socket.close()
        for name, client in self.clients.items():
            client.is_closed.wait(PATIENCE)
            self.last[name] = max([self.last[name], *self.got(name)])
        self.look()
        self.network.leave("#c0")
        self.begin()
        for name in NAMES:
            self.come(name)
        self.network.talk(self.rng)
        self.settle()
        for name in NAMES:
            self.expect(name)

    def look(self):
        """What the file holds must be a beginning of what it held and of what was said since."""
        kept, status, error = self.bnc.kept()
        whole = self.held + list(range(self.said + 1, self.network.count + 1))
        if status not in (0, 1) or kept != whole[: len(kept)] or len(kept) < len(self.held):
            raise Wrong(f"the file holds {kept[-9:]} of {whole[-9:]}, status {status}: {error}")
        self.lost.append(len(whole) - len(kept))
        self.held, self.said = kept, self.network.count

    def finish(self):
        """The client that was away gets exactly what it missed."""
        for name in list(self.clients):
            self.go(name)
        self.come(AWAY)
        self.network.talk(self.rng)
        self.settle()
        got = sorted(self.got(AWAY))
        whole = self.held + list(range(self.said + 1, self.network.count + 1))
        missed = [number for number in whole if number > self.last[AWAY]]
        if got != missed:
            raise Wrong(f"{AWAY} got {len(got)} messages, and not the {len(missed)} that it missed")
        time.sleep(1)  # what is left is written after a rest
        self.bnc.kill()

    def begin_afresh(self):
        """Starts bnc, which finds no file, at a network where it is in no channel."""
        self.bnc.file.unlink(missing_ok=True)
        self.network.channels["#c0"].members.clear()
        self.begin()

    def damage(self):
        """Files that were cut or changed: the messages before that place are read, and no others.

        The file has a snapshot and some batches, and is small, since it is read 200 times.
        """
        before = self.network.count
        self.begin_afresh()
        for _ in range(6):
            self.network.talk(self.rng)
            self.network.ask()
            time.sleep(0.3)
        whole = list(range(before + 1, self.network.count + 1))
        self.wait_for_file(whole)
        self.bnc.kill()
        self.network.socket.close()
        data, path = self.bnc.file.read_bytes(), self.bnc.folder / "damaged"
        frames = sound_frames(data)
        if frames[-1] != (len(data), len(whole)) or self.bnc.kept() != (whole, 0, ""):
            raise Wrong(f"the file holds {self.bnc.kept()}, and not {whole}")
        for turn in range(200):
            place, is_cut = self.rng.randrange(len(data)), turn < 100
            byte = bytes([data[place] ^ self.rng.randint(1, 255)])
            path.write_bytes(data[:place] + (b"" if is_cut else byte + data[place + 1 :]))
            end, count = max(frame for frame in frames if frame[0] <= place)
            self.tell_damage(path, end, whole[:count], is_foreign=end == 0 and not is_cut)
            if turn % 20 == 0:
                self.serve_damaged(path.read_bytes(), end, whole[:count], end == 0 and not is_cut)

    def tell_damage(self, path, end, messages, is_foreign):
        """`bnc log` prints the messages of the sound bytes, and says how many others there are."""
        kept, status, error = self.bnc.kept(path)
        left = path.stat().st_size - end
        told = "not a journal" if is_foreign else f"{left} bytes at the end are damaged"
        wanted = f"bnc: {told}\n" if left else ""
        if (kept, status, error) != (messages, 1 if left else 0, wanted):
            raise Wrong(f"of {path}, sound up to {end}: {len(kept)} messages, {status}, {error}")

    def serve_damaged(self, data, end, messages, is_foreign):
        """bnc goes on with the sound bytes of a file, and sets the others aside if it has a header.

        A file that is no journal stays as it is.
        """
        self.bnc.file.write_bytes(data)
        self.network.joined.clear()
        self.begin()
        self.clients = {}
        self.come(f"t{self.rng.randrange(10 ** 9)}")
        before = self.network.count
        self.network.talk(self.rng)
        self.settle()
        (name,) = self.clients
        got, new = sorted(self.got(name)), list(range(before + 1, self.network.count + 1))
        if got != messages + new:
            raise Wrong(f"of {len(messages)} messages of a damaged file {len(got)} were sent")
        left = len(data) - end
        if is_foreign:
            self.wait_for_log("not a journal")
        elif end and left:
            self.wait_for_log(f"the last {left} bytes are damaged, and were set aside")
        self.bnc.kill()
        self.network.socket.close()
        self.network.channels["#c0"].members.clear()
        if is_foreign and self.bnc.file.read_bytes() != data:
            raise Wrong("a file that is no journal was changed")
        if end and left and not pathlib.Path(f"{self.bnc.file}:damaged").read_bytes().endswith(data[end:]):
            raise Wrong(f"a damaged end of {left} bytes was not set aside")

    def wait_for_log(self, text):
        """Waits until the log says this; it is written by a thread of its own."""
        wait_for(f"'{text}' in the log", lambda: text in self.bnc.log.read_text())

    def wait_for_file(self, messages):
        """Waits until the file holds these messages: what is left is written after a rest."""
        wait_for(
            f"file with {len(messages)} messages",
            lambda: self.bnc.kept() == (messages, 0, ""),
            lambda: self.network.hear(0.05),
        )

    def full_disk(self):
        """A file that may not grow for a while is written later, with all that came since."""
        before = self.network.count
        self.begin_afresh()
        # the limit is the log's too, which has to stay below it
        while self.bnc.size() < ROOM_FOR_THE_LOG:
            self.network.talk(self.rng)
            self.network.ask()
            time.sleep(0.3)
        self.wait_for_file(list(range(before + 1, self.network.count + 1)))
        limits, process = resource.RLIMIT_FSIZE, self.bnc.process.pid
        _, most = resource.prlimit(process, limits)
        resource.prlimit(process, limits, (self.bnc.size() + 2, most))
        began = time.monotonic()
        for _ in range(3):
            self.network.talk(self.rng)
            self.network.ask()
            time.sleep(1)
        self.wait_for_log("journal not written, tries again: not written")
        if "written again" in self.bnc.log.read_text():
            raise Wrong("a file that may not grow was written again")
        resource.prlimit(process, limits, (most, most))
        wait_for(
            "journal that is written again",
            lambda: "journal written again" in self.bnc.log.read_text(),
            lambda: self.network.hear(0.05),
        )
        self.full = time.monotonic() - began
        kept, status, error = self.bnc.kept()
        if status != 0 or kept != list(range(before + 1, self.network.count + 1)):
            raise Wrong(f"after {self.full:.0f} s the file holds {kept[-9:]}, status {status}: {error}")
        self.bnc.kill()
        self.network.socket.close()

    def hung_disk(self):
        """A file that can be neither written nor read for good holds up no control word.

        A FIFO stands in the place of a new file, and one in that of a network that a reload adds.
        """
        fifos = [f"{self.bnc.file}:new", f"{self.bnc.file}2", f"{self.bnc.settings}.control"]
        for fifo in fifos:
            os.mkfifo(fifo, 0o600)
        wait_for("word in the log of a disk that hangs", self.tells_of_hung_disk)
        for fifo in fifos:
            os.unlink(fifo)

    def tells_of_hung_disk(self):
        """Whether the log has that a journal was not written. It must, unless the stop took all its time.

        The line comes in the last sixteenth of that time, and on a busy machine bnc may not run then.
        """
        self.begin_afresh()
        self.network.talk(self.rng)
        self.network.ask()
        time.sleep(1)  # its journal is begun meanwhile
        self.bnc.write_settings(self.bnc.settings, self.bnc.port, "kept", ANOTHER)
        self.bnc.order("reload")
        began = time.monotonic()
        self.bnc.order("stop")
        self.bnc.process.wait(PATIENCE)
        self.hung = time.monotonic() - began
        self.network.socket.close()
        self.bnc.write_settings(self.bnc.settings, self.bnc.port, "kept")
        log = self.bnc.log.read_text()
        if "networks new 1" not in log:
            raise Wrong("while a disk hangs no network is added")
        is_told = "ann/net: journal not written to its end" in log
        if not is_told and self.hung < STOP:
            raise Wrong("of a disk that hangs the log does not say so")
        return is_told

    def two_programs(self):
        """The second program on a folder writes nothing there, and says so."""
        before = self.network.count
        self.begin_afresh()
        other = TalkingNetwork()
        second = Program(self.bnc.program, self.bnc.folder / "second", other)
        second.write_settings(second.settings, second.port, str(self.bnc.folder / "kept"))
        second.start()
        try:
            wait_for("a second program", second.is_up)
            other.let_in()
            wait_for("word of the other program", lambda: "another program" in second.log.read_text())
            for network in (self.network, other):
                network.talk(self.rng)
                network.ask()
            whole = list(range(before + 1, self.network.count + 1))
            self.wait_for_file(whole)
            time.sleep(1)  # so that the second one could write, too
        finally:
            second.kill()
        self.bnc.kill()
        kept = self.bnc.kept()
        if kept != (whole, 0, ""):
            raise Wrong(f"beside a second program the file holds {kept}, and not {whole}")

    def no_folder(self):
        """A folder below a plain file can't be made, and the network is served without it."""
        (self.bnc.folder / "plain").write_text("")
        self.bnc.write_settings(self.bnc.settings, self.bnc.port, "plain/kept")
        self.network.joined.clear()
        self.network.channels["#c0"].members.clear()
        self.begin()
        self.come("late")
        told = "served without a journal"
        wait_for("word of the missing folder", lambda: told in self.bnc.log.read_text())
        self.bnc.kill()


def told(what, numbers):
    return f"{what} {sum(numbers) / len(numbers):.1f} on average, {max(numbers)} at most"


def main(program, seed, kills):
    with tempfile.TemporaryDirectory() as folder:
        (pathlib.Path(folder) / "second").mkdir()
        trial = Trial(program, seed, folder)
        try:
            trial.begin()
            for name in [*NAMES, AWAY]:
                trial.come(name)
            trial.leave_one_away()
            for _ in range(kills):
                trial.round()
            trial.finish()
            trial.damage()
            trial.full_disk()
            trial.hung_disk()
            trial.two_programs()
            trial.no_folder()
        except (Wrong, OSError, subprocess.TimeoutExpired) as wrong:
            print(f"seed {seed}: {wrong}\n{trial.bnc.log.read_text()[-600:]}")
            return 1
        finally:
            if trial.bnc.process:
                trial.bnc.kill()
    print(f"try_journal: {kills} kills, {trial.network.count} messages, ok")
    print(told("messages missing in the file:", trial.lost))
    print(told("messages sent again to a client that had read them:", trial.repeated))
    print(told("seconds until a client could log in:", [round(wait, 2) for wait in trial.waits]))
    print(f"seconds until a file that could not grow was written again: {trial.full:.0f}")
    print(f"seconds from `stop` to the end while the disk hangs: {trial.hung:.1f}")
    return 0


if __name__ == "__main__":
    if len(sys.argv) != 4 or not re.fullmatch("[0-9]+ [0-9]+", " ".join(sys.argv[2:])):
        sys.exit("usage: try_journal.py BNC SEED KILLS")
    sys.exit(main(sys.argv[1], int(sys.argv[2]), int(sys.argv[3])))
