"""What plays decks and work: the program, a bare loop with its writes and syncs, queues in SQLite and in beanstalkd."""
import contextlib
import fcntl
import json
import os
import re
import shutil
import signal
import socket
import sqlite3
import subprocess
import sys
import tempfile
import time
from typing import NamedTuple

TOP = os.path.dirname(os.path.dirname(os.path.abspath(__file__)))
PROGRAM = os.path.join(TOP, "crates", "mas_main", "out", "mas_main")
PAGE = 4096
# A volume's file gets longer by so many groups at once.
AHEAD = 32
CARDS = [b"EMPLOYEE %06d   NAME OF EMPLOYEE %06d   SALARY %07d.00" % (card, card, card) for card in range(40)]


class Size(NamedTuple):
    """A size of the checkpoint: a script's first line, the pages of a copy, and the first pages of outputs and groups.
    Those of jobs begin with page 3."""

    front: bytes
    pages: int
    outputs: int
    groups: int


def size_of(jobs, outputs, groups, volumes=1):
    front = b"CONFIG JOBS=%d,OUTPUTS=%d,GROUPS=%d,VOLUMES=%d\n" % (jobs, outputs, groups, volumes)
    first_output = 3 + -(-jobs // 16)
    first_group = first_output + -(-outputs // 32)
    return Size(front, first_group + -(-(groups * volumes) // 512), first_output, first_group)


# The sizes that are played: the least one of note, the default one, a wide one and the greatest.
SIZES = {
    16: size_of(64, 128, 2560),
    36: size_of(256, 512, 512),
    102: size_of(1008, 1024, 2048),
    323: size_of(2048, 4096, 4096, 8),
}
assert all(pages == it.pages for pages, it in SIZES.items())


def deck(number, output=b"(A,,PAY)"):
    """A deck's lines and its line of WORK. Its output goes to this SYSOUT, where the forms PAY are on no printer."""
    cards = [b"//PAY%05d JOB (1),'PAYROLL',CLASS=A,MSGCLASS=A" % number, b"//COPY EXEC PGM=IEBGENER"]
    cards += [b"//SYSPRINT DD DUMMY", b"//SYSIN DD DUMMY", b"//SYSUT1 DD *"]
    cards += [*CARDS, b"/*", b"//SYSUT2 DD SYSOUT=" + output, b"//"]
    return b"".join(line + b"\n" for line in [b"SYSA DECK", *cards, b"++END", b"SYSA WORK 9"])


def script(decks, front):
    return front + b"".join(map(deck, range(decks)))


def lines_of(number):
    """What the console says of the deck of this number, from 1 on, and of its work."""
    return [b"SYSA %05d OK JOB%05d" % (2 * number - 1, number), b"SYSA %05d OK DONE 5" % (2 * number)]


# The raw floor. An act is (file, place, bytes), or (file,) for a sync; None stands for the console's file.


COPIES = ("CKPT1", "CKPT2")


def formatting(pages):
    for copy in COPIES:
        yield copy, 0, 1
        yield (copy,)
        yield copy, 1, 11
        for page in range(pages):
            yield copy, PAGE * (1 + page), PAGE
        yield (copy,)
        yield copy, 0, 1
        yield (copy,)


def opened(copy, slot):
    """A slot's gate is opened or closed."""
    yield copy, 8 + slot, 1
    yield (copy,)


class Log:
    """What batches write to both copies, each into the next slot of four. Before a batch for which none is left, the
    pages that the slots list are written home, and the slots are closed. The last batch of work makes room for the next
    one at once."""

    def __init__(self, pages):
        self.pages, self.slots = pages, []

    def settle(self):
        for copy in COPIES:
            for page in sorted(set().union(*self.slots)):
                yield copy, PAGE * (1 + page), PAGE
            yield (copy,)
            for slot in range(len(self.slots)):
                yield from opened(copy, slot)
        self.slots = []

    def make_room(self):
        if len(self.slots) == 4:
            yield from self.settle()

    def batch(self, *changed):
        """A batch that changes these pages, and page 0."""
        yield from self.make_room()
        slot, listed = len(self.slots), {0, *changed}
        for copy in COPIES:
            for block in range(1 + len(listed)):
                yield copy, PAGE * (1 + self.pages + slot * (self.pages + 1) + block), PAGE
            yield (copy,)
        for copy in COPIES:
            yield from opened(copy, slot)
        self.slots.append(listed)


def group(number):
    """A text of one group, and zeros behind it where it is the first of those by which the file gets longer."""
    yield "SPOOL1", PAGE * number, PAGE
    if number % AHEAD == 0:
        yield "SPOOL1", PAGE * (number + 1), PAGE * (AHEAD - 1)
    yield ("SPOOL1",)


def said(line):
    yield None, 0, len(line) + 1


def acts(decks, pages):
    """All writes and syncs of a run. A deck is two batches with its text between them, and its work four, with its
    output before the last."""
    yield from formatting(pages)
    log, first_output, first_group = Log(pages), *SIZES[pages][2:]
    for number in range(1, decks + 1):
        entered, worked = lines_of(number)
        job, output = 3 + (number - 1) // 16, first_output + (number - 1) // 32
        text, printed = (first_group + group // 512 for group in (2 * number - 2, 2 * number - 1))
        yield from log.batch(job, text)
        yield from group(2 * number - 2)
        yield from log.batch(job, text)
        yield from said(entered)
        yield from log.batch(job)
        yield from log.batch(job)
        yield from log.batch(printed)
        yield from group(2 * number - 1)
        yield from log.batch(job, output, printed)
        yield from log.make_room()
        yield from said(worked)


def written(decks, pages):
    """The KiB that a run writes to its files for each deck with its work; with the first goes the formatting."""
    each, sizes, lines = 0, [], 0
    for act in acts(decks, pages):
        if act[0] is None:
            lines += 1
            if lines % 2 == 0:
                sizes.append(each / 1024)
                each = 0
        elif len(act) == 3:
            each += act[2]
    return sizes


def play_floor(decks, pages):
    """The bare loop."""
    files = {name: os.open(name, os.O_RDWR | os.O_CREAT, 0o666) for name in ("CKPT1", "CKPT2", "SPOOL1")}
    bytes_of = {size: b"x" * size for size in (1, 11, PAGE, PAGE * (AHEAD - 1))}
    said_yet = iter(line + b"\n" for number in range(1, decks + 1) for line in lines_of(number))
    for act in acts(decks, pages):
        if len(act) == 1:
            os.fdatasync(files[act[0]])
        elif act[0] is None:
            os.write(1, next(said_yet))
        else:
            os.pwrite(files[act[0]], bytes_of[act[2]], act[1])


def traced(words, given, folder, files):
    """The writes and syncs that a command makes to these files and to standard output, and the pages of the checkpoint
    that it reads, by what `strace` tells."""
    log = os.path.join(folder, "calls")
    calls = "trace=openat,fcntl,lseek,read,write,pread64,pwrite64,writev,fsync,fdatasync"
    words = ["strace", "-qq", "-s", "0", "-e", calls, "-o", log, *words]
    subprocess.run(words, input=given, stdout=subprocess.DEVNULL, cwd=folder, check=True)
    with open(log, encoding="ascii", errors="replace") as file:
        lines = file.readlines()
    names, places, done, read = {1: None}, {}, [], 0
    for line in lines:
        call, rest = line.split("(", 1)
        answer = int(re.search(r"= (-?\d+)", rest).group(1))
        if call == "openat":
            names[answer] = os.path.basename(re.search(r'"(.*?)"', rest).group(1))
            continue
        file = int(re.match(r"\d+", rest).group())
        if names.get(file, "") not in (None, *files):
            continue
        if call == "fcntl":
            names[answer] = names[file]
            continue
        if call == "lseek":
            places[file] = answer
        elif call in ("read", "pread64"):
            read += names[file].startswith("CKPT") and answer == PAGE
        elif call == "write":
            done.append((names[file], places.get(file, 0), answer))
            places[file] = places.get(file, 0) + answer if names[file] else 0
        elif call == "pwrite64":
            done.append((names[file], int(re.search(r", (\d+)\) *= ", rest).group(1)), answer))
        else:
            done.append((names[file],))
    return done, read


def seen(command, folder, decks, pages):
    """The writes and syncs that the program makes for so many decks at a size, and the pages of the checkpoint that it
    reads."""
    words = [*command, "play", "--cold"]
    return traced(words, script(decks, SIZES[pages].front), folder, ("CKPT1", "CKPT2", "SPOOL1"))


def play_again(name):
    """A bare loop that makes the writes and syncs of a list in a file, and says lines as long as those said."""
    with open(name, encoding="ascii") as file:
        done = json.load(file)
    files = {None: 1}
    for name in {act[0] for act in done} - {None}:
        files[name] = os.open(name, os.O_RDWR | os.O_CREAT, 0o666)
    bytes_of = {act[2]: b"x" * (act[2] - 1) + b"\n" for act in done if len(act) == 3}
    for name, *written_there in done:
        if not written_there:
            os.fdatasync(files[name])
        elif name is None:
            os.write(1, bytes_of[written_there[1]])
        else:
            os.pwrite(files[name], bytes_of[written_there[1]], written_there[0])


# The queue in SQLite.

TABLES = """
create table jobs (number integer primary key, name text, class text, priority integer, phase text, busy integer);
create table outputs (job integer, place integer, class text, copies integer, lines integer, mark integer,
                      primary key (job, place));
create table groups (number integer primary key, job integer, output integer);
create index waiting on jobs (phase, priority, number);
"""
TEXTS = "create table if not exists texts (number integer primary key, held blob)"


class Queue:
    """Alike in so many files, with the texts in the first."""

    def __init__(self, files, is_ahead):
        self.files = [sqlite3.connect(f"queue{number}", isolation_level=None) for number in range(1, files + 1)]
        for file in self.files:
            if is_ahead:
                file.execute("pragma journal_mode = wal")
            file.execute("pragma synchronous = full")
            file.executescript(TABLES)
        self.files[0].execute(TEXTS)

    def keep(self, *steps):
        """One batch: a commit in each file."""
        for file in self.files:
            file.execute("begin")
            for words, values in steps:
                file.execute(words, values)
            file.execute("commit")

    def write(self, number, held):
        """One commit in the file of the texts."""
        self.files[0].execute("insert into texts values (?, ?)", (number, held))

    def read(self, number):
        return self.files[0].execute("select held from texts where number = ?", (number,)).fetchone()[0]

    def first(self, phase):
        words = "select number from jobs where phase = ? and busy = 0 order by priority desc, number limit 1"
        return self.files[0].execute(words, (phase,)).fetchone()[0]

    def enter(self, number, text):
        self.keep(
            ("insert into jobs values (?, ?, 'A', 5, 'INPUT', 1)", (number, f"PAY{number - 1:05}")),
            ("insert into groups values (?, ?, 0)", (2 * number - 2, number)),
        )
        self.write(2 * number - 2, text)
        self.keep(("update jobs set phase = 'CONVERT', busy = 0 where number = ?", (number,)))

    def work(self):
        number = self.first("CONVERT")
        self.keep(("update jobs set busy = 1 where number = ?", (number,)))
        self.read(2 * number - 2)
        self.keep(
            ("update jobs set phase = 'EXECUTE', busy = 0 where number = ?", (number,)),
            ("update jobs set busy = 1 where number = ?", (number,)),
        )
        text = self.read(2 * number - 2)
        self.keep(("insert into groups values (?, ?, 1)", (2 * number - 1, number)))
        self.write(2 * number - 1, text)
        self.keep(
            ("insert into outputs values (?, 1, 'A', 1, ?, 0)", (number, len(CARDS))),
            ("update jobs set phase = 'OUTPUT', busy = 0 where number = ?", (number,)),
            ("update jobs set phase = 'HARDCOPY' where number = ?", (number,)),
        )


def play_sqlite(decks, files, is_ahead):
    queue = Queue(files, is_ahead)
    for number in range(1, decks + 1):
        entered, worked = lines_of(number)
        queue.enter(number, b"\n".join(deck(number - 1).splitlines()[1:-2]))
        os.write(1, entered + b"\n")
        queue.work()
        os.write(1, worked + b"\n")


# The queue in beanstalkd.


def free_port():
    with socket.socket() as tried:
        tried.bind(("127.0.0.1", 0))
        return tried.getsockname()[1]


class Tubes:
    """A queue of one copy, kept in a log that is synced at each write, in the folder where it is started."""

    def __init__(self):
        port = free_port()
        os.mkdir("binlog")
        words = ["beanstalkd", "-b", "binlog", "-f", "0", "-l", "127.0.0.1", "-p", str(port)]
        self.server = subprocess.Popen(words)
        for _ in range(200):
            try:
                self.link = socket.create_connection(("127.0.0.1", port)).makefile("rwb")
                return
            except ConnectionRefusedError:
                time.sleep(0.01)
        raise ValueError("beanstalkd does not answer")

    def ask(self, words, held=None):
        """A command, with what it holds, and the words of its answer."""
        self.link.write(words + b"\r\n" + (b"" if held is None else held + b"\r\n"))
        self.link.flush()
        return self.link.readline().split()

    def put(self, tube, held):
        self.ask(b"use " + tube)
        answer = self.ask(b"put 5 0 600 %d" % len(held), held)
        assert answer[0] == b"INSERTED", answer

    def work(self):
        """Takes a deck, puts its output, and deletes the deck."""
        answer = self.ask(b"reserve-with-timeout 0")
        assert answer[0] == b"RESERVED", answer
        held = self.link.read(int(answer[2]) + 2)[:-2]
        self.put(b"outputs", held)
        answer = self.ask(b"delete " + answer[1])
        assert answer == [b"DELETED"], answer

    def close(self):
        self.link.close()
        self.server.terminate()
        self.server.wait()


def play_tubes(decks):
    tubes = Tubes()
    try:
        tubes.ask(b"watch decks")
        for number in range(1, decks + 1):
            entered, worked = lines_of(number)
            tubes.put(b"decks", b"\n".join(deck(number - 1).splitlines()[1:-2]))
            os.write(1, entered + b"\n")
            tubes.work()
            os.write(1, worked + b"\n")
    finally:
        tubes.close()


# One run of a player, and what it took.


def held_by(process):
    """The most KiB that a process has held so far, the seconds that it had a processor, those that it waited for one,
    and those of them that were its own and not the system's; zeros where it has ended."""
    try:
        with open(f"/proc/{process}/status", encoding="ascii", errors="replace") as lines:
            memory = next((int(line.split()[1]) for line in lines if line.startswith("VmHWM:")), 0)
        with open(f"/proc/{process}/schedstat", encoding="ascii") as line:
            run, waited = map(int, line.read().split()[:2])
        with open(f"/proc/{process}/stat", encoding="ascii", errors="replace") as line:
            own = int(line.read().rsplit(")", 1)[1].split()[11]) / os.sysconf("SC_CLK_TCK")
        return memory, run / 1e9, waited / 1e9, own
    except OSError:
        return 0, 0.0, 0.0, 0.0


# What a pipe holds: a run can be no further ahead of the line that is looked at.
PIPE = 4096


class Taken:
    """What a run took: seconds without those in which it waited for a processor that others had, those seconds, seconds
    on the processor, KiB of memory at most, and at which second each line was said. The lines are those of so many
    decks; where they are given as `None` the lines are not looked at, and for each is noted too how many seconds on
    the processor the run had taken and how much memory it held at most."""

    def __init__(self, words, given, folder, decks):
        wanted = None
        if decks is not None:
            wanted = b"".join(line + b"\n" for number in range(1, decks + 1) for line in lines_of(number))
        with tempfile.TemporaryFile() as file:
            file.write(given)
            file.seek(0)
            begin = time.perf_counter()
            child = subprocess.Popen(words, bufsize=PIPE, stdin=file, stdout=subprocess.PIPE, cwd=folder)
            fcntl.fcntl(child.stdout, fcntl.F_SETPIPE_SZ, PIPE)
            told, self.at, self.memory, self.waited, self.seen = [], [], 0, 0.0, []
            for line in child.stdout:
                told.append(line)
                if len(told) % 10 < 2 or decks is None or len(told) > 2 * decks - 10:
                    # What a process held before it became this program counts in its usage, but not here.
                    memory, run, waited, own = held_by(child.pid)
                    self.memory, self.waited = max(self.memory, memory), max(self.waited, waited)
                    self.seen.append((run, self.memory, own) if memory else None)
                self.at.append(time.perf_counter() - self.waited)
            _, status, usage = os.wait4(child.pid, 0)
            end = time.perf_counter()
        child.stdout.close()
        child.returncode = os.waitstatus_to_exitcode(status)
        self.user, self.processor = usage.ru_utime, usage.ru_utime + usage.ru_stime
        # A run that has ended before its line is looked at has taken all that it takes.
        self.seen = [it or (self.processor, self.memory, self.user) for it in self.seen]
        if told and told[0].startswith(b"READY"):
            # A player in Python: what it takes to start is none of its work.
            begin, waited = map(float, told.pop(0).split()[1:])
            del self.at[0]
            self.waited -= waited
        self.told = told
        if child.returncode != 0 or wanted is not None and b"".join(told) != wanted:
            raise ValueError(f"{words} ended with {child.returncode}, and said {b''.join(told[-2:])!r} last")
        self.seconds = end - begin - self.waited

    def each(self, decks):
        """Seconds a deck of a tenth of the decks, those right after the first five, and of the last tenth. At the line
        of each fifth deck it is known how long the run has waited for a processor."""
        ends = self.at[1::2]
        tenth = decks // 10
        return (ends[tenth + 4] - ends[4]) / tenth, (ends[-1] - ends[-1 - tenth]) / tenth

    def settled(self, decks):
        """Seconds a deck, without the first one and the start before it."""
        ends = self.at[1::2]
        return (ends[-1] - ends[0]) / (decks - 1)


# The name of a player that makes the acts of a list again, and of the file of that list.
AGAIN = "acts"
PLAYERS = ["the raw floor", "the program", "SQLite, two files", "SQLite, one file"]
# These take several times what the others do.
SLOW = PLAYERS[2:]
PLAYERS += [f"{player}, write-ahead log" for player in SLOW]
if shutil.which("beanstalkd"):
    PLAYERS.append("beanstalkd, one copy")


def in_folder(where, run):
    """What a run answers in a new folder below a place, which is gone after it."""
    folder = tempfile.mkdtemp(prefix="mas-bench-", dir=where)
    try:
        return run(folder)
    finally:
        shutil.rmtree(folder, ignore_errors=True)


def started(player, command, played):
    """The words and the input with which a player is started, for so many decks at a size."""
    decks, pages = played
    if player == "the program":
        return [*command, "play", "--cold"], script(decks, SIZES[pages].front)
    return [sys.executable, os.path.abspath(__file__), str(decks), player, str(pages)], b""


def taken(player, command, where, played):
    """One run of a player, of so many decks at a size, in a new folder."""
    words, given = started(player, command, played)
    return in_folder(where, lambda folder: Taken(words, given, folder, played[0]))


class Paused:
    """A player that is stopped between its turns of so many decks. It begins with the first one at once; the start goes
    with it, but that of a player in Python."""

    def __init__(self, words, given, folder, decks):
        self.decks, self.ahead, self.seconds, self.begin = decks, 0, 0.0, time.perf_counter()
        with tempfile.TemporaryFile() as file:
            file.write(given)
            file.seek(0)
            self.child = subprocess.Popen(words, bufsize=PIPE, stdin=file, stdout=subprocess.PIPE, cwd=folder)
        fcntl.fcntl(self.child.stdout, fcntl.F_SETPIPE_SZ, PIPE)

    def end_turn(self):
        """Waits until it has said the lines of a turn, notes the seconds that this took, and stops it."""
        left = 2 * self.decks - self.ahead
        while left > 0:
            told = os.read(self.child.stdout.fileno(), PIPE)
            assert told, "a player ended within its turn"
            left -= told.count(b"\n")
            if told.startswith(b"READY"):
                self.begin, left = time.perf_counter(), left + 1
        self.seconds += time.perf_counter() - self.begin
        self.ahead = -left
        self.child.send_signal(signal.SIGSTOP)
        os.waitpid(self.child.pid, os.WUNTRACED)

    def turn(self):
        self.begin = time.perf_counter()
        self.child.send_signal(signal.SIGCONT)
        self.end_turn()

    def end(self):
        self.child.kill()
        self.child.stdout.close()
        self.child.wait()


def taken_in_turns(players, command, where, played, decks):
    """The seconds that each player took in all, where they take turns of so many decks on one machine. So each has the
    same calm and slow seconds of it, however long its own turns are."""
    paused = {}
    with contextlib.ExitStack() as stack:
        for player in players:
            folder = stack.enter_context(tempfile.TemporaryDirectory(prefix="mas-bench-", dir=where))
            paused[player] = Paused(*started(player, command, played), folder, decks)
            stack.callback(paused[player].end)
            paused[player].end_turn()
        for number in range(played[0] // decks - 2):
            for place in range(len(players)):
                paused[players[(number + place) % len(players)]].turn()
    return {player: it.seconds for player, it in paused.items()}


def taken_again(done, where):
    """What the bare loop takes that makes these writes and syncs, in a new folder."""

    def run(folder):
        with open(os.path.join(folder, AGAIN), "w", encoding="ascii") as file:
            json.dump(done, file)
        return Taken([sys.executable, os.path.abspath(__file__), "0", AGAIN, "0"], b"", folder, None)

    return in_folder(where, run)


def play_as(decks, player, pages):
    """A player in Python, in the folder where it was started."""
    os.write(1, b"READY %r %r\n" % (time.perf_counter(), held_by(os.getpid())[2]))
    if player == "the raw floor":
        play_floor(decks, pages)
    elif player == AGAIN:
        play_again(AGAIN)
    elif player.startswith("SQLite"):
        play_sqlite(decks, 2 if "two" in player else 1, "ahead" in player)
    else:
        play_tubes(decks)


if __name__ == "__main__":
    play_as(int(sys.argv[1]), sys.argv[2], int(sys.argv[3]))
