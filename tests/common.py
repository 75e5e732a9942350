"""What the scripts of this folder, of bench/ and of docs/ share."""
import argparse
import os
import shutil
import subprocess
import sys
import tempfile

TOP = os.path.dirname(os.path.dirname(os.path.abspath(__file__)))
LAUNCHER = os.path.join(TOP, "mas")
PROGRAM = os.path.join(TOP, "crates", "mas_main", "out", "mas_main")
# The plain list that `rt ci` leaves.
PLAIN = os.path.join(TOP, "crates", "model_player", "out", "model_player")
# The files of the members' printers.
PRINTERS = tuple(f"PRT{number}" for number in range(1, 9))
# How long one run of the program may take.
SECONDS = 120
# A file system in memory, and how much of it must be free for the folders of trials.
MEMORY = "/dev/shm"
MEMORY_LEAST = 1 << 30
# The bytes of a page, and of each other block of a copy.
PAGE = 4096
# The byte of an open gate. The gates of a copy follow its byte 8.
OPEN = 0xA5
GATES_AT = 8
# A copy has home pages and a log of four slots.
SLOTS = 4
# The cards of a job that prints three lines, and its lines on paper.
CARDS = b"//C JOB\n//S EXEC PGM=IEBGENER\n//SYSUT1 DD *\nALFA\nBRAVO\nCHARLIE\n/*\n//SYSUT2 DD SYSOUT=A\n"
PAPER = [b"JOB00001.01 %08d %s" % (number, text) for number, text in enumerate((b"ALFA", b"BRAVO", b"CHARLIE"), 1)]


def reader(text):
    """A reader of the words of a script, which says this of itself in its first paragraph."""
    return argparse.ArgumentParser(description=text.partition("\n\n")[0])


def count_of(text, count):
    """The number that a script was given, or else this one."""
    words = reader(text)
    words.add_argument("count", nargs="?", type=int, default=count, metavar="COUNT", help=f"{count} if none is given")
    return words.parse_args().count


class Tally:
    """How many trials passed and how many failed."""

    def __init__(self):
        self.passed = self.failed = 0

    def note(self, what, wrong):
        """Counts a trial, which failed if something is wrong; then a line says what."""
        self.passed += not wrong
        self.failed += bool(wrong)
        if wrong:
            print(f"FAILED {what}: {wrong}", flush=True)

    def end(self):
        """Prints the last line of a script, and answers its exit status."""
        print(f"{self.passed} passed, {self.failed} failed")
        return 1 if self.failed or not self.passed else 0


def deck(name, by=b"SYSA"):
    """The lines of a script with which a member enters a job of this name, which does nothing."""
    return b"%s DECK\n//%s JOB\n++END\n" % (by, name)


def decks(count, members=(b"SYSA",)):
    """A script of so many decks of these members in turn."""
    return b"".join(deck(b"J%d" % number, members[number % len(members)]) for number in range(count))


def told(console, members=(b"SYSA",)):
    """How many jobs the whole lines of a console tell. They come in order from the first on, from these members in
    turn; one more may be torn."""
    lines = console.split(b"\n")
    wanted = [b"%s %05d OK JOB%05d" % (members[at % len(members)], at + 1, at + 1) for at in range(len(lines))]
    if lines[:-1] != wanted[:-1] or not wanted[-1].startswith(lines[-1]):
        raise ValueError(f"the console says {lines!r}")
    return len(lines) - 1


def proved_program():
    """The program, proved and built first where it isn't for the sources as they stand. Without one the script ends."""
    if subprocess.run([LAUNCHER, "--build"], check=False).returncode:
        sys.exit("there is no proved program to try")
    return PROGRAM


def can_trace():
    """Whether there is a `strace`, and it may look at programs here."""
    look = ["strace", "-qq", "-o", "/dev/null", "true"]
    return shutil.which("strace") is not None and subprocess.run(look, capture_output=True, check=False).returncode == 0


def folders_in_memory():
    """Lets the folders of trials stand in memory, where that is possible and nothing else is asked for. A run syncs
    often, which on a disk takes most of its time; a run that is killed leaves what it wrote in either."""
    can = os.access(MEMORY, os.W_OK) and shutil.disk_usage(MEMORY).free >= MEMORY_LEAST
    if can and "TMPDIR" not in os.environ:
        tempfile.tempdir = MEMORY


def bytes_in(path, otherwise=None):
    """What a file holds, or this where there is none."""
    if otherwise is not None and not os.path.exists(path):
        return otherwise
    with open(path, "rb") as file:
        return file.read()


def said(command, script, folder):
    """What a command says on a script, which it must play to its end."""
    ended = subprocess.run(command, input=script, capture_output=True, cwd=folder, timeout=SECONDS, check=False)
    if ended.returncode or ended.stderr:
        raise ValueError(f"{os.path.basename(command[0])} ended with status {ended.returncode}: {ended.stderr[:200]!r}")
    return ended.stdout


def papers_in(folder):
    """What stands on the paper of each member's printer."""
    return [bytes_in(os.path.join(folder, name), b"") for name in PRINTERS]


def plain_runs(plain, scripts):
    """The console and the papers of each of these scripts on the plain list, one script after another."""
    parts = said([plain], b"\0".join(scripts), None).split(b"\0")
    size = 1 + len(PRINTERS)
    if len(parts) != size * len(scripts):
        raise ValueError(f"{len(scripts)} scripts gave {len(parts)} lists of lines")
    return [parts[at : at + size] for at in range(0, len(parts), size)]


def first_difference(want, have):
    """The number of the first line that differs, with the line wanted and the one there; None where none does."""
    wants, haves = want.split(b"\n"), have.split(b"\n")
    for at in range(max(len(wants), len(haves))):
        want_line = wants[at] if at < len(wants) else b"(end)"
        have_line = haves[at] if at < len(haves) else b"(end)"
        if want_line != have_line:
            return at + 1, want_line[:200], have_line[:200]
    return None


def number_at(held, place, width):
    """A number as pages and copies have it."""
    return int.from_bytes(held[place : place + width], "big")


def directory_place(copy, slot):
    """Where the directory of a slot stands in a copy."""
    pages = number_at(copy, 2, 2)
    return PAGE * (1 + pages + slot * (pages + 1))


def page_places(copy):
    """Where each page stands that a sound copy reads as."""
    pages = number_at(copy, 2, 2)
    places = [PAGE * (1 + page) for page in range(pages)]
    for slot in range(SLOTS):
        if copy[GATES_AT + slot] == OPEN:
            directory = directory_place(copy, slot)
            for at in range(number_at(copy, directory, 2)):
                places[number_at(copy, directory + 16 + 2 * at, 2)] = directory + PAGE * (1 + at)
    return places
