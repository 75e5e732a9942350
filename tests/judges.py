"""What a run says, leaves and prints that was killed, or ended early, and what the next start makes of it."""
import os
import re
import subprocess

from common import CARDS, PAPER, PROGRAM, SECONDS, deck, decks

# A run of decks, which three members enter in turn.
DECKS = 20
MEMBERS = (b"SYSA", b"SYSB", b"SYSC")
ENTERS = b"CONFIG MEMBERS=3\n" + decks(DECKS, MEMBERS)

# A run of decks, before each of which one copy is lost and replaced, in turn; and what each of its jobs is told by.
LOSES = [b"LOSE CKPT%d\nSYSB REPLACE CKPT%d\n" % (1 + number % 2, 1 + number % 2) for number in range(DECKS)]
REPLACES = b"CONFIG MEMBERS=3\n" + b"".join(
    LOSES[number] + deck(b"J%d" % number, MEMBERS[number % len(MEMBERS)]) for number in range(DECKS)
)
TELLS = re.compile(rb"^SYS[ABC] \d{5} OK JOB\d{5}$", re.MULTILINE)
REPLACED = re.compile(rb"^SYSB \d{5} OK$", re.MULTILINE)

# A run that prints three lines, two at a time, and what it says.
PRINTS = b"SYSA $TPRT,Q=A,F=STD,L=2\nSYSA DECK\n" + CARDS + b"++END\nSYSA WORK 20\n"
SAYS = [b"SYSA 00001 OK", b"SYSA 00002 OK JOB00001", b"SYSA 00003 OK DONE 10"]
MARK = re.compile(rb"^JOB00001\.01 A LOCAL STD 1 3 (\d+) ", re.MULTILINE)
WAITS = re.compile(rb"^JOB00001 C A 05 (CONVERT|EXECUTE|OUTPUT) ", re.MULTILINE)


def start(words, folder, tracer=()):
    pipe = subprocess.PIPE
    how = {"stdin": pipe, "stdout": pipe, "stderr": pipe, "cwd": folder, "start_new_session": True}
    return subprocess.Popen([*tracer, PROGRAM, *words], **how)


def check_texts(folder, count):
    """Looks for the texts of the first jobs on the spool volume: each has one card, and a group of its own."""
    with open(os.path.join(folder, "SPOOL1"), "rb") as volume:
        for number in range(count):
            volume.seek(4096 * number)
            card = b"//J%d JOB" % number
            wanted = bytes([len(card)]) + card + b"\xff"
            held = volume.read(len(wanted))
            if held != wanted:
                raise ValueError(f"group {number} holds {held!r}")


def reported(folder):
    """How many jobs a report says; they must be the script's, from the first on, and the last may only have begun.
    None where it finds no queue."""
    console, error = start(["report"], folder).communicate(timeout=SECONDS)
    if console == b"" and error.startswith(b"MAS NOT FORMATTED"):
        return None
    lines = [line for line in console.splitlines() if line.startswith(b"JOB")]
    input_phase = b"INPUT %s -" % MEMBERS[(len(lines) - 1) % len(MEMBERS)]
    begun = bool(lines) and lines[-1].endswith(b" " + input_phase)
    phases = [b"CONVERT - -"] * (len(lines) - begun) + [input_phase] * begun
    wanted = [b"JOB%05d J%d A 05 %s" % (number + 1, number, phase) for number, phase in enumerate(phases)]
    free = b"\nVOL1 FREE %d OF 512\n" % (512 - len(lines))
    if lines != wanted or free not in b"\n" + console or not console.endswith(b"\nEND\n"):
        raise ValueError(f"the report says {console!r}")
    check_texts(folder, len(lines) - begun)
    return len(lines)


def started(folder):
    """How many jobs a warm run finds, by the number that the next job gets; None where it finds no queue."""
    console, error = start(["play"], folder).communicate(decks(1), timeout=SECONDS)
    if console == b"" and error.startswith(b"MAS NOT FORMATTED"):
        return None
    return int(console.removeprefix(b"SYSA 00001 OK JOB")) - 1


def on_paper(folder):
    """The lines that the printer's file holds; the last one may be without its end."""
    path = os.path.join(folder, "PRT1")
    if not os.path.exists(path):
        return []
    with open(path, "rb") as file:
        held = file.read()
    lines = re.findall(b"|".join(map(re.escape, PAPER)), held)
    if b"".join(lines) != held.replace(b"\n", b""):
        raise ValueError(f"the printer has {held!r}")
    return lines


def prints_on(folder, console):
    """What is wrong with the queue and the paper behind a run that was killed and said this, and with the paper of
    the next one's work."""
    said = console.split(b"\n")[:-1]
    if said != SAYS[: len(said)]:
        return f"the console says {console!r}"
    before = on_paper(folder)
    queue, _ = start(["report"], folder).communicate(timeout=SECONDS)
    mark = MARK.search(queue)
    waits = mark or WAITS.search(queue)
    if (len(said) >= 2 and not waits or len(said) == 3) and before != PAPER:
        return f"{console!r} was said, {before!r} stands on paper, and the report says {queue!r}"
    if len(said) == 3 and b"\nJOB" in b"\n" + queue:
        return f"{console!r} was said, and the report says {queue!r}"
    if before != PAPER[: len(before)] or (mark and int(mark.group(1)) > len(before)):
        return f"{before!r} stands on paper, and the report says {queue!r}"
    start(["play"], folder).communicate(b"SYSA WORK 20\n", timeout=SECONDS)
    if mark:
        behind = PAPER[int(mark.group(1)) :]
    elif waits:
        behind = PAPER
    else:
        behind = []
    if on_paper(folder) == before + behind:
        return None
    return f"{on_paper(folder)!r} stands on paper then, and the report said {queue!r}"


def replaced_on(console, folder):
    """What is wrong with the queue behind a run that replaced copies, was killed, and said this."""
    whole = console[: console.rfind(b"\n") + 1]
    said, replaced = len(TELLS.findall(whole)), len(REPLACED.findall(whole))
    if said + replaced != whole.count(b"\n") or replaced not in (said, said + 1):
        return f"the console says {console!r}"
    jobs, found = reported(folder), started(folder)
    if jobs == found and ((jobs is None and replaced == 0) or jobs in (said, said + 1)):
        return None
    return f"{said} jobs were said, {jobs} reported and {found} found"
