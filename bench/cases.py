"""Cases that a queue must bear: many outputs that wait, a class that no printer takes, a queue that stays empty, single
commands at a small and a large checkpoint and in a short and a full queue, a start with all groups taken, a generated
script, and a race."""
import os
import subprocess
import time

from players import PAGE, SIZES, Taken, deck, in_folder, taken_again, traced

# Where files are in memory: these cases are of the processor.
MEMORY = "/dev/shm"


def place(folder):
    return MEMORY if folder is None and os.path.isdir(MEMORY) else folder


def play(command, folder, lines, words=("--cold",)):
    """Plays a script in a folder. For each of its lines is known what the run had taken."""
    return Taken([*command, "play", *words], b"".join(lines), folder, None)


def between(took, first, last):
    """Seconds on the processor from one line of the console to another, counted from 1."""
    return took.seen[last - 1][0] - took.seen[first - 1][0]


PRINTED = 10


def backlog(command, where, count):
    """Outputs that wait for their class, and are printed by lines of WORK once the printer takes it: points of how many
    wait and the milliseconds of each output, and how many of them are the program's own."""
    front = SIZES[102].front
    lines = [front, b"SYSA $TPRT,Q=B,F=STD,L=20\n", *(deck(number, b"A") for number in range(count))]
    lines += [b"SYSA $TPRT,Q=A,F=STD,L=20\n", *[b"SYSA WORK %d\n" % (5 * PRINTED)] * (count // PRINTED)]
    took = in_folder(where, lambda folder: play(command, folder, lines))
    begin = 2 * count + 2
    assert all(line.endswith(b" OK DONE %d\n" % (5 * PRINTED)) for line in took.told[begin:]), took.told[-1]
    points = [
        (count - PRINTED * (number + 1), 1000 * between(took, begin + number, begin + number + 1) / PRINTED)
        for number in range(count // PRINTED)
    ]
    return points, 1000 * (took.seen[-1][2] - took.seen[begin - 1][2]) / count


CLASSES = b"ABCDEFGHIJKLMNOPQRSTUVWXYZ0123456789"


# Behind the outputs that wait so many more are looked at, or so many idle lines. They are played so often in turn.
WAITED, IDLE, WAITS = 600, 20_000, 7


def waiting(command, where, count, causes):
    """Milliseconds on the processor of a deck with its work, and of an idle line of WORK, behind so many outputs of
    class A. For each cause, they wait for their class or for their forms, where the printer takes these classes. Each
    is what runs with them take more than runs without. All runs are played in turn, and the least of each counts."""
    sizes, least = ((count, 0), (count + WAITED, 0), (count, IDLE)), {}

    def run(cause, classes, decks, idle):
        output = b"A" if cause == "class" else b"(A,,PAY)"
        lines = [SIZES[102].front, b"SYSA $TPRT,Q=%s,F=STD,L=20\n" % classes]
        lines += [*(deck(number, output) for number in range(decks)), *[b"SYSA WORK 1\n"] * idle]
        return in_folder(where, lambda folder: play(command, folder, lines)).processor

    for _ in range(WAITS):
        for cause, classes in causes.items():
            for size in sizes:
                took = run(cause, classes, *size)
                least[cause, size] = min(took, least.get((cause, size), took))
    taken = {cause: [least[cause, size] for size in sizes] for cause in causes}
    return {
        cause: (1000 * (more - none) / WAITED, 1000 * (idle - none) / IDLE)
        for cause, (none, more, idle) in taken.items()
    }


def small_deck(number):
    cards = [b"//PAY%05d JOB (1),CLASS=A,MSGCLASS=A" % number, b"//COPY EXEC PGM=IEBGENER", b"//SYSPRINT DD DUMMY"]
    cards += [b"//SYSIN DD DUMMY", b"//SYSUT1 DD *", b"ONE LINE", b"/*", b"//SYSUT2 DD SYSOUT=A", b"//"]
    return b"".join(line + b"\n" for line in [b"SYSA DECK", *cards, b"++END", b"SYSA WORK 20"])


def empty(command, where, count):
    """A queue from which each deck is printed and purged before the next: milliseconds a deck of each tenth, and the
    KiB that each deck of the last nine tenths adds."""
    lines = [SIZES[36].front, *map(small_deck, range(count))]
    took = in_folder(where, lambda folder: play(command, folder, lines))
    size = count // 10
    tenths = [1000 * between(took, 2 * size * k or 1, 2 * size * (k + 1)) / size for k in range(10)]
    return tenths, (took.seen[-1][1] - took.seen[2 * size][1]) / (count - size)


GIVEN = 2_000


def commands(command, where, pages, members):
    """Milliseconds on the processor of a display of a job, and of a hold or a release of it, at so many pages, where
    these members give them by turns. Each is the least of three runs, without what a run takes that gives none."""

    def least(*texts):
        given = [b"%s %s\n" % (members[k % len(members)], texts[k % len(texts)]) for k in range(GIVEN if texts else 0)]
        lines = [SIZES[pages].front, deck(0), *given]
        runs = [in_folder(where, lambda folder: play(command, folder, lines)) for _ in range(3)]
        assert all(took.told[-1].split()[2] == b"OK" for took in runs), runs[0].told[-1]
        return min(took.processor for took in runs)

    none = least()
    return tuple(1000 * (took - none) / GIVEN for took in (least(b"$DJ1"), least(b"$HJ1", b"$AJ1")))


# The jobs of a short queue and of a full one, which has as many outputs as SIZES[102] has slots.
FEW, MANY, PAIRS = 16, 1_008, 16
IN_QUEUE = 5_000


def deck_in_queue(number):
    """A deck with its work. Behind those of the short queue come some whose jobs have two outputs."""
    cards = deck(number)
    if not FEW <= number < FEW + PAIRS:
        return cards
    step = [b"//AGAIN EXEC PGM=IEBGENER", b"//SYSPRINT DD DUMMY", b"//SYSIN DD DUMMY", b"//SYSUT1 DD *", b"ONE LINE"]
    step += [b"/*", b"//SYSUT2 DD SYSOUT=(A,,PAY)", b"//"]
    return cards.replace(b"//\n++END", b"\n".join([*step, b"++END"]))


def in_queue(command, where, jobs):
    """Milliseconds on the processor, by a member whose queue has so many jobs: for the first and the last of them, of a
    display of it and of a hold or a release. Each is the least of three runs, without what a run takes that gives
    none. With them comes how many outputs the queue has."""

    def run(folder):
        play(command, folder, [SIZES[102].front, *map(deck_in_queue, range(jobs))])
        shown = play(command, folder, [b"SYSA $DO\n"], ()).told

        def least(*texts):
            given = [b"SYSA %s\n" % texts[k % len(texts)] for k in range(IN_QUEUE if texts else 0)]
            runs = [play(command, folder, given, ()) for _ in range(3)]
            assert all(took.told[-1].split()[2] == b"OK" for took in runs if texts), runs[0].told[-1]
            return min(took.processor for took in runs)

        none = least()
        for job in (1, jobs):
            for texts in ([b"$DJ%d" % job], [b"$HJ%d" % job, b"$AJ%d" % job]):
                yield 1000 * (least(*texts) - none) / IN_QUEUE
        yield len(shown) - 1

    *each, outputs = in_folder(where, lambda folder: list(run(folder)))
    return each, outputs


CARD = b"%-80d"
LONG = 9_999


def long_deck(number):
    cards = [b"//BIG%05d JOB (1),CLASS=A,MSGCLASS=A,TYPRUN=HOLD" % number, b"//COPY EXEC PGM=IEBGENER"]
    cards += [b"//SYSUT1 DD *", *[CARD % card for card in range(LONG - 5)], b"/*", b"//"]
    return b"".join(line + b"\n" for line in [b"SYSA DECK", *cards, b"++END"])


def fill(command, folder):
    """Fills all groups of the greatest configuration with decks."""
    front, words, number = SIZES[323].front, ("--cold",), 0
    while True:
        took = play(command, folder, [front, *(long_deck(number + k) for k in range(15))], words)
        front, words, number = b"", (), number + 15
        if b"SPOOL FULL" in took.told[-1]:
            break
    # The last groups, by decks of a few cards.
    held = [small_deck(number + k).replace(b"JOB (1)", b"JOB (1),TYPRUN=HOLD") for k in range(300)]
    play(command, folder, held, ())


def read_bare(folder):
    """Seconds of a bare read, page by page, of the copies and of the volumes."""
    begin = time.process_time()
    for name in ["CKPT1", "CKPT2", *(f"SPOOL{number}" for number in range(1, 9))]:
        file = os.open(os.path.join(folder, name), os.O_RDONLY)
        for at in range(0, os.fstat(file).st_size, PAGE):
            os.pread(file, PAGE, at)
        os.close(file)
    return time.process_time() - begin


def start(command, folder, words=(), given=b""):
    """Seconds on the processor of a start that plays nothing: the least of three."""
    runs = []
    for _ in range(3):
        child = subprocess.Popen([*command, "play", *words], stdin=subprocess.PIPE, cwd=folder)
        child.stdin.write(given)
        child.stdin.close()
        _, status, usage = os.wait4(child.pid, 0)
        child.returncode = os.waitstatus_to_exitcode(status)
        assert child.returncode == 0, child.returncode
        runs.append(usage.ru_utime + usage.ru_stime)
    return min(runs)


def full_start(command, where):
    """Of a start with all groups taken: how many are free, its seconds, and those of a bare read."""

    def run(folder):
        fill(command, folder)
        told = play(command, folder, [b"SYSA $DSPL\n"], ()).told
        free = sum(int(line.split()[5]) for line in told[:-1])
        return free, start(command, folder), min(read_bare(folder) for _ in range(3))

    return in_folder(where, run)


def starts(command, where, pages):
    """Seconds on the processor of a cold start at a size, and of a warm one."""

    def run(folder):
        return start(command, folder, ("--cold",), SIZES[pages].front), start(command, folder)

    return in_folder(where, run)


def generated(command, where, decks):
    """Seconds of a generated script of so many decks, and those of a bare loop that makes the same writes and syncs."""
    words = [*command, "generate", str(decks)]
    files = ("CKPT1", "CKPT2", "SPOOL1", "PRT1", "PRT2")
    done, _ = in_folder(where, lambda folder: traced(words, b"", folder, files))
    took = in_folder(where, lambda folder: Taken(words, b"", folder, None))
    assert took.told[-1].startswith(b"SUMMARY ENTERED %d " % decks), took.told[-1]
    return took.seconds, taken_again(done, where).seconds


RACERS = b"ABCDEFGH"


def raced(command, where, decks):
    """Seconds of a script of so many decks, of eight members by turns: in a race, and in play, the least of three."""
    front = b"CONFIG MEMBERS=8,JOBS=1008,OUTPUTS=1024,GROUPS=2048\n"
    alone = [deck(number).rpartition(b"SYSA WORK")[0] for number in range(decks)]
    lines = [cards.replace(b"SYSA", b"SYS%c" % RACERS[number % 8]) for number, cards in enumerate(alone)]
    given = b"".join([front, *lines])

    def run(folder, word):
        begin = time.perf_counter()
        ended = subprocess.run([*command, word, "--cold"], input=given, capture_output=True, cwd=folder, check=True)
        seconds = time.perf_counter() - begin
        assert ended.stdout.count(b" OK JOB") == decks, ended.stdout[-80:]
        assert word == "play" or ended.stdout.endswith(b"H END %d\n" % (3 * decks)), ended.stdout[-80:]
        return seconds

    least = {}
    for _ in range(3):
        for word in ("race", "play"):
            took = in_folder(where, lambda folder: run(folder, word))
            least[word] = min(took, least.get(word, took))
    return least["race"], least["play"]
