"""The table of commands on a plain queue, and what the steps of a member give, for those who judge a race."""

MEMBERS = ("OPER", "SYSA", "SYSB", "SYSC", "SYSD", "SYSE", "SYSF", "SYSG", "SYSH")
CLASSES = "ABCDEFGHIJKLMNOPQRSTUVWXYZ0123456789"
GROUP = 4096


def key(number):
    """A job identifier."""
    return f"JOB{number:05}"


def groups_of(lines):
    """How many groups a text of these lines needs: a line has a byte before it, and the last one ends a group."""
    groups, used = 1, 1
    for line in lines:
        if used + len(line) + 1 > GROUP:
            groups, used = groups + 1, 1
        used += len(line) + 1
    return groups


class Refused(Exception):
    """A command is refused, and why."""


class Job:
    """A job of the queue, with what becomes of it when it is converted and run."""

    def __init__(self, number, deck, by):
        self.number, self.deck, self.busy = number, deck, by
        self.name, self.prio, self.klass, self.held = deck.name, deck.prio, deck.klass, deck.held
        self.phase, self.cancelled = "INPUT", False


class Output:
    """An output of a job."""

    def __init__(self, job, index, spec):
        self.job, self.index, self.busy, self.mark = job, index, 0, 0
        self.klass, self.lines, self.held = spec[0], spec[1], False

    def __str__(self):
        return f"{key(self.job)}.{self.index:02}"

    @property
    def total(self):
        return len(self.lines)


class Queue:
    """A queue as one plain list of jobs and one of outputs. Each command answers as a history line says it."""

    def __init__(self, members=2, jobs=256, outputs=512, volumes=1, groups=512):
        self.members, self.most_jobs, self.most_outputs = members, jobs, outputs
        self.volumes, self.per = volumes, groups
        self.jobs, self.outputs, self.last = [], [], 0
        self.owners = [None] * (volumes * groups)
        self.init = [CLASSES] * (members + 1)
        self.prt = [(CLASSES, "STD", 20)] * (members + 1)

    # What is looked up.

    def job(self, number):
        for job in self.jobs:
            if job.number == number:
                return job
        raise Refused("NO JOB")

    def output(self, number, index):
        for out in self.outputs:
            if (out.job, out.index) == (number, index):
                return out
        raise Refused("NO OUTPUT")

    def held_by(self, by):
        return [at for at, owner in enumerate(self.owners) if owner == ("MEMBER", by)]

    def free(self, test):
        self.owners = [None if owner and test(owner) else owner for owner in self.owners]

    def give(self, by, thing, count):
        for place, at in enumerate(self.held_by(by)[:count]):
            self.owners[at] = (*thing, place)

    def printing(self, by):
        return next((out for out in self.outputs if out.busy == by), None)

    def drop_output(self, out):
        self.outputs.remove(out)
        self.free(lambda owner: owner[:3] == ("OUTPUT", out.job, out.index))
        job = self.job(out.job)
        if job.phase == "HARDCOPY" and not any(one.job == out.job for one in self.outputs):
            job.phase = "PURGE"

    def select(self, jobs, classes=None):
        jobs = [job for job in jobs if not job.held and not job.busy]
        if classes is not None:
            jobs = [job for job in jobs if job.klass in classes]
        rank = (lambda job: (classes.index(job.klass), -job.prio)) if classes is not None else (lambda job: -job.prio)
        return min(jobs, key=rank, default=None)

    def to_convert(self):
        return self.select([job for job in self.jobs if job.phase == "CONVERT"])

    def to_run(self, by):
        return self.select([job for job in self.jobs if job.phase == "EXECUTE"], self.init[by])

    def to_print(self, by):
        classes, forms, _lines = self.prt[by]
        outs = [out for out in self.outputs if not out.held and not out.busy and out.klass in classes]
        outs = [out for out in outs if self.job(out.job).phase == "HARDCOPY" and forms == "STD"]
        return min(outs, key=lambda out: (classes.index(out.klass), -self.job(out.job).prio), default=None)

    # The commands, by member.

    def begin(self, by, deck):
        if len(self.jobs) == self.most_jobs:
            raise Refused("JOBS FULL")
        number = self.last % 99_999 + 1
        while any(job.number == number for job in self.jobs):
            number = number % 99_999 + 1
        self.last = number
        self.jobs.append(Job(number, deck, by))
        return key(number)

    def take(self, by, want):
        free = [at for at, owner in enumerate(self.owners) if owner is None]
        if not free:
            raise Refused("SPOOL FULL")
        for at in free[:want]:
            self.owners[at] = ("MEMBER", by)
        return str(len(free[:want]))

    def drop(self, by, number):
        if number:
            job = self.job(number)
            if job.phase != "INPUT":
                raise Refused(f"PHASE {job.phase}")
            if job.busy != by:
                raise Refused(f"IN USE {MEMBERS[job.busy]}")
            self.jobs.remove(job)
        self.free(lambda owner: owner == ("MEMBER", by))
        return "OK"

    def busy_job(self, by, number, *phases):
        job = self.job(number)
        if job.phase not in phases:
            raise Refused(f"PHASE {job.phase}")
        if job.busy != by:
            raise Refused(f"IN USE {MEMBERS[job.busy]}")
        return job

    def enter(self, by, number):
        job = self.busy_job(by, number, "INPUT")
        need = groups_of(job.deck.cards)
        if len(self.held_by(by)) < need:
            raise Refused("NOTHING")
        self.give(by, ("DECK", number), need)
        self.free(lambda owner: owner == ("MEMBER", by))
        job.busy, job.phase = 0, "PURGE" if job.cancelled else "CONVERT"
        return key(number)

    def takeconvert(self, by):
        job = self.to_convert()
        if job is None:
            raise Refused("NOTHING")
        job.busy = by
        return key(job.number)

    def converted(self, by, number):
        job = self.busy_job(by, number, "CONVERT")
        job.busy, job.phase = 0, "PURGE" if job.cancelled else "EXECUTE"
        return key(number)

    def takeexec(self, by):
        job = self.to_run(by)
        if job is None:
            raise Refused("NOTHING")
        job.busy = by
        return key(job.number)

    def ended(self, by, number, specs):
        job = self.busy_job(by, number, "CONVERT", "EXECUTE")
        if job.cancelled:
            specs, job.phase = [], "PURGE"
        else:
            if self.most_outputs - len(self.outputs) < len(specs):
                raise Refused("OUTPUTS FULL")
            if len(self.held_by(by)) < sum(groups_of(lines) for _klass, lines in specs):
                raise Refused("NOTHING")
            job.phase = "OUTPUT"
        for index, spec in enumerate(specs, 1):
            self.give(by, ("OUTPUT", number, index), groups_of(spec[1]))
            self.outputs.append(Output(number, index, spec))
        self.free(lambda owner: owner == ("MEMBER", by))
        job.busy = 0
        return str(len(specs))

    def first_in(self, phase):
        for job in self.jobs:
            if job.phase == phase:
                return job
        raise Refused("NOTHING")

    def gather(self, _by):
        job = self.first_in("OUTPUT")
        job.phase = "HARDCOPY" if any(out.job == job.number for out in self.outputs) else "PURGE"
        return key(job.number)

    def pick(self, by):
        if self.printing(by):
            raise Refused(f"IN USE {MEMBERS[by]}")
        out = self.to_print(by)
        if out is None:
            raise Refused("NOTHING")
        out.busy = by
        return str(out)

    def own_output(self, by, number, index):
        out = self.output(number, index)
        if out.busy != by:
            raise Refused(f"IN USE {MEMBERS[out.busy]}")
        return out

    def mark(self, by, number, index, at):
        out = self.own_output(by, number, index)
        out.mark = min(at, out.total)
        return str(out.mark)

    def done(self, by, number, index):
        out = self.own_output(by, number, index)
        if out.mark < out.total:
            raise Refused("NOTHING")
        self.drop_output(out)
        return str(out)

    def purge(self, _by):
        job = self.first_in("PURGE")
        self.jobs.remove(job)
        self.free(lambda owner: owner[:2] == ("DECK", job.number))
        return key(job.number)

    def hold(self, _by, number):
        self.job(number).held = True
        return key(number)

    def release(self, _by, number):
        self.job(number).held = False
        return key(number)

    def cancel(self, by, number):
        job = self.job(number)
        if job.phase == "PURGE":
            raise Refused("PHASE PURGE")
        for out in self.outputs:
            if out.job == number and out.busy not in (0, by):
                raise Refused(f"IN USE {MEMBERS[out.busy]}")
        if job.busy:
            job.cancelled = True
        else:
            self.outputs = [out for out in self.outputs if out.job != number]
            self.free(lambda owner: owner[:2] == ("OUTPUT", number))
            job.phase = "PURGE"
        return key(number)

    def setprio(self, _by, number, prio):
        job = self.job(number)
        if job.phase == "PURGE":
            raise Refused("PHASE PURGE")
        job.prio = prio
        return key(number)

    def setclass(self, _by, number, klass):
        job = self.job(number)
        if job.phase not in ("INPUT", "CONVERT", "EXECUTE"):
            raise Refused(f"PHASE {job.phase}")
        job.klass = klass
        return key(number)

    def setprt(self, by, classes, forms, lines):
        self.prt[by] = (classes, forms, lines)
        return "OK"

    def reset(self, _by, of):
        for job in self.jobs:
            if job.busy == of:
                job.busy = 0
                if job.phase == "INPUT" or job.cancelled or (job.phase == "EXECUTE" and not job.deck.restart):
                    job.phase = "PURGE"
        for out in self.outputs:
            out.busy = 0 if out.busy == of else out.busy
        self.free(lambda owner: owner == ("MEMBER", of))
        return "OK"

    # The displays.

    def of_queue(self):
        return [
            f"{key(j.number)} {j.name} {j.klass} {j.prio:02} {j.phase} {MEMBERS[j.busy] if j.busy else '-'} "
            + ("HELD" if j.held else "-")
            for j in self.jobs
        ]

    def of_outputs(self):
        return [
            f"{o} {o.klass} LOCAL STD 1 {len(o.lines)} {o.mark} {MEMBERS[o.busy] if o.busy else '-'} "
            + ("HELD" if o.held else "-")
            for o in self.outputs
        ]

    def of_spool(self):
        volumes = [self.owners[v * self.per : (v + 1) * self.per] for v in range(self.volumes)]
        return [f"VOL{v} FREE {volume.count(None)} OF {self.per}" for v, volume in enumerate(volumes, 1)]

    def of_members(self):
        return [
            f"{MEMBERS[m]} INIT={self.init[m]} PRT={self.prt[m][0]} F={self.prt[m][1]} L={self.prt[m][2]}"
            for m in range(1, self.members + 1)
        ]
