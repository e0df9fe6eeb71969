"""A random workload: runs of the program over one folder, stops, restarts and damage, beside what may be so.

What may be so is a list of worlds, each of two applications. A command in which the program was stopped leaves the
world before it and the one after it; a reply rules out the worlds that do not give it.
"""
import os
import subprocess
from dataclasses import dataclass, field

from damage import chosen_damage
from disk import All, Disk, Nothing, Some, calls_of
from lines import Dice, looking_lines, random_lines, renewing_lines, spelled, world_after, writing_places
from model import NEWEST, ROOT_COPIES, Application

RUNS = 4
EMPTY = (Application(), Application())
FAILED = "error 4 PhysicalStorageFailure"
LOST = "error 5 IntegrityCorrupted "
KILLED = -9
SECONDS = 600
DEVICE_FAILED = 3


class Difference(Exception):
    """What the program did that no world allows, and after how many lines of the run."""

    def __init__(self, text, lines=0):
        super().__init__(text)
        self.lines = lines


@dataclass
class Counts:
    courses: int = 0
    runs: int = 0
    killed: int = 0
    failed: int = 0
    replies: int = 0
    damaged: int = 0
    differ: int = 0

    def add(self, other):
        for name, count in vars(other).items():
            setattr(self, name, getattr(self, name) + count)


@dataclass
class Bench:
    """The program, the library that stops it, a folder to work in, and the files of a formatted disk."""

    program: str
    stopping: str
    work: str
    formatted: dict = field(default_factory=dict)

    def run(self, folder, text, stop=None, words=()):
        """Returns the status, the lines of standard output, the noted calls, and the text of standard error."""
        notes = f"{self.work}/notes"
        environment = {**os.environ, "LD_PRELOAD": self.stopping, "NOTES": notes}
        if stop:
            environment["STOP"] = stop
        try:
            done = subprocess.run(
                [self.program, *words, "--dir", folder],
                input=text.encode(),
                capture_output=True,
                env=environment,
                close_fds=False,
                timeout=SECONDS,
                check=False,
            )
        except subprocess.TimeoutExpired as late:
            raise Difference(f"a run does not end within {SECONDS} seconds") from late
        with open(notes, "rb") as file:
            calls = list(calls_of(file.read()))
        return done.returncode, done.stdout.decode().splitlines(), calls, done.stderr.decode()

    def format(self):
        disk = Disk(f"{self.work}/formatted")
        status, _, calls, errors = self.run(disk.folder, "", words=("--format",))
        if status:
            raise Difference(f"formatting ends with status {status}: {errors}")
        disk.take(calls)
        if disk.differs():
            raise Difference(f"{disk.differs()} was changed by no call that is noted")
        disk.lose_power(Nothing())
        self.formatted = disk.durable
        disk.remove()


class Course:
    def __init__(self, bench, seed, log=None):
        self.bench = bench
        self.dice = Dice(seed)
        self.disk = Disk(f"{bench.work}/folder", bench.formatted)
        self.worlds = [EMPTY]
        self.is_killed = False
        self.has_failed = False
        self.counts = Counts(courses=1)
        self.log = log or (lambda _text: None)

    def take(self):
        """Runs the workload; raises what differs."""
        for _ in range(RUNS):
            self.restart()
            self.bear()
            looking = looking_lines() if self.dice.one_in(2) else []
            lines = looking + random_lines(self.dice, self.worlds[0])
            self.run(lines, self.chosen_stop(lines))
        self.restart(with_power_loss=True)
        self.lose()
        self.run(looking_lines())
        # Whatever is lost, all can be rebuilt.
        self.worlds = [tuple(Application(damaged_root=ROOT_COPIES) for _ in EMPTY)]
        self.run(renewing_lines(self.dice.below(NEWEST) + 1))
        if self.disk.differs():
            raise Difference(f"{self.disk.differs()} was changed by no call that is noted")

    # -- between two runs

    def restart(self, with_power_loss=False):
        """Goes on with what is seen where the program was only killed, or loses power."""
        kept = self.dice.one_of([All(), Nothing(), Some(self.dice), Some(self.dice), None])
        if kept is None and (self.has_failed or with_power_loss):
            kept = Some(self.dice)
        if kept:
            self.log(f"power is lost: {kept.text} of what was not synced is kept")
            self.disk.lose_power(kept)
        else:
            self.log("the system goes on")
            self.disk.go_on()
        self.is_killed = not kept
        self.has_failed = False

    def bear(self):
        """Damages what each application can do without."""
        for _ in range(0 if self.is_killed else 3):
            damage = chosen_damage(self.dice, self.worlds[0])
            if damage.is_borne(self.worlds):
                self.damage(damage)

    def lose(self):
        """Damages more than that, perhaps."""
        for _ in range(self.dice.below(6)):
            self.damage(chosen_damage(self.dice, self.worlds[0]))

    def damage(self, damage):
        self.log(f"damage: {damage.file()}, {damage.way}")
        self.disk.damage(damage.file(), damage.spoiled)
        self.worlds = [damage.done_to(world) for world in self.worlds]
        self.counts.damaged += 1

    # -- a run

    def chosen_stop(self, lines):
        """Returns at which call a run stops, if it does: in the start, or from a command on that writes."""
        if self.dice.one_in(4):
            return None
        how = "fail" if self.dice.one_in(6) else "kill"
        places = list(writing_places(self.worlds[0], lines))
        if not places or self.dice.one_in(12):
            return f"{how} 0 {1 + self.dice.below(64)}"
        return f"{how} {self.dice.one_of(places)} {1 + self.dice.below(2 ** self.dice.below(7))}"

    def run(self, lines, stop=None):
        text = "".join(spelled(number, command) + "\n" for number, command in lines)
        status, output, calls, errors = self.bench.run(self.disk.folder, text, stop)
        self.log(f"run, {stop or 'not stopped'}:")
        was_stopped = self.disk.take(calls)
        self.compare(lines, output, was_stopped)
        self.has_failed = was_stopped and status != KILLED
        allowed = [0] if not was_stopped else [KILLED] if stop.startswith("kill") else [0, DEVICE_FAILED]
        if status not in allowed or (status == DEVICE_FAILED and output):
            raise Difference(f"the status is {status}: {errors}")
        self.counts.runs += 1
        self.counts.killed += was_stopped and status == KILLED
        self.counts.failed += self.has_failed

    def compare(self, lines, output, was_stopped):
        """Keeps what may be so after a run with these replies."""
        replies = [line for line in output if not line.startswith("report ")]
        for at, (number, command) in enumerate(lines):
            self.log(f"    {spelled(number, command)}")
            self.log(f"        {replies[at] if at < len(replies) else 'no reply'}")
        self.counts.replies += len(replies)
        worlds, faults = {}, []
        for world in self.worlds:
            try:
                worlds.update(dict.fromkeys(followed(world, lines, replies, was_stopped)))
            except Difference as difference:
                faults.append(difference)
        if not worlds:
            # Of several worlds the one is shown that went along with the program for longest.
            raise max(faults, key=lambda difference: difference.lines)
        self.worlds = list(worlds)


def followed(world, lines, replies, was_stopped):
    """Returns the worlds that may be so after a run, where one was so before it and these are its replies."""
    if len(replies) > len(lines):
        raise Difference(f"'{replies[len(lines)]}' replies to no line")
    unopened = world
    world = tuple(app.started() for app in world)
    was_refused = False
    for at, (number, command) in enumerate(lines):
        wanted, _ = world[number].answer(command)
        after = world_after(world, number, command)
        found = replies[at] if at < len(replies) else None
        if was_stopped and found in (None, FAILED):
            # Before the first reply the start may have been in progress, too.
            return [closed(it) for it in (world, after, *([unopened] if at == 0 else []))]
        if found != wanted and not (world[number].is_lost() and is_of_loss(found, was_refused)):
            line, found, wanted = map(shortened, (spelled(number, command), found or "nothing", wanted))
            raise Difference(f"'{line}' is answered '{found}', and not '{wanted}'", at)
        was_refused = was_refused or found.startswith(LOST)
        world = after
    return [closed(world)]


def shortened(text):
    return text if len(text) <= 60 else f"{text[:60]}.. ({len(text)} characters)"


def closed(world):
    return tuple(app.closed() for app in world)


def is_of_loss(reply, was_refused):
    """Whether a reply may come where too many copies are damaged: a refusal, and after one that nothing is open."""
    return reply is not None and (reply.startswith(LOST) or (was_refused and reply == "error 24 NotOpen"))
