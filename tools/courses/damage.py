"""Damage to the copies of roots and storages."""
from typing import Callable, NamedTuple, Optional

from dataclasses import replace

from model import ROOT_COPIES, STORAGES, redundancy

FIRST_FILE = {"root": 0, "files": 1024, "keys": 1056}
BANK, APPLICATION = 512, 4096
# Which files of a copy are in use: the slots of a root; the slots of a storage and its contents.
PARTS = {"root": 2, "files": 3, "keys": 3}


class Damage(NamedTuple):
    """What becomes of a file of a copy."""

    number: int
    place: str
    bank: Optional[int]
    copy: int
    part: int
    way: str
    spoiled: Callable

    def file(self):
        bank = BANK * (self.bank or 0)
        return f"f{APPLICATION * self.number + bank + FIRST_FILE[self.place] + 4 * self.copy + self.part}"

    def done_to(self, world):
        app = world[self.number]
        if self.place == "root":
            app = replace(app, damaged_root=app.damaged_root + 1)
        else:
            app = replace(app, active=self.done_to_version(app.active), previous=self.done_to_version(app.previous))
        return world[: self.number] + (app,) + world[self.number + 1 :]

    def done_to_version(self, version):
        if not version or version.bank != self.bank:
            return version
        return version.with_damaged(self.place, version.damaged(self.place) + 1)

    def is_borne(self, worlds):
        """Whether the application can do without what is damaged, whichever world is so."""
        return not any(self.done_to(world)[self.number].is_lost() for world in worlds)


def chosen_damage(dice, world):
    """Returns damage to something that is there."""
    number = dice.below(len(world))
    app = world[number]
    version = dice.one_of([None, app.previous, app.previous] + [app.active] * 5)
    way, spoiled = dice.one_of(WAYS)(dice)
    if not version:
        return Damage(number, "root", None, dice.below(ROOT_COPIES), dice.below(PARTS["root"]), way, spoiled)
    storage = dice.one_of(STORAGES)
    copy = dice.below(redundancy(storage, version.number).copies)
    return Damage(number, storage, version.bank, copy, dice.below(PARTS[storage]), way, spoiled)


# ---- what becomes of the bytes of a file


def complements(count):
    return lambda data: bytes(255 - it for it in data[:count]) + data[count:]


def first(dice):
    count = dice.one_of([1, 44, 65536])
    return f"{count} bytes become their complements", complements(count)


def one_byte(dice):
    share = dice.random()

    def spoiled(data):
        at = int(len(data) * share)
        return data[:at] + complements(1)(data[at:])

    return f"the byte at {share:.3f} of its length becomes its complement", spoiled


def cut(dice):
    share = dice.random()
    return f"{share:.3f} of it are left", lambda data: data[: int(len(data) * share)]


def blank(_dice):
    return "all of it becomes zeros", lambda data: bytes(len(data))


def gone(_dice):
    return "it is gone", lambda data: None


WAYS = (first, first, one_byte, cut, blank, gone)
