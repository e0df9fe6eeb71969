"""Which lines a run has: chosen at random for what an application is like, and spelled as the program reads them."""
import random

from model import FILES, KEYS, NEWEST, PIECE, STORAGES, Value, kind_of, manifest

CHOICES = 16
MANIFESTS = {version: manifest(version) for version in range(1, NEWEST + 1)}
REBUILDING = ("recover-storage", "reset-storage")
OPENING = {"keys": ("open-kvs", "keys"), "files": ("open-files", "files")}


def spelled(number, command):
    """Returns the line of a command to application `number`. A version is spelled as its manifest."""

    def word(part):
        if isinstance(part, int):
            return MANIFESTS[part]
        if isinstance(part, bytes):
            return part.hex()
        return part.text() if isinstance(part, Value) else part

    return " ".join([str(number), *map(word, command)])


class Dice(random.Random):
    """Choices that follow from a seed, alike in each version of Python."""

    def below(self, sides):
        return int(self.random() * sides)

    def one_in(self, sides):
        return self.below(sides) == 0

    def one_of(self, things):
        return things[self.below(len(things))]


# ---- what is done next: a command, or some that belong together


def chosen(dice, app):
    """Returns commands, mostly ones that are not refused."""
    if app.files is not None and dice.one_in(6):
        return by_handle(dice)
    if dice.one_in(8):
        return unfitting(dice, app)
    if not app.active:
        return [("install", dice.below(NEWEST - 1) + 1)]
    return [stepping(dice)] if app.draft else using(dice, app)


def unfitting(dice, app):
    """Returns commands that need not fit."""
    kind = dice.below(6)
    if kind == 0:
        words = "status finish rollback wipe update-next update-commit update-abort install update update-begin".split()
        word = dice.one_of(words)
        return [(word, dice.below(NEWEST) + 1) if word in ("install", "update", "update-begin") else (word,)]
    storage = dice.one_of(STORAGES)
    if kind == 1:
        return [OPENING[storage]]
    if kind == 2:
        return [("close", storage)]
    if kind == 3:
        return [(dice.one_of(REBUILDING), storage)]
    return on_keys(dice, app) if kind == 4 else on_files(dice)


def using(dice, app):
    """Returns commands to what is installed."""
    if app.keys is None and app.files is None and dice.one_in(3):
        return [changing(dice, app)]
    storage = dice.one_of(STORAGES)
    if getattr(app, storage) is None:
        return [(dice.one_of(REBUILDING), storage) if dice.one_in(10) else OPENING[storage]]
    if dice.one_in(10):
        return [("close", storage)]
    return on_keys(dice, app) if storage == "keys" else on_files(dice)


def changing(dice, app):
    """Returns a command of deployment where nothing is open."""
    version = min(app.active.number + dice.below(2) + 1, NEWEST)
    if app.previous and dice.below(8) < 5:
        return (dice.one_of(["finish", "rollback"]),)
    if dice.one_in(20):
        return ("wipe",)
    return (dice.one_of(["update", "update-begin"]), version)


def stepping(dice):
    """Returns a command to an update in progress."""
    return (dice.one_of(["update-next"] * 3 + ["update-abort"] + ["update-commit"] * 2),)


def on_keys(dice, app):
    key = dice.one_of(KEYS)
    change = ("set", "keys", key, value(dice, app, key))
    looks = [("get", "keys", key)] * 2 + [("exists", "keys", key), ("keys", "keys"), ("size", "keys")]
    word = dice.one_of(["set"] * 4 + ["sync"] * 3 + "discard remove remove-all reset-key recover-key".split())
    command = (word, "keys") if word in ("sync", "discard", "remove-all") else (word, "keys", key)
    return in_sequence(dice, change, change if word == "set" else command, looks)


def on_files(dice):
    file = dice.one_of(FILES)
    change = ("put", "files", file, content(dice))
    looks = [("cat", "files", file)] * 2 + [("file-exists", "files", file), ("files", "files"), ("size", "files")]
    word = dice.one_of(["put"] * 4 + "delete reset-file recover-file flush".split())
    command = (word, "files", "1") if word == "flush" else (word, "files", file)
    return in_sequence(dice, change, change if word == "put" else command, looks)


def in_sequence(dice, change, command, looks):
    """Returns a command, at times after one that gives it something to undo, and before one that looks at it."""
    before = [change] if command != change and dice.one_in(2) else []
    after = [dice.one_of(looks)] if dice.one_in(2) else []
    return [*before, command, *after]


def value(dice, app, key):
    """Returns a value, seldom of another type than the key has. A key that may come to be configured has no other."""
    version = app.active.number if app.active else 1
    kind = "u16" if key in ("grown", "noted") and dice.one_in(10) else kind_of(key, version)
    return Value(kind, dice.below(256))


def content(dice):
    return bytes([dice.below(256)]) * (PIECE * dice.below(4))


def by_handle(dice):
    """Returns what is done with a file by its handle: opened, looked at, written, made durable, closed."""
    file = dice.one_of(FILES)
    piece = bytes([dice.below(256)]) * PIECE
    return [
        ("open-file", "files", file, "w", "none"),
        ("cat", "files", file),
        ("write", "files", "1", piece),
        ("flush", "files", "1"),
        ("close-file", "files", "1"),
    ]


# ---- the lines of a run, each with the number of its application


def random_lines(dice, world):
    """Returns lines that are chosen one by one for what the earlier ones lead to."""
    lines = []
    for _ in range(CHOICES):
        number = dice.below(len(world))
        for command in chosen(dice, world[number]):
            lines.append((number, command))
            world = world_after(world, number, command)
    return lines


def world_after(world, number, command):
    _, app = world[number].answer(command)
    return world[:number] + (app,) + world[number + 1 :]


def writing_places(world, lines):
    """Yields the places of the lines that change what is stored."""
    for at, (number, command) in enumerate(lines):
        after = world_after(world, number, command)
        before, behind = world[number], after[number]
        if command[0] == "update-next" or (before.active, before.previous) != (behind.active, behind.previous):
            yield at
        world = after


LOOK = (
    [("status",), OPENING["keys"], ("keys", "keys")]
    + [("get", "keys", key) for key in KEYS]
    + [OPENING["files"], ("files", "files")]
    + [("cat", "files", file) for file in FILES]
    + [("close", "keys"), ("close", "files")]
)


def looking_lines():
    """Looks at all that both applications have."""
    return [(number, command) for number in (0, 1) for command in LOOK]


def renewing_lines(version):
    """Wipes both applications, installs a version, and looks at what it has."""
    anew = [("wipe",), ("status",), ("install", version), *LOOK]
    return [(number, command) for number in (0, 1) for command in anew]
