"""A folder as a power loss leaves it.

What the program did to the folder is told by the notes of stopping.c. A sync of a file makes its bytes durable, and a
sync of the folder the names of its files; of everything else a power loss may keep all, nothing or some, and of a
write some part or other bytes in its place.
"""
import os

FOLDER = "."


class Disk:
    def __init__(self, folder, files=None):
        self.folder = folder
        # What is durable of each file whose name is.
        self.durable = dict(files or {})
        # What no sync has reached, in order: each a name, a place and bytes; and the names themselves.
        self.writes = []
        self.names = set()
        # The write that the program was killed in.
        self.cut = None
        # What the folder has.
        self.seen = {}
        os.makedirs(folder, exist_ok=True)
        self.show(self.durable)

    # -- what a run did

    def take(self, calls):
        """Takes the calls of a run, and returns whether it was stopped in one."""
        stops = [at for at, (word, *_) in enumerate(calls) if word == "stop"]
        for call in calls[: stops[0]] if stops else calls:
            self.do(*call)
        # Where all calls fail from the stop on, the first of them alone may have been begun.
        stopped = calls[stops[0] + 1 :][:1] if stops else []
        if stopped and stopped[0][0] == "write":
            self.cut = stopped[0][1:]
        return bool(stops)

    def do(self, word, name, at=0, data=b""):
        if word == "made":
            self.names.add(name)
            self.seen[name] = b""
        elif word == "write":
            self.writes.append((name, at, data))
            self.seen[name] = put(self.seen.get(name, b""), at, data)
        elif name == FOLDER:
            self.names.clear()
        else:
            for write in self.writes:
                if write[0] == name:
                    self.durable[name] = put(self.durable.get(name, b""), *write[1:])
            self.writes = [write for write in self.writes if write[0] != name]

    def differs(self):
        """Returns a file of the folder that is not what the notes make of it, or None."""
        for name in set(os.listdir(self.folder)) | set(self.seen):
            path = f"{self.folder}/{name}"
            if not os.path.exists(path) or name not in self.seen or read(path) != self.seen[name]:
                return name
        return None

    def remove(self):
        self.show({})
        os.rmdir(self.folder)

    # -- between two runs

    def lose_power(self, kept):
        """Restarts the system. `kept` gives what is kept of each call that no sync has reached."""
        files = {name: data for name, data in self.durable.items() if name not in self.names}
        for name in sorted(self.names):
            if kept.keeps_name():
                files[name] = self.durable.get(name, b"")
        for name, at, data in self.writes + ([self.cut] if self.cut else []):
            if name in files or name not in self.names:
                files[name] = kept.of_write(files.get(name, b""), at, data)
        self.become(files)

    def go_on(self):
        """Goes on after the program alone was killed: what it wrote is seen, and is no more durable than before."""
        self.cut = None

    def damage(self, name, spoiled):
        """Changes the bytes of a file, where all is durable; `spoiled` gives None for a file that is gone."""
        files = dict(self.seen)
        data = spoiled(files.pop(name, b""))
        self.become(files if data is None else {**files, name: data})

    def become(self, files):
        self.durable, self.writes, self.names, self.cut = files, [], set(), None
        self.show(dict(files))

    def show(self, files):
        """Makes the folder have these files."""
        for name in self.seen.keys() - files.keys():
            os.remove(f"{self.folder}/{name}")
        for name, data in files.items():
            if self.seen.get(name) != data:
                with open(f"{self.folder}/{name}", "wb") as file:
                    file.write(data)
        self.seen = dict(files)


def calls_of(notes):
    """Yields the calls of the notes, each as its word, the name, and of a write the place and the bytes."""
    at = 0
    while at < len(notes):
        end = notes.index(b"\n", at)
        word, *rest = notes[at:end].decode().split()
        at = end + 1
        if word == "write":
            name, place, length = rest[0], int(rest[1]), int(rest[2])
            yield word, name, place, notes[at : at + length]
            at += length
        else:
            yield word, *rest


def put(old, at, data):
    return old.ljust(at, b"\0")[:at] + data + old[at + len(data) :]


def read(path):
    with open(path, "rb") as file:
        return file.read()


# ---- what a power loss keeps


class All:
    text = "all"

    def keeps_name(self):
        return True

    def of_write(self, old, at, data):
        return put(old, at, data)


class Nothing:
    text = "nothing"

    def keeps_name(self):
        return False

    def of_write(self, old, _at, _data):
        return old


class Some:
    """Every other call or so; of a write at times its start, its end, or other bytes in its place."""

    text = "some"

    def __init__(self, dice):
        self.dice = dice

    def keeps_name(self):
        return self.dice.one_in(2)

    def of_write(self, old, at, data):
        way = self.dice.below(16)
        part = self.dice.below(len(data))
        if way < 7:
            return put(old, at, data)
        if way < 10:
            return put(old, at, data[:part])
        if way < 12:
            return put(old, at + part, data[part:])
        if way < 13:
            return put(old, at, bytes(self.dice.below(256) for _ in data))
        return old
