"""What an application answers, computed without a disk.

An application is installed, updated, rolled back and wiped, and stores keys and files. Here it is a value: a command
gives a reply and a new application. Of copies it knows only how many were damaged, and how many can be.
"""
import json
from dataclasses import dataclass, replace
from typing import NamedTuple, Optional

NEWEST = 4
KEYS = ("free", "grown", "later", "noted")
FILES = ("log", "map")
NAMES = {"files": FILES, "keys": KEYS}
STORAGES = tuple(NAMES)
ROOT_COPIES = 3
PIECE = 200


class Refused(Exception):
    """A command that is refused; it carries the reply."""


# ---- what keys and files hold


class Value(NamedTuple):
    kind: str
    number: int

    def text(self):
        if self.kind == "text":
            return f'text:"{self.digits()}"'
        return f"{self.kind}:{self.number}"

    def digits(self):
        """Returns the content of a text: its number, repeated so that some take several blocks."""
        return str(self.number) * self.number

    def encoded_length(self):
        if self.kind == "text":
            return 1 + 4 + len(self.digits())
        return 1 + int(self.kind[1:]) // 8


def kind_of(key, version):
    """Returns the type that a key has in a version, or will have where it is not configured yet."""
    if key == "grown":
        return {1: "u8", 2: "u16"}.get(version, "u32")
    return {"noted": "text", "later": "u16", "free": "u32"}[key]


def initial_value(key, version):
    """Returns what a version installs under a key; None where it does not configure it."""
    if key in ("grown", "noted"):
        return Value(kind_of(key, version), 7)
    if key == "later" and version >= 2:
        return Value(kind_of(key, version), 9)
    return None


def initial_content(file, version):
    return bytes([version]) * (2 * PIECE) if file == "map" else None


def initial(storage, version):
    """Returns what a version installs in a storage: its elements, in the order of their names."""
    first = {"files": initial_content, "keys": initial_value}[storage]
    return tuple(first(name, version) for name in NAMES[storage])


def updated(storage, elements, version):
    """Returns what an update leaves in a storage: what is there stays, in the version's types; the rest is new."""

    def carried(name, old, new):
        if old is None:
            return new
        return Value(kind_of(name, version), old.number) if storage == "keys" else old

    return tuple(map(carried, NAMES[storage], elements, initial(storage, version)))


# ---- versions


class Redundancy(NamedTuple):
    needed: int
    copies: int
    scope: str

    def bears(self, damaged):
        return damaged <= self.copies - self.needed


def redundancy(storage, version):
    if (storage, version) in (("keys", 1), ("files", 2)):
        return Redundancy(1, 1, "element")
    if (storage, version) in (("keys", 3), ("files", 4)):
        return Redundancy(2, 3, "storage")
    return Redundancy(2, 3, "element")


def manifest(version):
    """Returns the manifest of a version."""

    def described(storage, elements, members):
        needed, copies, scope = redundancy(storage, version)
        return {"name": storage, "redundancy": {"m": needed, "n": copies, "scope": scope}, members: elements}

    values = [(key, initial_value(key, version)) for key in KEYS]
    pairs = [{"name": key, "type": it.kind, "initial": it.text()} for key, it in values if it]
    contents = [(file, initial_content(file, version)) for file in FILES]
    files = [{"name": file, "initial": it.hex()} for file, it in contents if it]
    whole = {
        "version": version,
        "keyValueStorages": [described("keys", pairs, "keyValuePairs")],
        "fileStorages": [described("files", files, "files")],
    }
    return json.dumps(whole, separators=(",", ":"))


@dataclass(frozen=True)
class Version:
    """What is stored of a version, and of how many copies of each storage files were damaged since it was mended."""

    number: int
    bank: int
    keys: tuple
    files: tuple
    damaged_keys: int = 0
    damaged_files: int = 0

    def stored(self, storage):
        return getattr(self, storage)

    def storing(self, storage, elements):
        return replace(self, **{storage: elements})

    def damaged(self, storage):
        return getattr(self, f"damaged_{storage}")

    def with_damaged(self, storage, copies):
        return replace(self, **{f"damaged_{storage}": copies})

    def bears(self, storage):
        return redundancy(storage, self.number).bears(self.damaged(storage))

    def mended(self, storage):
        return self.with_damaged(storage, 0) if self.bears(storage) else self

    def is_lost(self):
        return not all(self.bears(storage) for storage in STORAGES)


def installed(number):
    return Version(number, 0, initial("keys", number), initial("files", number))


def updated_version(active, number):
    keys = updated("keys", active.keys, number)
    return Version(number, 1 - active.bank, keys, updated("files", active.files, number))


# ---- applications


class Draft(NamedTuple):
    """An update in steps."""

    number: int
    built: int


BESIDE_A_DRAFT = ("status", "install", "update-next", "update-commit", "update-abort")


@dataclass(frozen=True)
class Application:
    active: Optional[Version] = None
    previous: Optional[Version] = None
    draft: Optional[Draft] = None
    # The elements as the calls see them, where the storage is open.
    keys: Optional[tuple] = None
    files: Optional[tuple] = None
    # The file that a handle writes.
    handle: Optional[str] = None
    damaged_root: int = 0

    def started(self):
        """Returns what a start leaves: the root is mended where it can be."""
        return self if self.is_root_lost() else replace(self, damaged_root=0)

    def closed(self):
        """Returns what the end of a run leaves."""
        return replace(self, draft=None, keys=None, files=None, handle=None)

    def is_root_lost(self):
        return self.damaged_root > ROOT_COPIES - 2

    def is_lost(self):
        """Whether more copies may be damaged than can be done without."""
        versions = [it for it in (self.active, self.previous) if it]
        return self.is_root_lost() or any(it.is_lost() for it in versions)

    def answer(self, command):
        """Returns the reply to a command and the application after it."""
        word, *arguments = command
        try:
            if self.draft and word not in BESIDE_A_DRAFT:
                raise Refused(f"error 9 ResourceBusy update {self.draft.number}")
            return CALLS[word](self, *arguments)
        except Refused as refusal:
            return str(refusal), self

    # -- what commands take for granted

    def installed_version(self):
        if not self.active:
            raise Refused("error 20 NotInstalled")
        return self.active

    def unless_open(self, *storages):
        for storage in storages:
            if getattr(self, storage) is not None:
                raise Refused(f"error 9 ResourceBusy storage {storage}")

    def opened(self, storage):
        """Returns the elements of an open storage."""
        self.installed_version()
        elements = getattr(self, storage)
        if elements is None:
            raise Refused("error 24 NotOpen")
        return elements

    def element(self, storage, name):
        """Returns what an open storage has under a name, or None."""
        return self.opened(storage)[NAMES[storage].index(name)]

    def found(self, storage, name):
        element = self.element(storage, name)
        if element is None:
            raise Refused("error 2 KeyNotFound" if storage == "keys" else "error 11 FileNotFound")
        return element

    def unless_held(self, name):
        if self.handle == name:
            raise Refused("error 9 ResourceBusy handle 1")

    # -- what commands leave

    def showing(self, storage, elements):
        return replace(self, **{storage: elements})

    def with_element(self, storage, name, element):
        at = NAMES[storage].index(name)
        elements = self.opened(storage)
        return self.showing(storage, elements[:at] + (element,) + elements[at + 1 :])

    def durable(self, storage):
        """Returns the application once what the calls see of a storage is stored."""
        return replace(self, active=self.active.storing(storage, self.opened(storage)))


# ---- deployment


def status(app):
    if not app.active:
        return "status absent", app
    before = f" previous {app.previous.number}" if app.previous else ""
    return f"status version {app.active.number}{before}", app


def install(app, number):
    if app.active:
        raise Refused("error 21 AlreadyInstalled")
    return "ok", replace(app, active=installed(number))


def unless_not_updatable(app, number):
    active = app.installed_version()
    if app.previous:
        raise Refused(f"error 27 UpdateNotFinished {app.previous.number}")
    app.unless_open("files", "keys")
    if number <= active.number:
        raise Refused(f"error 28 VersionNotNewer {active.number} {number}")


def next_version(app, number):
    return replace(app, active=updated_version(app.active, number), previous=app.active, draft=None)


def update(app, number):
    unless_not_updatable(app, number)
    return "ok", next_version(app, number)


def begin(app, number):
    unless_not_updatable(app, number)
    return "ok", replace(app, draft=Draft(number, 0))


def draft_of(app):
    app.installed_version()
    if not app.draft:
        raise Refused("error 30 NoUpdateInProgress")
    return app.draft


def build_next(app):
    number, built = draft_of(app)
    built = min(built + 1, len(STORAGES))
    return f"number {len(STORAGES) - built}", replace(app, draft=Draft(number, built))


def commit(app):
    return "ok", next_version(app, draft_of(app).number)


def abort(app):
    draft_of(app)
    return "ok", replace(app, draft=None)


def previous_of(app):
    app.installed_version()
    if not app.previous:
        raise Refused("error 23 NoPreviousVersion")
    return app.previous


def finish(app):
    previous_of(app)
    return "ok", replace(app, previous=None)


def roll_back(app):
    before = previous_of(app)
    app.unless_open("files", "keys")
    return "ok", replace(app, active=before, previous=None)


def wipe(app):
    app.unless_open("files", "keys")
    return "ok", Application()


# ---- storages


def open_storage(app, storage):
    version = app.installed_version()
    app.unless_open(storage)
    return "ok", replace(app, active=version.mended(storage)).showing(storage, version.stored(storage))


def close(app, storage):
    """Closes a storage. What is pending of keys is dropped, and files are made durable."""
    app.opened(storage)
    if storage == "files":
        if app.handle:
            raise Refused("error 9 ResourceBusy handle 1")
        app = app.durable(storage)
    return "ok", app.showing(storage, None)


def size(app, storage):
    def length(name, element):
        return 0 if element is None else len(name) + (len(element) if storage == "files" else element.encoded_length())

    return f"number {sum(map(length, NAMES[storage], app.opened(storage)))}", app


def names(app, storage):
    there = [name for name, it in zip(NAMES[storage], app.opened(storage)) if it is not None]
    return " ".join(["names", *there]), app


def recover_storage(app, storage):
    version = app.installed_version()
    app.unless_open(storage)
    return "ok", replace(app, active=version.with_damaged(storage, 0))


def reset_storage(app, storage):
    version = app.installed_version()
    app.unless_open(storage)
    version = version.storing(storage, initial(storage, version.number))
    return "ok", replace(app, active=version.with_damaged(storage, 0))


# ---- elements of an open storage, by name


def exists(app, storage, name):
    return "no" if app.element(storage, name) is None else "yes", app


def remove(app, storage, name):
    app.found(storage, name)
    app.unless_held(name)
    return "ok", app.with_element(storage, name, None)


def recover(app, storage, name):
    """Recovers an element; one that can be read stays."""
    app.found(storage, name)
    app.unless_held(name)
    return "ok", app


def reset(app, storage, name):
    app.opened(storage)
    first = initial(storage, app.active.number)[NAMES[storage].index(name)]
    if first is None:
        raise Refused("error 8 InitValueNotAvailable")
    app.unless_held(name)
    return "ok", app.with_element(storage, name, first)


# ---- keys


def get(app, storage, key):
    return f"value {app.found(storage, key).text()}", app


def set_key(app, storage, key, value):
    """Sets a value of the key's type: the configured one, or that of what is there."""
    stored = app.element(storage, key)
    typed = initial_value(key, app.active.number) or stored
    if typed and typed.kind != value.kind:
        raise Refused(f"error 7 DataTypeMismatch {typed.kind} {value.kind}")
    return "ok", app.with_element(storage, key, value)


def remove_all(app, storage):
    app.opened(storage)
    return "ok", app.showing(storage, (None,) * len(NAMES[storage]))


def sync(app, storage):
    app.opened(storage)
    return "ok", app.durable(storage)


def discard(app, storage):
    app.opened(storage)
    return "ok", app.showing(storage, app.active.stored(storage))


# ---- files. There is one handle at a time, and it writes from the beginning of its file.


def cat(app, storage, file):
    content = app.found(storage, file)
    app.unless_held(file)
    return f"bytes {content.hex()}".rstrip(), app


def put(app, storage, file, content):
    app.opened(storage)
    app.unless_held(file)
    return "ok", app.with_element(storage, file, content)


def open_file(app, storage, file, *_mode):
    content = app.element(storage, file) or b""
    return "handle 1", replace(app.with_element(storage, file, content), handle=file)


def handle_of(app, storage):
    app.opened(storage)
    if not app.handle:
        raise Refused("error 24 NotOpen")
    return app.handle


def write(app, storage, _handle, content):
    file = handle_of(app, storage)
    return "ok", app.with_element(storage, file, content + app.found(storage, file)[len(content) :])


def flush(app, storage, _handle):
    handle_of(app, storage)
    return "ok", app.durable(storage)


def close_file(app, storage, _handle):
    handle_of(app, storage)
    return "ok", replace(app, handle=None)


CALLS = {
    "status": status,
    "install": install,
    "update": update,
    "update-begin": begin,
    "update-next": build_next,
    "update-commit": commit,
    "update-abort": abort,
    "finish": finish,
    "rollback": roll_back,
    "wipe": wipe,
    "open-kvs": open_storage,
    "open-files": open_storage,
    "close": close,
    "size": size,
    "keys": names,
    "files": names,
    "recover-storage": recover_storage,
    "reset-storage": reset_storage,
    "exists": exists,
    "file-exists": exists,
    "remove": remove,
    "delete": remove,
    "recover-key": recover,
    "recover-file": recover,
    "reset-key": reset,
    "reset-file": reset,
    "get": get,
    "set": set_key,
    "remove-all": remove_all,
    "sync": sync,
    "discard": discard,
    "cat": cat,
    "put": put,
    "open-file": open_file,
    "write": write,
    "flush": flush,
    "close-file": close_file,
}
