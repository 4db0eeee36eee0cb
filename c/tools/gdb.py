"""Printers of gdb for what a program has of the library: `print set` shows whether an nm::Set is
open, its keys, its nodes and its workers. There are printers for nm::Set, nm::Worker, nm::Pin,
nm::SetOf, nm::WorkerOf, nm::Map and nm::MapOf with their workers and guards, nm_pool * and nm_handle.

c/install puts this file beside the shared library, as libnm_set.so.VERSION-gdb.py. gdb loads it
from there if `add-auto-load-safe-path` names the folder. For the static library, `source` it.

A printer calls no function of the program, so it also works on a core file. It reads memory while
threads may be in calls: then a number of keys may miss those calls. Whether a worker is pinned is
known of an nm::Pin or a guard alone.
"""

import gdb
import gdb.printing
import gdb.types

# Where fields of the library's own structs are, and how many bytes they have. The library has no
# data for debuggers. c/tests/shown/fields.py compares these with its sources.
FIELDS = {
    "nm_pool": {"count": (12, 4), "grows": (20, 1), "nodes": (24, 8), "sizes": (40, 4),
                "phase": (72, 4), "opened": (76, 4), "seats": (512, 0)},
    "seat": {"use": (0, 4), "keys": (24, 8), "shared_keys": (32, 8)},
    "nm_map_counts": {"workers": (64, 4), "of": (192, 0)},
    "tally": {"keys": (0, 8)},
}
LINE = 64  # the bytes of a seat, and of a tally
PHASES = ("open", "resizing", "closing", "closing", "closed", "left to its workers")
CALL, LENT = 1, 2  # the use of a seat
MOST_WORKERS = 64
NONE = 2**32 - 2  # in place of the number of a worker


def read(address, struct, field):
    """Returns a number of a struct of the library."""
    offset, size = FIELDS[struct][field]
    memory = gdb.selected_inferior().read_memory(address + offset, size)
    return int.from_bytes(memory.tobytes(), "little")


def elements(address, struct, field, count):
    """Returns the addresses of the elements at the end of a struct."""
    first = address + FIELDS[struct][field][0]
    return range(first, first + LINE * count, LINE)


def keys_of(parts):
    """Returns the sum of counts of keys, some of which may be below 0."""
    keys = sum(parts) % 2**64
    return keys if keys < 2**63 else 0


def of_pool(address):
    """Returns the state of a pool, and its facts."""
    if address == 0:
        return "closed", []
    count, phase = read(address, "nm_pool", "count"), read(address, "nm_pool", "phase")
    opened = read(address, "nm_pool", "opened")
    if not 1 <= count <= MOST_WORKERS or phase >= len(PHASES) or opened > count:
        return "unmade", []
    seats = elements(address, "nm_pool", "seats", opened)
    uses = [read(seat, "seat", "use") for seat in seats]
    names = ("keys", "shared_keys")
    return PHASES[phase], [
        ("keys", keys_of(read(seat, "seat", name) for seat in seats for name in names)),
        ("nodes", read(address, "nm_pool", "nodes")),
        ("grows", bool(read(address, "nm_pool", "grows"))),
        ("resized", read(address, "nm_pool", "sizes")),
        ("workers", count),
        ("attached", uses.count(LENT)),
        ("calls", uses.count(CALL)),
    ]


def of_set(value):
    return of_pool(int(value["place_"]["pool"]))


def of_worker(value):
    pool, number = int(value["place_"]["pool"]), int(value["place_"]["worker"])
    if pool == 0 or number == NONE:
        return "closed", []
    if of_pool(pool)[0] == "unmade" or number >= read(pool, "nm_pool", "count"):
        return "unmade", []
    return "open", [("number", number)]


def plain_name(kind):
    """Returns the name of a type without the types in angle brackets."""
    return str(gdb.types.get_basic_type(kind).name).split("<")[0]


def of_values(value):
    """A set, a map or their like of typed keys: as what it is made of."""
    made_of = value["of_"]
    return PRINTED[plain_name(made_of.type)](made_of)


def of_pin(value):
    """A pin of the epoch by a worker, or the guard of a map."""
    if int(value["worker_"]) == 0:
        return "ended", []
    worker = value["worker_"].dereference()
    is_of_map = gdb.types.has_field(worker.type, "number_")
    number = worker["number_"] if is_of_map else worker["place_"]["worker"]
    return "open", [("worker", int(number)), ("epoch", int(value["epoch_"]))]


def place_of(value):
    """Returns the pointer of a std::shared_ptr, by the name that a standard library gives it."""
    for name in ("_M_ptr", "__ptr_"):
        try:
            return value["place_"][name]
        except gdb.error:
            continue
    raise gdb.MemoryError("another standard library")


def of_map(value):
    if int(place_of(value)) == 0:
        return "closed", []
    place = place_of(value).dereference()
    counts, workers = int(place["counts_"]), int(place["workers_"])
    if counts == 0 or read(counts, "nm_map_counts", "workers") != workers:
        return "unmade", []
    tallies = elements(counts, "nm_map_counts", "of", workers)
    return "open", [
        ("keys", keys_of(read(tally, "tally", "keys") for tally in tallies)),
        ("nodes", int(place["nodes_"])),
        ("workers", workers),
    ]


def of_map_worker(value):
    if int(place_of(value)) == 0:
        return "closed", []
    return "open", [("number", int(value["number_"]))]


def of_handle(value):
    if int(value["in_use"]) != 0:
        return "used", []
    return "open" if int(value["at"]) != 0 else "closed", []


PRINTED = {
    "nm::Set": of_set,
    "nm::Worker": of_worker,
    "nm::SetOf": of_values,
    "nm::WorkerOf": of_values,
    "nm::Pin": of_pin,
    "nm::Map": of_map,
    "nm::MapWorker": of_map_worker,
    "nm::MapGuard": of_pin,
    "nm::MapOf": of_values,
    "nm::MapWorkerOf": of_values,
    "nm::MapGuardOf": of_values,
    "nm_handle": of_handle,
}


class Printer:
    """Shows what a function returns for a value: its state, and its facts."""

    def __init__(self, name, seen, value):
        self.name = name
        try:
            self.state, self.facts = seen(value)
        except gdb.MemoryError:
            self.state, self.facts = "unreadable", []

    def to_string(self):
        return f"{self.state} {self.name}"

    def children(self):
        return iter(self.facts)


def nm_set(value):
    """Returns the printer of a value, or None."""
    kind = gdb.types.get_basic_type(value.type)
    if kind.code == gdb.TYPE_CODE_PTR:
        is_pool = kind.target().strip_typedefs().name == "nm_pool"
        return Printer("nm_pool", lambda it: of_pool(int(it)), value) if is_pool else None
    seen = PRINTED.get(plain_name(kind))
    return Printer(str(kind.name), seen, value) if seen is not None else None


gdb.printing.register_pretty_printer(gdb.current_objfile(), nm_set, replace=True)
