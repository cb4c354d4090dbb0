"""The shared library through ctypes, as far as numbers, limits and sheets need it."""
import ctypes as c

from helper import SHARED


class Sizes(c.Structure):
    _fields_ = [(name, c.c_uint32) for name in ("jobs", "arcs", "bits", "workers")]


class Need(c.Structure):
    _fields_ = [("number", c.c_uint32)]
    _fields_ += [(name, c.c_size_t) for name in ("jobs", "arcs", "buckets", "queue", "workers")]


class Entry(c.Structure):
    _fields_ = [(name, c.c_uint32) for name in ("name", "count", "class_", "grower")] + [("names", c.c_uint32 * 32)]


class Sheet(c.Structure):
    _fields_ = [("number", c.c_uint32), ("entries", c.c_size_t), ("at", c.c_size_t)]


class Room(c.Structure):
    _fields_ = [(name, c.c_uint32) for name in ("number", "entry", "place", "jobs", "arcs", "steps")]
    _fields_ += [("at", c.c_size_t)]


class Written(c.Structure):
    _fields_ = [("number", c.c_uint32), ("at", c.c_size_t)]


def load():
    library, size, word = c.CDLL(str(SHARED)), c.c_size_t, c.c_uint32
    for name, answer, *arguments in [
        ("tg_message", c.c_char_p, word), ("tg_version", c.c_char_p),
        ("tg_minutes", word, word), ("tg_bucket", word, word, word),
        ("tg_words_needed", Need, Sizes),
        ("tg_scan_sheet", Sheet, c.c_char_p, size),
        ("tg_read_sheet", Sheet, c.c_char_p, size, c.c_void_p, size),
        ("tg_room_of_sheet", Room, c.c_char_p, size),
        ("tg_write_entry", Written, c.c_char_p, size, size, Entry),
        ("tg_day_list", Written, c.c_char_p, size, word, c.c_char_p, size),
    ]:
        function = getattr(library, name)
        function.restype, function.argtypes = answer, arguments
    return library


def words_needed(library, *sizes):
    need = library.tg_words_needed(Sizes(*sizes))
    return sum(getattr(need, name) for name, _ in Need._fields_[1:])


def shortest_entry(library):
    return library.tg_write_entry(c.create_string_buffer(9), 9, 0, Entry()).at


def longest_run(library):
    """The steps of a full run of a sheet that takes all 4,096 jobs and 32,768 arcs of the greatest graph."""
    names = [name.to_bytes(4, "little") for name in range(4096)]
    listed = bytes([32]) + b"".join(names[:32])
    sheet = b"".join(b"\1" + name for name in names[:3072]) + b"".join(b"\3" + name + listed for name in names[3072:])
    room = library.tg_room_of_sheet(sheet, len(sheet))
    assert (room.number, room.jobs, room.arcs) == (0, 4096, 32768)
    return room.steps


def shortest_day_list(library):
    """The line for a sheet whose first byte is wrong."""
    return library.tg_day_list(bytes(1), 1, 2, c.create_string_buffer(99), 99).at
