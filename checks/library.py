"""The calls of crates/lp_checks and crates/lp_c from a shared library, which `share_library` of library.sh makes."""

import ctypes
import mmap
import pathlib
import re

HEADER = pathlib.Path(__file__).with_name("lp_checks.h").read_text(encoding="utf-8")
KINDS = int(re.search(r"\bLP_KINDS = (\d+)", HEADER)[1])
# The ways of `items` and of `relay`, by their names in lp_checks.h.
WAYS, RELAYS = (
    {name.lower(): number for number, name in enumerate(re.findall(r"LP_(\w+)", found))} for found in re.findall(r"enum \{ (LP_\w+,.*) \};", HEADER))
# What `relay` tells, as a struct lp_told: of the reader and three outputs the bytes, the calls and the flushes, and then how it ended.
LINES_AT, FAULTS_AT, PIECES_AT, CARRIED, REFUSED, STATUS, TOLD = 3, 6, 9, 12, 13, 14, 15
TYPES = {"bool": ctypes.c_bool, "uint8_t": ctypes.c_uint8, "uint32_t": ctypes.c_uint32, "int64_t": ctypes.c_int64,
         "uint64_t": ctypes.c_uint64, "size_t": ctypes.c_size_t}
NO_LIMIT = 2**64 - 1
# The steps of `calls` that push nothing, as lp_checks.h names them.
NEXT, FINISH, NEXT_TEXT, FINISH_TEXT, ALL = (NO_LIMIT - step for step in range(5))


def room(size):
    """A buffer that takes memory only where it is written."""
    return (ctypes.c_char * size).from_buffer(mmap.mmap(-1, size, flags=mmap.MAP_PRIVATE | mmap.MAP_ANONYMOUS))


def numbers(values):
    """An array of `size_t`."""
    return (ctypes.c_size_t * len(values))(*values)


def sized(text):
    """The text that follows its length and a colon, and the rest after this text."""
    size, _, rest = text.partition(b":")
    return rest[:int(size)], rest[int(size):]


class Library:
    """The calls, with the buffers that they fill: `out`, `err` and `refused`, and the counts that a relay gives."""

    def __init__(self, path, size=1 << 27, entries=1 << 20):
        self.calls = ctypes.CDLL(path)
        self.out, self.err, self.refused = (room(size) for _ in range(3))
        self.ends = (ctypes.c_uint64 * entries)()
        self.told, self.place = (ctypes.c_uint64 * (TOLD + KINDS))(), ctypes.c_uint64()
        self.kinds = (ctypes.c_uint64 * KINDS).from_buffer(self.told, TOLD * 8)
        for answer, name, words in re.findall(r"^(\w+) ((?:lp_checks|rows)_\w+)\(([^)]*)\);", HEADER, re.MULTILINE):
            call = getattr(self.calls, name)
            call.restype = TYPES[answer]
            call.argtypes = [ctypes.c_void_p if re.search(r"[*[]", word) else TYPES[word.split()[0]] for word in words.split(",")]

    def call(self, name, *values):
        """The answer of a call, or of a way of `items`. A text, a buffer or an array is passed with its length, and a count by `ctypes.byref`
        without one."""
        words = [WAYS[name]] if name in WAYS else []
        for value in values:
            words += (value, len(value)) if isinstance(value, (bytes, ctypes.Array)) else (value,)
        return getattr(self.calls, name if name.startswith("rows_") else f"lp_checks_{'items' if name in WAYS else name}")(*words)

    def joined(self, name, *values):
        """All the entries that a call reports, as one text, and how many they are."""
        count = self.call(name, *values, self.out, self.ends)
        size = self.ends[count - 1] if 0 < count <= len(self.ends) else 0
        if count > len(self.ends) or size > len(self.out):
            raise MemoryError(f"{name}: the report has no room")
        return ctypes.string_at(self.out, size), count

    def reported(self, name, *values):
        """The entries that a call reports."""
        text, count = self.joined(name, *values)
        ends = self.ends[:count]
        return [text[start:end] for start, end in zip([0, *ends], ends)]

    def outputs(self):
        """The texts that a relay wrote to its three outputs."""
        return [ctypes.string_at(output, size) for output, size in zip((self.out, self.err, self.refused), self.told[LINES_AT:CARRIED:3])]

    def relay(self, letters, text, steps=(), way="relay", number=0, inputs=b""):
        """The answer of a relay, or of another way, whose reads give as many bytes as these steps say: `numbers` makes them."""
        ctypes.memset(self.told, 0, ctypes.sizeof(self.told))
        out, err, size, told = self.out, self.err, len(self.out), ctypes.addressof(self.told)
        return self.calls.lp_checks_relay(
            RELAYS[way], letters, len(letters), number, text, len(text), inputs, len(inputs), steps or out, len(steps), told,
            out, size, out, 0, told + 8 * LINES_AT, err, size, out, 0, told + 8 * FAULTS_AT, self.refused, size, told + 8 * PIECES_AT,
            told + 8 * CARRIED, told + 8 * TOLD)
