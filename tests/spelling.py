"""Superblocks, base files and delta files as bytes, spelled by docs/FORMATS.md."""
import math
import struct

KINDS = {"bool": 1, "int8": 2, "int16": 3, "int32": 4, "int64": 5, "string": 6, "binary": 7}
KEY, NULLABLE, DEFAULT = 1, 2, 4
REDO, UNDO = 1, 2


def number(it):
    """A cell that is a number."""
    return struct.pack("<Bq", 2, it)


def cells(*of):
    """A cell list: of ids and cells."""
    return struct.pack("<H", len(of)) + b"".join(struct.pack("<H", id) + cell for id, cell in of)


def column(id, name, kind, flags=0, default=b""):
    return struct.pack("<HB", id, len(name)) + name.encode() + bytes([KINDS[kind], flags]) + default


# ---- superblocks


def rowset(of, last_dms, base, undo=(), redo=()):
    """A rowset of a superblock: of files as (number, length)."""
    files = lambda some: struct.pack("<I", len(some)) + b"".join(struct.pack("<QQ", *it) for it in some)
    return struct.pack("<QQQQ", of, last_dms, *base) + files(undo) + files(redo)


def body(of, columns, rowsets=(), mark=0, last=0, need=0, last_mem=0, next_rowset=1, next_file=3):
    """The body of superblock number `of`."""
    numbers = struct.pack("<H7Q", 1, of, mark, last, need, last_mem, next_rowset, next_file)
    columns = struct.pack("<HH", len(columns) + 1, len(columns)) + b"".join(columns)
    return numbers + columns + struct.pack("<I", len(rowsets)) + b"".join(rowsets)


def slot(body):
    """A slot that is open."""
    return b"\1" + struct.pack("<I", len(body)) + body


# ---- base files


def prefixed(texts):
    """A prefix block."""
    out, before = b"", b""
    for at, text in enumerate(texts):
        shared = 0
        while at % 16 and shared < min(len(before), len(text)) and before[shared] == text[shared]:
            shared += 1
        out += struct.pack("<II", shared, len(text) - shared) + text[shared:]
        before = text
    return b"\4" + struct.pack("<I", len(out)) + out


def of_numbers(values):
    """A block of int64 cells, none of them null: plain, or run-length where that is shorter."""
    plain = struct.pack(f"<{len(values)}q", *values)
    runs = []
    for it in values:
        if runs and runs[-1][1] == it:
            runs[-1][0] += 1
        else:
            runs.append([1, it])
    coded = b"".join(struct.pack("<Iq", *it) for it in runs)
    kind, shorter = (1, plain) if len(plain) <= len(coded) else (2, coded)
    return bytes([kind]) + struct.pack("<I", len(shorter)) + shorter


def hash_of(key):
    value = 0xCBF29CE484222325
    for it in key:
        value = (value ^ it) * 0x100000001B3 % 2**64
    return value


def filter_of(keys):
    size = 8 * math.ceil(10 * len(keys) / 8)
    bits = bytearray(size // 8)
    for key in keys:
        first, step = hash_of(key) % 2**32, hash_of(key) >> 32 | 1
        for i in range(6):
            at = (first + i * step) % size
            bits[at // 8] |= 1 << at % 8
    return struct.pack("<I", len(bits)) + bytes(bits)


def column_of_keys(keys):
    """The blocks of encoded keys."""
    return b"".join(prefixed(keys[at : at + 8192]) for at in range(0, len(keys), 8192))


def base_of(keys, *columns):
    """A base file: of encoded keys, and of columns as (id, kind, whether it may be null, its blocks)."""
    spelled = b"".join(struct.pack("<HBB", id, KINDS[kind], nullable) + blocks for id, kind, nullable, blocks in columns)
    index = b"".join(struct.pack("<H", len(it)) + it for it in keys[::16])
    front = b"KTB1" + struct.pack("<I", len(keys)) + column_of_keys(keys) + struct.pack("<H", len(columns))
    return front + spelled + filter_of(keys) + index


def column_of_numbers(values):
    """The blocks of int64 cells."""
    return b"".join(of_numbers(values[at : at + 8192]) for at in range(0, len(values), 8192))


def base_file(keys, *columns):
    """A base file: of encoded keys, and of columns as (id, values) of kind int64 that take no null."""
    return base_of(keys, *((id, "int64", 0, column_of_numbers(values)) for id, values in columns))


# ---- delta files


def update(*of):
    return b"\2" + cells(*of)


DELETE = b"\3"


def delta_file(way, *records):
    """A delta file: of records as (ordinal, timestamp, change)."""
    spelled = b"".join(struct.pack("<IQ", ordinal, at) + change for ordinal, at, change in records)
    return b"KTD1" + bytes([way]) + struct.pack("<I", len(records)) + spelled
