"""Worked bytes of slots, base files and delta files: what is written, what is read, and the place of the first fault of bytes that are neither."""
import os
import struct

import spelling as spelled
from room import Wrong
from spelling import KEY, NULLABLE, REDO, UNDO
from stores import FOLDERS, held, lay


class Table:
    """The columns of a table, each as a name, a kind and flags: the head of its scripts, and what its superblock says of them."""

    def __init__(self, *columns):
        words = {0: "", KEY: " key", NULLABLE: " nullable"}
        self.head = "table\n" + "".join(f"column {name} {kind}{words[flags]}\n" for name, kind, flags in columns) + "session\n"
        self.columns = [spelled.column(at, name, kind, flags) for at, (name, kind, flags) in enumerate(columns, 1)]

    def run(self, room, lines=(), before=()):
        script = self.head + "".join(f"{it}\n" for it in lines)
        return room.run([*FOLDERS, "--pool", "65536"], script.encode("latin-1"), before)

    def lay_slots(self, room, *slots):
        """Lays slots of a superblock, without any other file."""
        lay(room, [], {}, dict(enumerate(slots, 1)))

    def lay(self, room, base, undo=None, redo=None):
        """Lays a tablet of one rowset: its base file, its UNDO file and its REDO file."""
        files = {at: it for at, it in ((3, base), (4, undo), (5, redo)) if it is not None}
        named = [[(at, len(files[at]))] if at in files else [] for at in (4, 5)]
        rowset = spelled.rowset(0, 0, (3, len(base)), *named)
        lay(room, [], files, {1: spelled.slot(spelled.body(1, self.columns, [rowset], last=1 << 40, next_file=6))})

    def is_refused(self, room, why, what):
        """An opening is refused so."""
        ended = self.run(room, before=["prlimit", "--as=1000000000"])
        if ended != (3, f"refused {why}\n"):
            raise Wrong(f"{ended} and not {why}: {what}")

    def shows(self, room, lines, wanted):
        """Scans print these rows, each scan as a list of its lines."""
        status, output = self.run(room, lines)
        rows = []
        for line in output.split("history\n")[0].splitlines()[1:]:
            if line.startswith("rows "):
                rows.append([])
            else:
                rows[-1].append(line)
        if status or rows != wanted:
            raise Wrong(f"status {status}: {str(rows)[:2000]} and not {str(wanted)[:2000]}")


def empties(room):
    """Leaves both folders as they are at first."""
    lay(room, [], {}, {})
    os.remove(room.path("LOG/f1"))


def writes(table, room, wanted, lines):
    """Writes and a flush make this base file in empty folders."""
    empties(room)
    status, output = table.run(room, [*lines, "flush"])
    found = held(room, "DATA").get("f3")
    if status or found != wanted:
        raise Wrong(f"status {status}, {found and found[:2000].hex()} and not {wanted[:2000].hex()}\n{output[:2000]}")


# ---- slots

IDS = Table(("id", "int64", KEY))

# The first superblock of this table: the gate and the length, the format and the number, the mark and the last timestamp, the records and
# the MemRowSet, the next numbers, the column, and no rowset.
FIRST = bytes.fromhex(
    "01 49000000 0100 0100000000000000 0000000000000000 0000000000000000 0000000000000000 0000000000000000"
    "0100000000000000 0300000000000000 0200 0100 0100 02 6964 05 01 00000000"
)

# The same with two rowsets and three files, where three rowsets and three files have numbers.
ROWSETS = bytes.fromhex(
    "01 a9000000 0100 0100000000000000 0000000000000000 0000000000000000 0000000000000000 0000000000000000"
    "0300000000000000 0600000000000000 0200 0100 0100 02 6964 05 01 02000000"
    # The first rowset with its base file, and no UNDO file and no REDO file.
    "0000000000000000 0000000000000000 0300000000000000 0900000000000000 00000000 00000000"
    # The second one with its base file and an UNDO file.
    "0100000000000000 0000000000000000 0400000000000000 0900000000000000 01000000 0500000000000000 0900000000000000 00000000"
)

# A second column of the name of no byte, which the first has taken.
NAMELESS = b"\1" + struct.pack("<I", 76) + FIRST[5:65] + bytes([2, 0, 0, 0, 0, 5, 1, 1, 0, 0, 5, 0, 0, 0, 0, 0])

# A byte that is put at a place of the first superblock, and the place of the fault.
SLOT_FAULTS = [
    (1, 74, 78),  # a length that the bytes do not reach
    (1, 72, 1),  # a length that cuts the body short
    (5, 9, 5),  # another format
    (7, 2, 7),  # a number of the other slot
    (14, 64, 7),  # a number that is too large
    (55, 2, 55),  # a next file among the slots
    (63, 0, 63),  # no id for a column
    (63, 1, 67),  # a next column that is used
    (65, 0, 65),  # no column
    (65, 2, 77),  # a second column, without a kind
    (65, 3, 65),  # a column more than there are ids
    (72, 1, 72),  # a first column of truth values
    (72, 8, 72),  # another kind
    (73, 3, 73),  # a key that takes null
    (74, 1, 74),  # a rowset without a number for its base file
]

# The same of the one with rowsets.
ROWSET_FAULTS = [
    (47, 1, 74),  # a rowset more than have numbers
    (55, 4, 74),  # a rowset more than base files have numbers
    (55, 5, 150),  # an UNDO file more than have numbers
    (74, 4, 74),  # two rowsets more, of which one has no number
    (74, 3, 150),  # a rowset more, and an UNDO file in place of its base file
    (78, 2, 78),  # a number that leaves none for the rowset behind
    (110, 2, 110),  # an UNDO file in place of a base file that is to come
    (114, 2, 114),  # the same of a REDO file
    (118, 0, 118),  # a rowset that does not rise
    (118, 3, 118),  # a rowset that is not below the next one
    (134, 3, 134),  # a file that is taken
    (150, 2, 150),  # an UNDO file more than have numbers
    (154, 4, 154),  # an UNDO file that is taken
    (170, 1, 170),  # a REDO file more than have numbers
]


def named(more):
    """The first superblock with 256 columns of the names of one byte, and behind them these bytes of one more."""
    columns = b"".join(bytes([id, 0, 1, id, 5, id == 0]) for id in range(256))
    return spelled.slot(FIRST[5:63] + bytes([2, 1, 1, 1]) + columns + more + bytes(4))


def slot_faults():
    """Bytes of slot 1, and the place of their first fault."""
    yield b"\1\1", 2
    yield FIRST[:77], 77
    yield NAMELESS, 74
    yield named(bytes([0, 1, 1, 7, 5, 0])), 1605
    for slot, faults in ((FIRST, SLOT_FAULTS), (ROWSETS, ROWSET_FAULTS)):
        yield from ((slot[:at] + bytes([byte]) + slot[at + 1 :], place) for at, byte, place in faults)


def slots_tell_the_place_of_their_fault(room):
    for slot, place in slot_faults():
        IDS.lay_slots(room, slot)
        IDS.is_refused(room, f"B1 1 {place}", slot[:200].hex())


def slots_are_read_and_written(room):
    """A new table has the worked superblock, which is read again; one that is closed or has no byte behind its gate is none."""
    if FIRST != spelled.slot(spelled.body(1, IDS.columns)):
        raise Wrong("tests/spelling.py has other bytes")
    for slots in ((), (b"",), (b"\1",), (b"\0\1\1",), (FIRST,)):
        empties(room)
        if slots:
            IDS.lay_slots(room, *slots)
        status, output = IDS.run(room, ["scan at 72340172838076673", "mark 72340172838076673"])
        later = spelled.slot(spelled.body(2, IDS.columns, mark=0x0101010101010101, last=0x0101010101010101))
        if status or held(room, "DATA") != {"f1": FIRST, "f2": later}:
            raise Wrong(f"over {slots} status {status}, {held(room, 'DATA')}\n{output}")
    # Files that are not there, and columns of which the first is another one: the slot itself is not at fault.
    IDS.lay_slots(room, ROWSETS)
    IDS.is_refused(room, "B2 3 0", "rowsets without their files")
    IDS.lay_slots(room, named(bytes([0, 1, 0, 5, 0])))
    IDS.is_refused(room, "B5 1", "257 columns")


# ---- base files

# The keys a and b, and one column, of 5 and null.
TWO = bytes.fromhex(
    "4b544231 02000000 0412000000 000000000100000061 000000000100000062 0100 02000201 0102000000 0205 03000000 54a12a 010061"
)
PAIRS = Table(("k", "string", KEY), ("n", "int8", NULLABLE))

# The filter of the keys of one even byte each, below 96, and the file of these without a column.
FILTER = bytes.fromhex(
    "a68026871c7b00bf6d120cf977a4d152c459fa944138274df144c990065d522e81842b841aa09418700e316449da04619c56f3112e63926908c9ac30"
)
EVEN = [bytes([it]) for it in range(0, 96, 2)]
WIDE = (
    b"KTB1\x30\0\0\0\x04\xb0\x01\0\0" + b"".join(b"\0\0\0\0\1\0\0\0" + it for it in EVEN)
    + b"\0\0\x3c\0\0\0" + FILTER + b"\x01\0\0\x01\0\x20\x01\0\x40"
)
KEYS = Table(("k", "string", KEY))

# A byte that is put at a place, and the place of the fault.
BASE_FAULTS = [
    # The letters, the number of rows, the keys' encoding, and a key that falls, at its cell.
    (3, 0x32, 0),
    (4, 0, 4),
    (8, 1, 8),
    (30, 0x60, 22),
    # A kind, whether the column may be null, and a second column where the filter stands.
    (35, 8, 35),
    (36, 2, 36),
    (31, 2, 46),
    # The filter's length and bytes, and the length and the byte of the index's key.
    (44, 4, 44),
    (48, 0x55, 48),
    (51, 2, 51),
    (53, 0x62, 53),
]


def literal(key):
    spelled_bytes = (f"\\x{it:02x}" if it < 32 or it == 127 else f"\\{chr(it)}" if it in (34, 92) else chr(it) for it in key)
    return '"' + "".join(spelled_bytes) + '"'


def worked_base_files_are_written_and_read(room):
    """Two rows make the worked bytes, and these show the rows again; and so do the keys of three entries of an index."""
    if TWO != spelled.base_of([b"a", b"b"], (2, "int8", 1, b"\1\2\0\0\0\2\5")) or WIDE != spelled.base_of(EVEN):
        raise Wrong("tests/spelling.py has other bytes")
    writes(PAIRS, room, TWO, ['insert "a" 5 ; insert "b" null'])
    PAIRS.shows(room, ["scan now"], [['"a" 5', '"b" null']])
    PAIRS.lay(room, TWO)
    PAIRS.shows(room, ["scan now"], [['"a" 5', '"b" null']])
    writes(KEYS, room, WIDE, [" ; ".join(f"insert {literal(it)}" for it in EVEN)])
    KEYS.lay(room, WIDE)
    KEYS.shows(room, ["scan now"], [[literal(it) for it in EVEN]])


def keys_are_found_where_they_stand(room):
    """Each key of a base file is there, and none beside it."""
    KEYS.lay(room, WIDE)
    beside = [b"", *(bytes([it[0] + 1]) for it in EVEN), *(it + b"\0" for it in EVEN)]
    lines = [" ; ".join(f"delete {literal(it)}" for it in some) for some in (EVEN, beside[:49], beside[49:])]
    status, output = KEYS.run(room, lines)
    words = [line.split(" ")[2:] for line in output.splitlines() if line.startswith("at ")]
    if status or words != [["ok"] * 48, ["absent"] * 49, ["absent"] * 48]:
        raise Wrong(f"status {status}\n{output}")


def keys_have_their_worked_bytes(room):
    """Numbers are spelled with their sign bit turned, and a text that is not the last column with an escape and an end."""
    wanted = [
        (("int64",), ["1"], ["8000000000000001"]),
        (("int16",), ["-1"], ["7fff"]),
        (("string", "int8"), ['"a\\x00" -128', '"a" 127'], ["610000ff", "610001000000"]),
    ]
    for kinds, keys, spelled_keys in wanted:
        table = Table(*((f"k{at}", kind, KEY) for at, kind in enumerate(kinds)))
        base = spelled.base_of([bytes.fromhex(it) for it in spelled_keys])
        writes(table, room, base, [" ; ".join(f"insert {it}" for it in keys)])


def many_keys(rows):
    """The front of a file of so many rows, with a block of 8,192 keys."""
    return b"KTB1" + struct.pack("<I", rows) + spelled.prefixed([struct.pack(">H", it) for it in range(8192)])


def base_faults():
    """Bytes that are no base file, and the place of the first fault."""
    yield from ((TWO[:len], len) for len in range(54))
    yield TWO + b"\0", 54
    yield from ((TWO[:at] + bytes([byte]) + TWO[at + 1 :], place) for at, byte, place in BASE_FAULTS)
    # A key that falls is at fault at its cell, before what is wrong behind it; and so is the first key of a block.
    falls = TWO[:30] + b"\x60" + TWO[31:]
    yield from ((falls[:len], 22) for len in range(31, 54))
    yield falls[:30], 30
    front = many_keys(8193)
    yield front + bytes([4, 10, 0, 0, 0, 0, 0, 0, 0, 2, 0, 0, 0, 0x1F, 0xFF]), len(front) + 5
    # Two columns, of which the first has the last id, or the last but one.
    yield from ((TWO[:31] + b"\2\0" + id + TWO[35:], place) for id, place in ((b"\xff\xff", 33), (b"\xfe\xff", 44)))
    # 156 KB, 246 KB and 265 KB that stand for half a gigabyte are read up to their end, where the filter is missing.
    text = b"\1\0\1\0\7\0" + b"\3\6\x40\1\0\1\0\0\0\1\0" + b"a" * 65_536 + bytes(16_384)
    runs = [(id, "int64", 0, b"\2\x0c\0\0\0\0\x20\0\0\x09\0\0\0\0\0\0\0") for id in range(8192)]
    nulls = [(id, "int8", 1, b"\1\0\4\0\0" + b"\xff" * 1024) for id in range(256)]
    of = lambda columns: b"".join(struct.pack("<HBB", id, spelled.KINDS[kind], null) + blocks for id, kind, null, blocks in columns)
    for columns in (text, struct.pack("<H", 8192) + of(runs), struct.pack("<H", 256) + of(nulls)):
        front = many_keys(8192) + columns
        yield front, len(front)


def base_files_tell_the_place_of_their_fault(room):
    for bytes_, place in base_faults():
        PAIRS.lay(room, bytes_)
        PAIRS.is_refused(room, f"B2 3 {place}", f"a base file of {len(bytes_)} bytes, {bytes_[:100].hex()}")


# ---- columns

FIVES = b"\2\5\0\0\0\0\x20\0\0\5"
NULLS = b"\1\0\4\0\0" + b"\xff" * 1024
PAIR_OF = [struct.pack(">H", it % 4096) for it in range(8192)]
DICTIONARY = b"\3\2\xa0\0\0\0\x10" + b"".join(b"\2\0\0\0" + struct.pack(">H", it) for it in range(4096))
DICTIONARY += b"".join(struct.pack("<H", it % 4096) for it in range(8192))
MORE_OF = [struct.pack(">H", it % 4097) for it in range(8192)]
PLAIN = b"\1\0\xc0\0\0" + b"".join(struct.pack("<I", 2 * it + 2) for it in range(8192))
PLAIN += b"".join(struct.pack(">H", it % 4097) for it in range(8192))

# Columns: the kind, whether it may be null, its cells as literals or bytes, and its blocks.
COLUMNS = [
    ("int8", 0, ["5", "5", "7"], b"\1\3\0\0\0\5\5\7"),
    ("int8", 0, ["-128", "127"], b"\1\2\0\0\0\x80\x7f"),
    ("int16", 0, ["-32768", "32767"], b"\1\4\0\0\0\0\x80\xff\x7f"),
    ("int16", 0, ["32767"], b"\1\2\0\0\0\xff\x7f"),
    ("int32", 0, ["-2147483648", "2147483647"], b"\1\x08\0\0\0\0\0\0\x80\xff\xff\xff\x7f"),
    ("int32", 0, ["1", "-1"], b"\1\x08\0\0\0\1\0\0\0\xff\xff\xff\xff"),
    ("int64", 0, [str(-(2**63)), str(2**63 - 1)], b"\1\x10\0\0\0\0\0\0\0\0\0\0\x80\xff\xff\xff\xff\xff\xff\xff\x7f"),
    ("int64", 0, ["9"] * 100, b"\2\x0c\0\0\0\x64\0\0\0\x09\0\0\0\0\0\0\0"),
    # A run would be as long: the lower number stands.
    ("int32", 0, ["7", "7"], b"\1\x08\0\0\0\7\0\0\0\7\0\0\0"),
    # Plain values and runs of five bytes, and one cell more.
    ("int8", 0, ["5"] * 5, b"\1\5\0\0\0\5\5\5\5\5"),
    ("int8", 0, ["5"] * 6, b"\2\5\0\0\0\6\0\0\0\5"),
    # A full block, and one cell more.
    ("bool", 0, ["true"] * 8192, b"\2\5\0\0\0\0\x20\0\0\1"),
    ("int8", 0, ["5"] * 8193, FIVES + b"\1\1\0\0\0\5"),
    ("int8", 1, ["5"] * 8192 + ["null", "6"], b"\2\5\4\0\0" + bytes(1024) + FIVES[5:] + b"\1\2\0\0\0\1\6"),
    ("int8", 1, ["null"] * 9, b"\1\2\0\0\0\xff\1"),
    ("int8", 1, ["7", "null", "-1"], b"\1\3\0\0\0\2\7\xff"),
    ("int8", 1, ["null"] * 8193, NULLS + b"\1\1\0\0\0\1"),
    ("string", 0, [b""] * 3, b"\1\x0c\0\0\0" + bytes(12)),
    ("string", 0, [b""] * 4, b"\3\x0e\0\0\0\1\0" + bytes(12)),
    ("string", 0, [b"a", b"bc"], b"\1\x0b\0\0\0\1\0\0\0\3\0\0\0abc"),
    # A dictionary and prefixes of 35 bytes, and plain values and prefixes of 41.
    ("string", 0, [b"aaaaaaaa", b"aaaaaaaa", b"aaaaaaaaaaa"], b"\3\x23\0\0\0\2\0\x08\0\0\0aaaaaaaa\x0b\0\0\0aaaaaaaaaaa\0\0\0\0\1\0"),
    (
        "string", 0, [b"aaaab", b"aaaab", b"aaaaaaa", b"aaaaaaaa"],
        b"\1\x29\0\0\0\5\0\0\0\x0a\0\0\0\x11\0\0\0\x19\0\0\0aaaabaaaabaaaaaaaaaaaaaaa",
    ),
    # As many different texts as a dictionary holds, and one more.
    ("binary", 0, PAIR_OF, DICTIONARY),
    ("binary", 0, MORE_OF, PLAIN),
]


def rows_of(kind, null, cells):
    """A table of numbered rows with this column, and the keys of so many."""
    table = Table(("k", "int16", KEY), ("v", kind, NULLABLE if null else 0))
    return table, [struct.pack(">H", it) for it in range(len(cells))]


def columns_have_their_shortest_blocks(room):
    """Rows make the worked blocks of their column, and these show the rows again."""
    as_binary = [("binary", *it[1:]) for it in COLUMNS if it[0] == "string"]
    for kind, null, cells, blocks in COLUMNS + as_binary:
        table, keys = rows_of(kind, null, cells)
        spell = {"string": literal, "binary": lambda it: f'x"{it.hex()}"'}.get(kind, str)
        rows = [f"{at - 32768} {spell(it)}" for at, it in enumerate(cells)]
        base = spelled.base_of(keys, (2, kind, null, blocks))
        writes(table, room, base, [" ; ".join(f"insert {it}" for it in rows[at : at + 64]) for at in range(0, len(rows), 64)])
        table.lay(room, base)
        table.shows(room, ["scan now"], [rows])
    keys = [struct.pack(">H", it) for it in range(8193)]
    if len(spelled.column_of_keys(keys)) != 74_260:
        raise Wrong("tests/spelling.py has other keys")


# Bytes that are no column of so many cells, and the place of the fault.
COLUMN_FAULTS = [
    ("int8", 0, 3, b"\1\3\0\0\0\5\5", 7),
    ("int8", 0, 3, b"\1\3\0\0", 4),
    # A length that disagrees with the values is at fault itself, and missing bytes at their end.
    ("int8", 0, 2, b"\1\3\0\0\0\5\5\7", 1),
    ("int8", 0, 2, b"\1\3\0\0\0\5\7\x09", 1),
    ("int8", 0, 3, b"\1\2\0\0\0\5\5\7", 1),
    ("int8", 0, 2, b"\1\x09\0\0\0\5\7", 1),
    ("int8", 0, 3, b"\1\x09\0\0\0\5\7", 7),
    # No encoding, one of texts, and one that is not the shortest.
    ("int8", 0, 3, b"\x09\3\0\0\0\5\5\7", 0),
    ("int8", 0, 3, b"\3\3\0\0\0\5\5\7", 0),
    ("int8", 0, 3, b"\2\x0a\0\0\0\2\0\0\0\5\1\0\0\0\7", 0),
    # Neighbours in two runs, a run of nothing, of more than is left, of too little, and a truth value that is none.
    ("int8", 0, 2, b"\2\x0a\0\0\0\1\0\0\0\5\1\0\0\0\5", 10),
    ("int8", 0, 1, b"\2\5\0\0\0\0\0\0\0\5", 5),
    ("int8", 0, 1, b"\2\5\0\0\0\2\0\0\0\5", 5),
    ("int8", 0, 2, b"\2\5\0\0\0\1\0\0\0\5", 10),
    ("bool", 0, 1, b"\2\5\0\0\0\1\0\0\0\2", 9),
    ("bool", 0, 3, b"\1\3\0\0\0\0\1\2", 7),
    # A run, and a dictionary, that is as long as the plain values.
    ("int32", 0, 2, b"\2\x08\0\0\0\2\0\0\0\7\0\0\0", 0),
    ("string", 0, 3, b"\3\x0c\0\0\0\1\0" + bytes(10), 0),
    # A bit behind those of the cells.
    ("int8", 1, 9, b"\1\2\0\0\0\xff\3", 6),
    # Ends that fall, and a last one of one byte more, and of one less.
    ("string", 0, 2, b"\1\x08\0\0\0\0\1\0\0\0\0\0\0", 9),
    ("string", 0, 1, b"\1\5\0\0\0\2\0\0\0a", 10),
    # Entries that nobody uses, that stand twice, and that are empty twice.
    ("string", 0, 2, b"\3\x10\0\0\0\2\0\1\0\0\0a\1\0\0\0b\0\0\0\0", 19),
    ("string", 0, 2, b"\3\x10\0\0\0\2\0\1\0\0\0a\1\0\0\0a\0\0\1\0", 16),
    ("string", 0, 2, b"\3\x0e\0\0\0\2\0\0\0\0\0\0\0\0\0\0\0\1\0", 11),
    # A byte list that is too long is at fault at its length, before the bytes that are missing behind it.
    ("string", 0, 2, b"\1\x08\0\1\0\0\0\1\0\1\0\2\0", 9),
    ("string", 0, 2, b"\1\x08\0\1\0\1\0\1\0\1\0\2\0", 5),
    ("binary", 0, 1, b"\3\x08\0\1\0\1\0\1\0\1\0", 7),
    # In or at the second block.
    ("int8", 0, 8193, FIVES + b"\1\1\0\0\0", 15),
    ("int8", 0, 8193, FIVES, 10),
    ("int8", 0, 8194, FIVES + b"\1\1\0\0\0\5", 16),
    ("int8", 0, 8193, FIVES + b"\3\1\0\0\0\5", 10),
    # A run of one cell is longer than the plain cell.
    ("int8", 0, 8193, FIVES + b"\2\5\0\0\0\1\0\0\0\5", 10),
    # All cells in one block.
    ("int8", 0, 8193, b"\2\5\0\0\0\1\x20\0\0\5", 5),
    # A text that is too long, which stands in each cell, and one more text than a dictionary holds.
    ("binary", 0, 8192, b"\3\7\x40\1\0\1\0\1\0\1\0" + b"a" * 65_537 + bytes(16_384), 7),
    ("binary", 0, 8192, struct.pack("<BIH", 3, 8 * 4097 + 8194, 4097) + b"".join(struct.pack("<IH", 2, it) for it in range(4097)) + bytes(16_384), 5),
]

# Bytes that are no column of so many keys, and the place of the fault: a key that shares too little, one that is too long, and the longest,
# whose bytes are missing.
KEY_FAULTS = [
    (2, b"\4\x14\0\0\0\0\0\0\0\2\0\0\0ab\1\0\0\0\2\0\0\0bc", 15),
    (1, b"\4\x09\x40\0\0\0\0\0\0\1\x40\0\0", 9),
    (1, b"\4\x08\x40\0\0\0\0\0\0\0\x40\0\0", 13),
]


def columns_tell_the_place_of_their_fault(room):
    for kind, null, rows, blocks, place in COLUMN_FAULTS:
        table, keys = rows_of(kind, null, range(rows))
        front = b"KTB1" + struct.pack("<I", rows) + spelled.column_of_keys(keys) + struct.pack("<HHBB", 1, 2, spelled.KINDS[kind], null)
        table.lay(room, front + blocks)
        table.is_refused(room, f"B2 3 {len(front) + place}", f"{rows} cells of {kind}, {blocks[:100].hex()}")
    for rows, blocks, place in KEY_FAULTS:
        KEYS.lay(room, b"KTB1" + struct.pack("<I", rows) + blocks)
        KEYS.is_refused(room, f"B2 3 {8 + place}", f"{rows} keys, {blocks.hex()}")


# ---- delta files

DELETED = bytes.fromhex("4b544431 01 01000000 00000000 0020000000000000 03")

# Ordinal 1 at 5 and at 3, and ordinal 4 at 9, whose row was inserted.
UNDONE = bytes.fromhex(
    "4b544431 02 03000000 01000000 0500000000000000 03 01000000 0300000000000000 020000 04000000 0900000000000000 01 0100 0200 0101"
)

FLAGS = Table(("k", "string", KEY), ("b", "bool", NULLABLE))

# A byte that is put at a place, how many rows there are, and the place of the fault.
DELTA_FAULTS = [
    # The letters, the way and the count.
    (3, 0x32, 5, 0),
    (4, 3, 5, 4),
    (5, 2, 5, 37),
    (5, 4, 5, 56),
    # A REDO file has rising timestamps and no insert, an UNDO file falling ones.
    (26, 5, 5, 26),
    # An ordinal that falls, and one that no row has.
    (22, 0, 5, 22),
    (0, 0x4B, 4, 37),
    # A change, and the cells that it lists.
    (49, 4, 5, 49),
    (55, 2, 5, 55),
]


def flags(rows):
    """The base file of so many rows, each false."""
    return spelled.base_of([b"abcde"[at : at + 1] for at in range(rows)], (2, "bool", 1, b"\1" + struct.pack("<I", 1 + rows) + bytes(1 + rows)))


def delta_files_are_read(room):
    """A REDO file and an UNDO file of worked bytes change the rows that they name, at their times."""
    if DELETED != spelled.delta_file(REDO, (0, 8192, spelled.DELETE)):
        raise Wrong("tests/spelling.py has other bytes")
    FLAGS.lay(room, flags(1), redo=DELETED)
    FLAGS.shows(room, ["scan at 8191", "scan at 8192"], [['"a" false'], []])
    # b was changed at 5; e was deleted at 3, and inserted anew at 9.
    true = (2, b"\1\1")
    undo = spelled.delta_file(UNDO, (1, 5, spelled.update(true)), (4, 9, spelled.DELETE), (4, 3, b"\1" + spelled.cells(true)))
    FLAGS.lay(room, flags(5), undo=undo)
    now = [f'"{it}" false' for it in "abcde"]
    then = [now[0], '"b" true', *now[2:4]]
    FLAGS.shows(room, ["scan at 9", "scan at 8", "scan at 5", "scan at 4", "scan at 3", "scan at 2"], [now, now[:4], now[:4], then, then, [*then, '"e" true']])


def delta_files_tell_the_place_of_their_fault(room):
    for at, byte, rows, place in DELTA_FAULTS:
        FLAGS.lay(room, flags(rows), undo=UNDONE[:at] + bytes([byte]) + UNDONE[at + 1 :])
        FLAGS.is_refused(room, f"B2 4 {place}", f"{byte} at {at}")
    for len_ in range(56):
        FLAGS.lay(room, flags(5), undo=UNDONE[:len_])
        FLAGS.is_refused(room, f"B2 4 {len_}", f"{len_} bytes")
    # The UNDO file as a REDO file, an insert in one, and a record of a row that is not there.
    for rows, redo, place in ((5, UNDONE[:4] + b"\1" + UNDONE[5:], 26), (1, DELETED[:21] + b"\1", 21)):
        FLAGS.lay(room, flags(rows), redo=redo)
        FLAGS.is_refused(room, f"B2 5 {place}", redo.hex())


ALL = [
    slots_are_read_and_written,
    slots_tell_the_place_of_their_fault,
    worked_base_files_are_written_and_read,
    keys_have_their_worked_bytes,
    keys_are_found_where_they_stand,
    base_files_tell_the_place_of_their_fault,
    columns_have_their_shortest_blocks,
    columns_tell_the_place_of_their_fault,
    delta_files_are_read,
    delta_files_tell_the_place_of_their_fault,
]
