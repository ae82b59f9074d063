"""Writes preset files, whole, changed and random ones, the same in each run, and compares what vh_preset reads in each
and writes anew, by preset_check, with preset_reference. Rows of changes of one field have their faults beside them."""
import pathlib
import random
import struct
import subprocess
import sys
import tempfile

from made import GAIN_CLASS, GAIN_STATE, HOST, PRESET_HEAD, TWO_STATES
from preset_reference import HEX_DIGITS, WRITTEN_IDS, answer, file_of
from tally import Tally

TOP = pathlib.Path(__file__).resolve().parent.parent
CRATE = TOP / "crates/preset_check"
PROGRAM = CRATE / "out/preset_check"
PRESETS = 4000
AT_ONCE = 500
PICK = random.Random(2026)
IDS = WRITTEN_IDS + [b"comp", b"Some", b"\0\0\0\0", b"List"]
BYTES = [0, 1, 0x2F, 0x30, 0x39, 0x3A, 0x40, 0x41, 0x46, 0x47, 0x60, 0x61, 0x66, 0x67, 0x7F, 0x80, 0xFF]

MOST = 8 * b"\xff"
CHANGES = [  # a place, the bytes that stand there then, and the fault
    (0, b"W", "BadMagic"),
    (3, b"4", "BadMagic"),
    (4, b"\0", "BadVersion"),
    (4, b"\x02", None),
    (4, b"\xff\xff\xff\x7f", None),
    (4, b"\0\0\0\x80", "BadVersion"),
    (8, b"/", "BadClassId(8)"),
    (8, b"g", "BadClassId(8)"),
    (9, b"f", None),
    (38, b":G", "BadClassId(38)"),
    (39, b"@", "BadClassId(39)"),
    (40, b"\x2f", "BadListOffset"),
    (40, b"\x3a", "BadListId"),
    (40, b"\x3c", "BadListId"),
    (40, b"\x77", "BadListId"),
    (40, b"\x78", "BadListOffset"),
    (40, MOST, "BadListOffset"),
    (47, b"\x80", "BadListOffset"),
    (59, b"M", "BadListId"),
    (62, b"u", "BadListId"),
    (63, b"\x02", None),
    (63, b"\x04", "BadCount(4)"),
    (63, MOST[:4], "BadCount(4294967295)"),
    (66, b"\x80", "BadCount(2147483651)"),
    (67, b"D", None),
    (71, b"\x2f", "BadRange(0)"),
    (71, b"\x31", None),
    (71, b"\x7b", None),
    (71, b"\x7c", "BadRange(0)"),
    (71, MOST, "BadRange(0)"),
    (79, b"\x4f", None),
    (79, b"\x50", "BadRange(0)"),
    (79, MOST, "BadRange(0)"),
    (111, b"\x7f\0\0\0\0\0\0\0\0", None),
    (111, b"\x80\0\0\0\0\0\0\0\0", "BadRange(2)"),
    (119, b"\x4a", "BadRange(2)"),
]
IN_TURN = [  # changes one upon another, each with a fault that comes before those of the former
    (71, b"\0", "BadRange(0)"),
    (63, b"\x09", "BadCount(9)"),
    (59, b"l", "BadListId"),
    (40, b"\0", "BadListOffset"),
    (20, b" ", "BadClassId(20)"),
    (4, b"\0", "BadVersion"),
    (0, b"v", "BadMagic"),
]


# the class and the first state of TWO_STATES
WRITTEN = PRESET_HEAD + GAIN_CLASS + bytes.fromhex("4400000000000000") + GAIN_STATE + bytes.fromhex("4C697374 01000000 436F6D70 3000000000000000 1400000000000000")


def build():
    sources = [path for path in TOP.glob("crates/*/src/**/*.rt")]
    newest = max(path.stat().st_mtime for path in sources)
    if not PROGRAM.exists() or PROGRAM.stat().st_mtime < newest:
        subprocess.run(["rt", "run"], cwd=CRATE, stdin=subprocess.DEVNULL, stdout=subprocess.DEVNULL, stderr=subprocess.DEVNULL)
    return PROGRAM.exists()


def number(size, near):
    """A number of so many bytes, most often one near a limit."""
    most = 2 ** (8 * size) - 1
    some = PICK.choice([0, 1, 48, near, near, most, most // 2, most - near, PICK.randint(0, most)])
    return min(max(some + PICK.choice([-20, -8, -1, 0, 0, 0, 1, 8, 20]), 0), most)


def canonical():
    """A file as vh_preset writes them."""
    names = PICK.sample(WRITTEN_IDS, PICK.randint(0, 4))
    return file_of(PICK.randbytes(16), {name: PICK.randbytes(PICK.choice([0, 1, 20, 60])) for name in names})


def crowded():
    """A file whose chunks overlap, repeat ids, and may lie anywhere."""
    body = PICK.randbytes(PICK.choice([0, 5, 40]))
    behind = PICK.randbytes(PICK.choice([0, 0, 3]))
    count = PICK.choice([0, 1, 2, 5, 127, 128, 129])
    at = 48 + len(body)
    size = at + 8 + 20 * count + len(behind)
    entries = b""
    for _ in range(count):
        start = PICK.randint(48, size)
        entries += struct.pack("<4sQQ", PICK.choice(IDS), start, PICK.choice([0, size - start, PICK.randint(0, size - start)]))
    digits = bytes(PICK.choice(sorted(HEX_DIGITS)) for _ in range(32))
    version = PICK.choice([1, 1, 2, 2**31 - 1])
    return struct.pack("<4sI32sQ", b"VST3", version, digits, at) + body + struct.pack("<4sI", b"List", count) + entries + behind


def changed(data):
    """The file with a change: of a byte, of a field, or of its size."""
    data = bytearray(data)
    listed = struct.unpack_from("<Q", data, 40)[0]
    fields = [(4, 4), (40, 8), (listed + 4, 4)] + [(at, 8) for at in range(listed + 12, len(data) - 7) if (at - listed - 12) % 20 in (0, 8)]
    change = PICK.randrange(8)
    if change == 0:
        data[PICK.randrange(len(data))] = PICK.choice(BYTES)
    elif change == 1:
        data[PICK.randrange(48)] = PICK.choice(BYTES)
    elif change == 2:
        data[PICK.randrange(8, 40)] = PICK.choice(BYTES)
    elif change == 3:
        data[PICK.randrange(listed, listed + 8)] = PICK.choice(BYTES)
    elif change == 4:
        del data[PICK.randrange(len(data)) :]
    else:
        at, size = PICK.choice(fields)
        data[at : at + size] = number(size, PICK.choice([len(data), listed, 128])).to_bytes(size, "little")
    return bytes(data)


def preset():
    kind = PICK.random()
    if kind < 0.05:
        return PICK.randbytes(PICK.randint(0, 200))
    data = PICK.choice([canonical, crowded])()
    for _ in range(PICK.choice([0, 1, 1, 1, 2])):
        if len(data) >= 56 and struct.unpack_from("<Q", data, 40)[0] + 8 <= len(data):
            data = changed(data)
    return data


def with_field(data, at, field):
    return data[:at] + field + data[at + len(field) :]


def rows():
    """Files, each with what preset_check first says of it where it has a fault."""
    found = [(with_field(HOST, at, field), fault) for at, field, fault in CHANGES]
    data = HOST
    for at, field, fault in IN_TURN:
        data = with_field(data, at, field)
        found.append((data, fault))
    empty = file_of(bytes(16), {})
    found += [(empty[:size], "Short" if size < 48 else "BadListOffset") for size in range(len(empty))]
    for count, fault in [(128, None), (129, "BadCount(129)")]:
        found.append((empty[:52] + struct.pack("<I", count) + count * struct.pack("<4sQQ", b"Some", 48, 0), fault))
    return found + [(HOST, None), (TWO_STATES, None)]


def said_of(folder, files):
    """The lines that preset_check says of each file, by its name."""
    for name, data in files.items():
        (pathlib.Path(folder) / name).write_bytes(data)
    done = subprocess.run([PROGRAM, *files], cwd=folder, stdin=subprocess.DEVNULL, capture_output=True)
    parts = [part.splitlines() for part in done.stdout.decode().split("file ")[1:]]
    return done.returncode, {lines[0]: lines[1:] for lines in parts}


def check_rows(tally, folder):
    files = {f"row{i}": data for i, (data, _) in enumerate(rows())}
    status, said = said_of(folder, files)
    tally.expect("rows", (status, len(said)), (0, len(files)))
    for (name, data), (_, fault) in zip(files.items(), rows()):
        lines = said.get(name, [])
        tally.expect(name, lines, answer(data))
        tally.expect(f"{name}'s fault", lines[:1] == [f"refused {fault}"] if fault else lines[0].startswith("preset "), True)
    tally.expect("the first of two states is written", (lines[-1:], len(WRITTEN)), ([f"written {WRITTEN.hex().upper()}"], 96))


def main():
    if not build():
        print("checks: preset_check can't be built")
        return 1
    tally = Tally()
    with tempfile.TemporaryDirectory() as folder:
        check_rows(tally, folder)
        for first in range(0, PRESETS, AT_ONCE):
            files = {f"p{i}": preset() for i in range(first, first + AT_ONCE)}
            status, said = said_of(folder, files)
            tally.expect(f"presets from {first} on", (status, len(said)), (0, AT_ONCE))
            for name, data in files.items():
                tally.expect(f"random preset {name}", said.get(name), answer(data))
    return tally.close("random presets")


if __name__ == "__main__":
    sys.exit(main())
