"""Reads and writes preset files, and the states in them, as docs/formats.md tells, by none of the program's means, so that
what is read, loaded and written can be compared with it."""
import struct
from collections import namedtuple

from classes_reference import ONE, PARAMETERS

MOST_BYTES = 67_108_864
MOST_ENTRIES = 128
HEX_DIGITS = set(b"0123456789abcdefABCDEF")
WRITTEN_IDS = [b"Comp", b"Cont", b"Prog", b"Info"]
KINDS = ["Short", "BadMagic", "BadVersion", "BadClassId", "BadListOffset", "BadListId", "BadCount", "BadRange", "OtherClass", "NoComp", "BadState", "TooLong", "NoSuchNode"]

Preset = namedtuple("Preset", "identifier version entries chunks")
Loaded = namedtuple("Loaded", "values mode")  # what a preset gives a node: values by rising id, each with its id


class Fault(Exception):
    """A fault, named as vh_preset names it."""

    def number(self):
        return KINDS.index(self.args[0].split("(")[0]) + 1


def need(holds, fault):
    if not holds:
        raise Fault(fault)


def parts_of(data):
    """The class, the version and the entries of a preset file, or its first fault."""
    size = len(data)
    need(size >= 48, "Short")
    mark, version, digits, at = struct.unpack_from("<4sI32sQ", data)
    need(mark == b"VST3", "BadMagic")
    need(0 < version < 2**31, "BadVersion")
    for place, digit in enumerate(digits, 8):
        need(digit in HEX_DIGITS, f"BadClassId({place})")
    need(48 <= at and at + 8 <= size, "BadListOffset")
    mark, count = struct.unpack_from("<4sI", data, at)
    need(mark == b"List", "BadListId")
    need(count <= MOST_ENTRIES and at + 8 + 20 * count <= size, f"BadCount({count})")
    entries = [struct.unpack_from("<4sQQ", data, at + 8 + 20 * i) for i in range(count)]
    for number, (_, start, length) in enumerate(entries):
        need(start >= 48 and start + length <= size, f"BadRange({number})")
    return bytes.fromhex(digits.decode()), version, entries


def file_of(identifier, chunks):
    """The canonical file of a class with chunks, by their ids."""
    present = [(name, chunks[name]) for name in WRITTEN_IDS if name in chunks]
    body, entries = b"", b""
    for name, chunk in present:
        entries += struct.pack("<4sQQ", name, 48 + len(body), len(chunk))
        body += chunk
    head = struct.pack("<4sI32sQ", b"VST3", 1, identifier.hex().upper().encode(), 48 + len(body))
    return head + body + struct.pack("<4sI", b"List", len(present)) + entries


def read(data):
    """The preset that a file holds."""
    need(len(data) <= MOST_BYTES, "TooLong")
    identifier, version, entries = parts_of(data)
    chunks = {}
    for name, start, length in entries:
        chunks.setdefault(name, data[start : start + length])
    return Preset(identifier, version, entries, chunks)


def listing(preset):
    """What preset-show says of a preset."""
    lines = ["vsthost preset 1", f"class {preset.identifier.hex().upper()}", f"version {preset.version}"]
    lines += [f"chunk {name.hex().upper()} {start} {length}" for name, start, length in preset.entries]
    return "".join(f"{line}\n" for line in [*lines, "close"])


def identifier_of(kind):
    """The identifier of a built-in class."""
    return b"VHSTCOMP" + (list(PARAMETERS).index(kind) + 1).to_bytes(8, "big")


def settable(kind):
    """The ids of the parameters that a component's state has."""
    return [at for at, parameter in enumerate(PARAMETERS[kind]) if not parameter.read_only]


def state_of(kind, values):
    """The state of a component with these values, by id."""
    return struct.pack("<I", 1) + b"".join(struct.pack("<II", at, values[at]) for at in settable(kind))


def load(preset, kind):
    """What a preset gives a node of this class."""
    need(preset.identifier == identifier_of(kind), "OtherClass")
    need(b"Comp" in preset.chunks, "NoComp")
    state = preset.chunks[b"Comp"]
    need(len(state) == 4 + 8 * len(settable(kind)), "BadState")
    form, *numbers = struct.unpack(f"<{len(state) // 4}I", state)
    need(form == 1 and numbers[::2] == settable(kind), "BadState")
    need(all(value <= ONE for value in numbers[1::2]), "BadState")
    return Loaded(tuple(zip(numbers[::2], numbers[1::2])), int(preset.chunks.get(b"Cont") == struct.pack("<II", 1, 1)))


def saved(kind, values, mode):
    """The file of a node's values, by id, and its controller's mode."""
    return file_of(identifier_of(kind), {b"Comp": state_of(kind, values), b"Cont": struct.pack("<II", 1, mode)})


def answer(data):
    """What preset_check says of a file."""
    try:
        preset = read(data)
    except Fault as fault:
        return [f"refused {fault}"]
    lines = [f"preset {preset.identifier.hex().upper()} {preset.version}", *listing(preset).splitlines()[3:-1]]
    return lines + [f"written {file_of(preset.identifier, preset.chunks).hex().upper()}"]
