"""Sessions, sounds, journals and presets for the checks, and what a file holds, by Python's `wave`."""
import io
import struct
import wave

GAIN = ["node a gain", "wire in a", "wire a out"]


def text(lines):
    return "".join(f"{line}\n" for line in lines).encode()


def session(lines=GAIN, length=3, channels=1, bits=16, pattern="64"):
    return text(["vsthost session 1", f"length {length}", f"channels {channels}", f"bits {bits}", f"pattern {pattern}", *lines])


def journal(*lines):
    return text(["vsthost journal 1", *lines, "close"])


def sound(samples, channels=1, bits=16, rate=48000):
    """A file of these samples, frame after frame."""
    made = io.BytesIO()
    with wave.open(made, "wb") as file:
        file.setnchannels(channels)
        file.setsampwidth(bits // 8)
        file.setframerate(rate)
        file.writeframes(b"".join(sample.to_bytes(bits // 8, "little", signed=True) for sample in samples))
    return made.getvalue()


def samples_in(data):
    """The samples of a file, frame after frame."""
    with wave.open(io.BytesIO(data)) as file:
        width = file.getsampwidth()
        frames = file.readframes(file.getnframes())
    return [int.from_bytes(frames[at : at + width], "little", signed=True) for at in range(0, len(frames), width)]


def chain(*nodes):
    """Nodes of these classes in a row, named a, b and so on."""
    names = "abcdefghijklmnop"[: len(nodes)]
    wires = [f"wire {source} {target}" for source, target in zip(["in", *names], [*names, "out"])]
    return [f"node {name} {kind}" for name, kind in zip(names, nodes)] + wires


# one channel with 16 bits and the frames 0, 1000 and -1, to the byte
MONO = bytes.fromhex("524946462A00000057415645666D7420100000000100010080BB00000077010002001000" "6461746106000000" "0000E803FFFF")
# one frame of two channels with 24 bits in the extensible form, and a chunk of odd size before the samples
STEREO = bytes.fromhex(
    "524946465000000057415645666D742028000000FEFF020044AC0000980904000600180016001800030000000100000000001000800000AA00389B71"
    "4C495354050000006162636465006461746106000000010000FFFFFF"
)

PRESET_HEAD = bytes.fromhex("5653543301000000")
GAIN_CLASS = b"56485354434F4D500000000000000001"
GAIN_STATE = bytes.fromhex("01000000 00000000 00008000 01000000 00000000")  # Level 8388608, Bypass 0
SHUT_STATE = bytes.fromhex("01000000 00000000 00000000 01000000 00000000")
# a preset of a gain in lower-case digits, with two states of which the first counts, and three bytes behind the list
TWO_STATES = b"".join(
    [
        PRESET_HEAD + GAIN_CLASS.lower() + bytes.fromhex("5800000000000000"),
        GAIN_STATE + SHUT_STATE,
        bytes.fromhex("4C697374 02000000 436F6D70 3000000000000000 1400000000000000 436F6D70 4400000000000000 1400000000000000 010203"),
    ]
)
# a preset as a host writes it: the states of a component and of its controller, and meta data
HOST = bytes.fromhex("5653543301000000") + b"0123456789ABCDEF0123456789ABCDEF" + struct.pack("<Q", 59) + b"abcdefg<x/>List" + struct.pack(
    "<I4sQQ4sQQ4sQQ", 3, b"Comp", 48, 4, b"Cont", 52, 2, b"Info", 54, 5
)
