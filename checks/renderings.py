"""Renderings whose frames and reports are written out here by hand: of the built program over real files, and of the second
renderer. A frame is written as in the file, in 16 or 24 bits."""
import sys
import tempfile
from collections import namedtuple
from pathlib import Path

import host_reference
from made import GAIN, MONO, STEREO, chain, samples_in, session, sound
from program import run
from tally import Tally

FLOOR = -8388608  # the least sample of 24 bits: a gain makes of it the level, below zero
HALF_DOWN = FLOOR // 2
FULL = "param a 0 16777216"
MONO_SAMPLES = [0, 1000, -1]
LONG = MONO_SAMPLES + [0] * 197
LEVEL = ["param a 0 8388608 0.5000", "param a 1 0 Off"]  # what a report says of a gain at its defaults
LOUD = ["param a 0 16777216 1.0000", LEVEL[1]]
ZERO = ["param a 0 0 0.0000", LEVEL[1]]
SONG = chain("gain", "onepole", "delay", "meter") + ["lane a 0 16 0 0", "point 441000 8388608"]


class Row(namedtuple("Row", "name session sound samples params pieces block replies", defaults=[None, 1, None, ()])):
    """A rendering: its files, the samples that come out, and of the report the parameters' lines where they are tested, the
    number of blocks, and the replies."""

    def report(self):
        channels = 2 if b"channels 2" in self.session else 1
        return ["vsthost report 1", f"frames {len(self.samples) // channels}", f"pieces {self.pieces}", *self.params, *self.replies, "close"]


def one(kind, *lines):
    return chain(kind) + list(lines)


def wide(lines, length, **more):
    """A session of 24 bits."""
    return session(lines, length, bits=24, **more)


def wide_sound(*samples, channels=1):
    return sound(samples, channels, 24)


# nine gains make full scale pass the range, of which the output has a 256th; the sum is clamped once, so that what is below
# zero counts against both that are above
CLAMPED = [f"node n{at} gain" for at in range(9)] + ["node late delay", "node one gain", "node two gain", "node last gain"]
CLAMPED += ["wire in n0"] + [f"wire n{at} n{at + 1}" for at in range(8)] + ["wire n8 late", "wire late one", "wire late two", "wire one last"]
CLAMPED += ["wire two last", "wire n8 last", "wire last out", "param late 0 4097", "param late 1 16777216", "param last 0 32768"]
CLAMPED += [f"param n{at} 0 16777216" for at in range(9)]

BLOCKS = [
    Row("the input again", session(), MONO, MONO_SAMPLES, LEVEL),
    Row("no frames", session(length=0), MONO, [], LEVEL, 0),
    Row("beyond the input", session(length=5), sound([7, 8]), [7, 8, 0, 0, 0], LEVEL),
    Row("blocks of one frame", session(pattern="1"), MONO, MONO_SAMPLES, LEVEL, 3),
    Row("blocks of two sizes", session(pattern="37 64", length=200), MONO, LONG, LEVEL, 4),
    Row("other blocks than the pattern's", session(pattern="37 64", length=200), MONO, LONG, LEVEL, 3, 99),
]
GAINS = [
    Row("twice as loud", session([*GAIN, FULL], 1), sound([32767]), [32767], LOUD),
    Row("twice as loud with 24 bits", wide([*GAIN, FULL], 1), sound([32767]), [8388607], LOUD),
    Row("no sample is clipped inside", wide(chain("gain", "gain") + [FULL, "param b 0 4194304"], 1), sound([32767]), [8388352]),
    Row("rounded down", wide([*GAIN, "param a 0 4194304"], 1), wide_sound(-1), [-1], ["param a 0 4194304 0.2500", LEVEL[1]]),
    Row("24 bits to 16, rounded down", session(length=4), wide_sound(255, 256, -1, -257), [0, 1, -1, -2]),
    Row("bypassed", session([*GAIN, "param a 0 0", "param a 1 8388608"]), MONO, MONO_SAMPLES, [ZERO[0], "param a 1 16777216 On"]),
    Row("two channels", wide(GAIN, 1, channels=2), STEREO, [1, -1], LEVEL),
]
WIRES = [
    Row("no wire to the output", session(GAIN[:2]), MONO, [0, 0, 0]),
    Row(
        "three ways to the output",
        session(["node b gain", "node a gain", "wire in a", "wire in b", "wire a out", "wire in out", "wire b out"], 2),
        sound([1000, -1]),
        [3000, -3],
    ),
    Row(
        "wires against the numbers",
        session(["node a gain", "node b gain", "wire in b", "wire b a", "wire a out", "param b 0 16777216"], 2),
        sound([1000, -1]),
        [2000, -2],
    ),
    Row("the sum is clamped once", wide(CLAMPED, 2), wide_sound(8388607, -8388608), [8388607, 8388607]),
]
RISING = [*GAIN, "lane a 0 20 0 0", "point 10 16777216"]
COARSE = [*GAIN, "lane a 0 23 0 0", "point 10 16777216"]
LANES = [
    Row(
        "a lane of a fine grain",
        wide(RISING, 13),
        wide_sound(*[HALF_DOWN] * 13),
        [0, -524288, -1572864, -2097152, -3145728, -4194304, -4718592, -5767168, -6291456, -7340032, -8388608, -8388608, -8388608],
        LOUD,
    ),
    Row("a lane of a coarse grain", wide(COARSE, 13), wide_sound(*[HALF_DOWN] * 13), [0] * 5 + [-4194304] * 5 + [-8388608] * 3),
    Row("a lane that falls", wide([*GAIN, "lane a 0 0 0 10", "point 3 0"], 4), wide_sound(*[FLOOR] * 4), [-10, -6, -3, 0], ZERO),
    Row("before and behind a lane", wide([*GAIN, "lane a 0 4 2 4194310", "point 3 17"], 5), wide_sound(*[FLOOR] * 5), [-4194304] * 3 + [-16] * 2),
    Row("a lane over a first value", wide([*GAIN, "param a 0 5", "lane a 0 0 2 7"], 3), wide_sound(*[FLOOR] * 3), [-7] * 3),
    Row("a lane's value at the end is the one behind the last frame", session([*GAIN, "lane a 0 0 2 0", "point 3 16777216"]), MONO, [0, 0, 0], LOUD),
    Row("a lane over a switch", session([*GAIN, "param a 0 0", "lane a 1 0 0 0", "point 4 16777216"], 5), sound([7] * 5), [0, 0, 7, 7, 7]),
]
DELAY = ["node a delay", "wire in a", "wire a out"]
KEYED = ["node g gate", *DELAY[:2], "wire a g aux", "wire in g", "wire g out", "param g 0 2000", "param a 0 4097", "param a 1 16777216"]
CLASSES = [
    Row(
        "a delay of one sample",
        session([*DELAY, "param a 0 6000", "param a 1 16777216"]),
        sound([5, 6, 7]),
        [0, 5, 6],
        ["param a 0 4097 1 smp", "param a 1 16777216 1.0000", "param a 2 0 0.0000"],
    ),
    Row(
        "an echo that fades",
        wide([*DELAY, "param a 0 8194", "param a 1 16777216", "param a 2 16777216"], 8),
        wide_sound(1600),
        [0, 0, 1600, 0, 800, 0, 400, 0],
    ),
    Row("half of an echo", wide([*DELAY, "param a 0 4097"], 3), wide_sound(-1, 4), [-1, 1, 2]),
    Row("a delay of nothing", wide([*DELAY, "param a 1 16777216"], 2), wide_sound(9, -9), [9, -9]),
    Row("a pole that rises", wide(one("onepole", "param a 0 8388608"), 8), wide_sound(*[100] * 8), [50, 75, 87, 93, 96, 98, 99, 99]),
    Row("a pole that falls", wide(one("onepole", "param a 0 8388608"), 7), wide_sound(*[-100] * 7), [-50, -75, -88, -94, -97, -99, -100]),
    Row(
        "few bits, every second sample",
        wide(one("crusher", "param a 0 0", "param a 1 266305"), 5),
        wide_sound(40000, 1, -1, 70000, -40000),
        [32768, 32768, -32768, -32768, -65536],
        ["param a 0 0 0", "param a 1 266305 1"],
    ),
    Row(
        "a gate that stays open for a sample",
        wide(one("gate", "param a 0 2000", "param a 1 4097"), 7),
        wide_sound(999, 1000, 5, 5, -1000, 3, 3),
        [0, 1000, 5, 0, -1000, 3, 0],
        ["param a 0 2000 0.0001", "param a 1 4097 1 smp", "param a 2 0 Off"],
    ),
    Row("a gate with a key", wide(KEYED, 5), wide_sound(1000, 5, 7, -2000, 9), [0, 5, 0, 0, 9]),
    Row("a gate of two channels", wide(one("gate", "param a 0 2000"), 2, channels=2), wide_sound(3, -1000, 999, 0, channels=2), [3, -1000, 0, 0]),
    Row("a gate with a bypass", wide(one("gate", FULL, "param a 2 16777216"), 1), wide_sound(3), [3]),
    Row("more to the left", wide(one("balance", "param a 0 4194304"), 1, channels=2), wide_sound(3, -3, channels=2), [3, -2]),
    Row("more to the right", wide(one("balance", "param a 0 12582912"), 1, channels=2), wide_sound(3, -3, channels=2), [1, -3]),
    Row("one channel has no side", wide(one("balance", "param a 0 0"), 1), wide_sound(3), [3], ZERO[:1]),
    Row(
        "peaks",
        wide(one("meter"), 2, channels=2),
        wide_sound(3, FLOOR, -5, 1, channels=2),
        [3, FLOOR, -5, 1],
        ["param a 0 10 0.0000", "param a 1 16777216 1.0000"],
    ),
    Row("the peak of one channel", wide(one("meter"), 1), wide_sound(4194304), [4194304], [LEVEL[0], "param a 1 0 0.0000"]),
    Row("a tap changes nothing", session(one("tap", "param a 0 7")), MONO, MONO_SAMPLES, ["param a 0 7 0.0000"]),
]
WHOLE_FILES = [  # rows of the above whose output is written out whole
    ("the input again", MONO.hex()),
    ("no frames", "524946462400000057415645666d7420100000000100010080bb000000770100020010006461746100000000"),
    ("rounded down", "524946462800000057415645666d7420100000000100010080bb0000803202000300180064617461" "03000000ffffff00"),
    ("two channels", "524946462a00000057415645666d7420100000000100020044ac0000980904000600180064617461" "06000000010000ffffff"),
]


def check_row(tally, folder, row, words, files):
    """A row, by the program and by the second renderer."""
    for name, data in files.items():
        (folder / name).write_bytes(data)
    out = folder / "out.wav"
    out.unlink(missing_ok=True)
    status, said = run(folder, words)
    answers = [("", status, said, out.read_bytes() if out.exists() else None)]
    status, said, changed = host_reference.answer(words, files)
    answers.append((", by the second renderer", status, said, changed.get("out.wav")))
    for who, status, said, data in answers:
        tally.expect(f"{row.name}{who}", status, 0)
        tally.expect(f"{row.name}{who}", data and samples_in(data), row.samples)
        if row.params is not None:
            tally.expect(f"{row.name}{who}", said.splitlines(), row.report())
        for name, whole in WHOLE_FILES:
            if name == row.name:
                tally.expect(f"{row.name}{who}, to the byte", data, bytes.fromhex(whole))


def check_song(tally, folder):
    """Three minutes behind a file of one frame, by the program alone."""
    (folder / "s").write_bytes(session(SONG, 7938000, 2, 24, "512"))
    (folder / "in.wav").write_bytes(STEREO)
    status, said = run(folder, ["render", "s", "in.wav", "song.wav"])
    lines = said.splitlines()
    tally.expect("three minutes", (status, lines[1:4]), (0, ["frames 7938000", "pieces 15504", "param a 0 8388608 0.5000"]))
    tally.expect("three minutes", (folder / "song.wav").stat().st_size, 47628044)


def main():
    tally = Tally()
    with tempfile.TemporaryDirectory() as name:
        folder = Path(name)
        for row in BLOCKS + GAINS + WIRES + LANES + CLASSES:
            words = ["render", "s", "in.wav", "out.wav"] + [f"block={row.block}"] * bool(row.block)
            check_row(tally, folder, row, words, {"s": row.session, "in.wav": row.sound})
        check_song(tally, folder)
    return tally.close("renderings")


if __name__ == "__main__":
    sys.exit(main())
