"""Tests the tables of docs/guide.md, from decibels, hertz and milliseconds to values, by the second renderer's classes: a
sound goes through with the table's value and has to come out as the row says."""
import math
import re
import sys

from classes_reference import HALF, ONE, PARAMETERS, SOUNDS, quantised
from program import TOP
from rendering_reference import value_text
from tally import Tally

LOUD = 1 << 22


def sound(kind, values, *channels):
    """What leaves a node of a class whose parameters stay at these values."""
    return SOUNDS[kind]([list(xs) for xs in channels], [[value] * len(channels[0]) for value in values], set(), None)


def decibels(share):
    return 20 * math.log10(share)


def level(tally, row, db, value):
    left = sound(b"gain", [value, 0], [LOUD])[0][0]
    if db == "silence":
        tally.expect(row, left, 0)
    else:
        tally.expect(row, abs(decibels(left / LOUD) - float(db)) < 0.001, True)


def position(tally, row, place, value, left, right):
    channels = sound(b"balance", [value], [LOUD], [LOUD])
    tally.expect(row, [xs[0] for xs in channels], [LOUD * float(share) for share in (left, right)])
    tally.expect(row, value, HALF * (1 + float(place)))


def time(tally, row, milliseconds, *columns):
    for rate, samples, value in zip((44100, 48000), columns[::2], columns[1::2]):
        tally.expect(row, abs(samples - int(milliseconds) * rate / 1000) <= 0.5, True)
        tally.expect(row, sound(b"delay", [value, ONE, 0], [LOUD] + [0] * 4095)[0].index(LOUD), samples)
        opened = sound(b"gate", [LOUD, value, 0], [LOUD] + [1] * 4095)[0]
        tally.expect(row, 4096 - opened.count(0), samples + 1)
        tally.expect(row, value, quantised(value, 4095))


def feedback(tally, row, share, value, echoes):
    heard = sound(b"delay", [quantised(ONE // 4096, 4095), ONE, value], [1 << 30] + [0] * 30)[0][1:]
    tally.expect(row, abs(heard[1] / heard[0] - float(share)) < 1e-6, True)
    tally.expect(row, next(at for at, x in enumerate(heard) if x <= heard[0] / 1000), echoes)


def strength(xs, angle):
    """How strong a sine of this angle a sample is, over whole periods."""
    return math.hypot(*(sum(x * turn(angle * n) for n, x in enumerate(xs)) for turn in (math.sin, math.cos)))


def cutoff(tally, row, hertz, *values):
    for rate, value in zip((44100, 48000, 96000), values):
        period = rate / int(hertz.replace(",", ""))
        settled = 10 * ONE // value
        xs = [round((1 << 28) * math.sin(2 * math.pi * n / period)) for n in range(settled + round(math.ceil(3000 / period) * period))]
        heard = sound(b"onepole", [value], xs)[0]
        lost = decibels(strength(heard[settled:], 2 * math.pi / period) / strength(xs[settled:], 2 * math.pi / period))
        tally.expect(row, round(lost, 2), -3.01)


def threshold(tally, row, db, value):
    least = value // 2
    tally.expect(row, abs(decibels(least / HALF) - float(db)) < 0.001, True)
    tally.expect(row, sound(b"gate", [value, 0, 0], [least - 1, least])[0], [0, least])


def depth(tally, row, bits, value):
    step = 1 << (24 - int(bits))
    tally.expect(row, sound(b"crusher", [value, 0], [step - 1, step, -1])[0], [0, step, -step])
    tally.expect(row, value, quantised(value, 15))


def hold(tally, row, samples, value):
    heard = sound(b"crusher", [ONE, value], range(1, 130))[0]
    tally.expect(row, heard.count(1), int(samples))
    tally.expect(row, value, quantised(value, 63))


def peak(tally, row, text, db):
    tally.expect(row, abs(decibels(float(text)) - float(db)) < 0.05, True)
    value = next(value for value in range(math.floor(float(text) * ONE), ONE + 1) if value_text(PARAMETERS[b"meter"][0], value) == text)
    tally.expect(row, abs(decibels(value / ONE) - float(db)) < 0.05, True)


def knob(tally, row, kind, at, name, default, steps, words):
    parameter = PARAMETERS[kind.strip("`").encode()][at]
    tally.expect(f"{row} {at}", (default, steps or 0, "can't be set" in words), (parameter.default, parameter.steps, parameter.read_only))


TABLES = {  # by the heading's first cells
    ("class", "knob"): knob,
    ("decibels", "Level"): level,
    ("place", "Position"): position,
    ("milliseconds", "samples at 44,100"): time,
    ("share", "Feedback"): feedback,
    ("Hz", "Cutoff at 44,100"): cutoff,
    ("decibels", "Threshold"): threshold,
    ("bits", "Depth"): depth,
    ("samples", "Hold"): hold,
    ("text", "decibels"): peak,
}


def tables(text):
    """The heading and the rows of each table."""
    for block in re.findall(r"(?:^\|.*\n)+", text, re.M):
        heading, _, *rows = [[cell.strip() for cell in line.strip("|\n").split("|")] for line in block.splitlines()]
        yield tuple(heading), rows


def main():
    tally = Tally()
    found = dict.fromkeys(TABLES, 0)
    for heading, rows in tables((TOP / "docs/guide.md").read_text()):
        test = TABLES[heading[:2]]
        found[heading[:2]] += len(rows)
        for first, *cells in rows:
            test(tally, f"{heading[1]} of {first}", first, *(int(cell) if cell.isdigit() else cell for cell in cells))
    tally.expect("knobs", found["class", "knob"], sum(map(len, PARAMETERS.values())))
    for heading, count in found.items():
        tally.expect(f"rows of {heading[1]}", count > 5, True)
    return tally.close("numbers")


if __name__ == "__main__":
    sys.exit(main())
