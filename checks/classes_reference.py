"""The built-in classes as docs/formats.md tells them, over whole lists: what leaves a node where these samples, values and
messages reach it."""
from collections import namedtuple

ONE = 1 << 24
HALF = 1 << 23
LEAST, MOST = -(1 << 31), (1 << 31) - 1

Parameter = namedtuple("Parameter", "steps default units read_only", defaults=("", False))
PARAMETERS = {  # of each class, by id
    b"gain": [Parameter(0, HALF), Parameter(1, 0)],
    b"balance": [Parameter(0, HALF)],
    b"delay": [Parameter(4095, 0, "smp"), Parameter(0, HALF), Parameter(0, 0)],
    b"onepole": [Parameter(0, ONE)],
    b"crusher": [Parameter(15, ONE), Parameter(63, 0)],
    b"gate": [Parameter(0, 0), Parameter(4095, 0, "smp"), Parameter(1, 0)],
    b"meter": [Parameter(0, 0, "", True), Parameter(0, 0, "", True)],
    b"tap": [Parameter(0, 0)],
}
WITH_AUX = {b"gate"}


def clamp(x):
    return x if LEAST <= x <= MOST else MOST if x > 0 else LEAST


def index(value, steps):
    return min(steps, value * (steps + 1) // ONE)


def quantised(value, steps):
    return index(value, steps) * ONE // steps if steps else value


# What each class makes of the channels that reach it: `values` has for each parameter a list with its value at each sample,
# `restarts` the samples before which the message 1 came, and `key` what reaches the aux input, or none.


def gain(channels, values, restarts, key):
    levels, bypass = values
    return [[x if index(off, 1) else clamp(x * level // HALF) for x, level, off in zip(xs, levels, bypass)] for xs in channels]


def balance(channels, values, restarts, key):
    if len(channels) == 1:
        return channels
    left, right = channels
    positions = values[0]
    return [
        [x * min(HALF, ONE - position) // HALF for x, position in zip(left, positions)],
        [x * min(HALF, position) // HALF for x, position in zip(right, positions)],
    ]


def delay(channels, values, restarts, key):
    times, mixes, feedbacks = values
    places = [at - index(time, 4095) for at, time in enumerate(times)]  # the sample that comes back
    sounds = []
    for xs in channels:
        kept, out, since = [], [], 0
        for at, (x, ago, mix, feedback) in enumerate(zip(xs, places, mixes, feedbacks)):
            since = at if at in restarts else since
            w = x if ago == at else kept[ago] if ago >= since else 0
            out.append(clamp((x * (ONE - mix) + w * mix) // ONE))
            kept.append(clamp(x + w * feedback // (2 * ONE)))
        sounds.append(out)
    return sounds


def onepole(channels, values, restarts, key):
    sounds = []
    for xs in channels:
        z, out = 0, []
        for x, cutoff in zip(xs, values[0]):
            z += (x - z) * cutoff // ONE
            out.append(z)
        sounds.append(out)
    return sounds


def crusher(channels, values, restarts, key):
    depths, holds = values
    taken, count = [], 0  # the sample that is held at each sample: its place
    for at, hold in enumerate(holds):
        taken.append(at if count == 0 else taken[-1])
        count = 0 if count + 1 > index(hold, 63) else count + 1
    return [[xs[place] >> (15 - index(depth, 15)) << (15 - index(depth, 15)) for place, depth in zip(taken, depths)] for xs in channels]


def gate(channels, values, restarts, key):
    levels = [max(map(abs, frame)) for frame in zip(*(channels if key is None else key))]
    opened, left = [], 0
    for level, threshold, hold, bypass in zip(levels, *values):
        is_open = level >= threshold // 2
        opened.append(is_open or left > 0 or index(bypass, 1))
        left = index(hold, 4095) if is_open else max(left - 1, 0)
    return [[x if passes else 0 for x, passes in zip(xs, opened)] for xs in channels]


def unchanged(channels, values, restarts, key):
    return channels


SOUNDS = {
    b"gain": gain,
    b"balance": balance,
    b"delay": delay,
    b"onepole": onepole,
    b"crusher": crusher,
    b"gate": gate,
    b"meter": unchanged,
    b"tap": unchanged,
}


def peaks(channels, start, end):
    """The left and the right peak of the samples from start on and before the end."""
    found = [max([min(abs(x), HALF) for x in xs[start:end]], default=0) for xs in channels]
    return (found + [0])[:2]


def shown(kind, channels, restarts):
    """The values of the parameters that are only read, behind all samples."""
    if kind != b"meter":
        return []
    return [2 * peak for peak in peaks(channels, max(restarts, default=0), None)]


def reply(kind, words, sample, values, channels, restarts):
    """The answer to a message before this sample, where the node has these values and restarted before these samples."""
    match kind, words:
        case b"delay", [1]:
            return [1]
        case b"meter", [1]:
            return peaks(channels, max(restarts, default=0), sample)
        case b"tap", [0]:
            return [sample]
        case b"tap", [1]:
            last = [xs[sample - 1] % 2**32 if sample else 0 for xs in channels]
            return (last + [0])[:2]
        case b"tap", [2]:
            return [values[0]]
    return []
