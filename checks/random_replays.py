"""Replays random journals over random sessions, the same in each run, under four sizes of blocks, and compares what is
written and said with host_reference: gestures of several editors on few parameters, and messages, at every place of a block
and at the length."""
import sys
import tempfile
from concurrent.futures import ThreadPoolExecutor

from made import chain
from random_renderings import CLASSES, PICK, Draft, add_lanes, add_values, check_rendering, drawn, settle
from tally import Tally

REPLAYS = 250
KINDS = {"begin", "perform", "end", "tell"}


def touched():
    """A few nodes in a row with lanes over most of their parameters."""
    draft = Draft(PICK.choice([PICK.randint(0, 3), PICK.randint(20, 300), PICK.randint(20, 300)]), PICK.choice([1, 2]))
    kinds = PICK.sample(["gain", "gain", "tap", "delay", "meter", PICK.choice(CLASSES)], PICK.choice([1, 2, 3]))
    draft.nodes = list(zip("abc", kinds))
    draft.lines += chain(*kinds)
    add_values(draft, 0.3)
    add_lanes(draft, 0.8)
    return draft


def places(draft):
    """Samples that entries may have: where blocks begin, beside these, the length, and any."""
    sizes = [int(size) for size in draft.lines[4].split()[1:]]
    starts = [0]
    while starts[-1] < draft.length:
        starts.append(min(starts[-1] + sizes[(len(starts) - 1) % len(sizes)], draft.length))
    beside = [start + step for start in starts for step in (-1, 1) if 0 <= start + step <= draft.length]
    return [starts, beside or [0], [draft.length], range(draft.length + 1)]


def message(kind):
    """The numbers of a message, most often such as its class has an answer to."""
    if PICK.random() < 0.7:
        return [PICK.choice({"delay": [1], "meter": [1], "tap": [0, 1, 2]}.get(kind, [1]))]
    return [PICK.choice([0, 1, 2, 3, 2**32 - 1]) for _ in range(PICK.choice([0, 1, 2, 3, 4]))]


def journal(draft):
    """The bytes of a random journal of a session."""
    count = PICK.choice([0, 1, 5, 20, 60, 60])
    some = [PICK.choice(PICK.choices(places(draft), [4, 2, 1, 4])[0]) for _ in range(count)]
    samples = sorted(PICK.choices(some, k=count)) if count else []
    editors = PICK.sample(range(8), PICK.choice([1, 2, 3]))
    few = PICK.sample(draft.parameters(), min(len(draft.parameters()), PICK.choice([1, 1, 2, 4])))
    counts, opened, lines = dict.fromkeys(editors, 0), set(), ["vsthost journal 1"]
    for sample in samples:
        editor = PICK.choice(editors)
        if draft.nodes and (not few or PICK.random() < 0.3):
            name, kind = PICK.choice(draft.nodes)
            words = ["tell", name, *message(kind)]
        elif few:
            name, at, kind, parameter = PICK.choice(few)
            verb = PICK.choice(["perform", "perform", "end"]) if (editor, name, at) in opened else "begin"
            opened ^= {(editor, name, at)} if verb != "perform" else set()
            words = [verb, name, at] + [draft.value(at, kind, parameter)] * (verb == "perform")
        else:
            break
        lines.append(" ".join(map(str, [sample, editor, counts[editor], *words])))
        counts[editor] += 1
    return "".join(f"{line}\n" for line in [*lines, "close"]).encode()


def main():
    tally = Tally()
    came = dict.fromkeys(KINDS, 0)
    words = ["replay", "s", "in.wav", "OUT", "j"]
    with tempfile.TemporaryDirectory() as work, ThreadPoolExecutor(4) as pool:
        awaited = []
        for count in range(REPLAYS):
            draft = PICK.choice([drawn, touched, touched])()
            files = {**draft.files(), "j": journal(draft)}
            for kind in KINDS:
                came[kind] += files["j"].count(kind.encode())
            awaited += check_rendering(pool, work, f"random replay {count}", files, words)
        settle(tally, awaited)
    for kind, count in came.items():
        tally.expect(f"{kind} comes", count > REPLAYS, True)
    return tally.close("random replays")


if __name__ == "__main__":
    sys.exit(main())
