"""Replays whose frames, reports and refusals are written out here by hand: of the built program over real files, and of the
second renderer."""
import sys
import tempfile
from pathlib import Path

from made import GAIN, MONO, chain, journal, session
from renderings import FLOOR, LEVEL, LONG, MONO_SAMPLES, ZERO, Row, check_row, one, wide, wide_sound
from statuses import CAN_BE_FULL, CYCLE, EIGHT_BITS, PRESET, REPORT, TOO_LONG, check_unsaid
from statuses import Row as Refusal
from statuses import check_row as check_refusal
from tally import Tally

REPLAY = ["replay", "s", "in.wav", "out.wav", "j"]
FLAT = wide([*GAIN, "lane a 0 0 0 4194304"], 200)
OVERLAPPING = journal("10 0 0 begin a 0", "20 1 0 begin a 0", "30 0 1 perform a 0 8388608", "64 0 2 end a 0", "128 1 1 end a 0")
SLOPE = wide([*GAIN, "lane a 0 16 0 0", "point 100 16777216"], 200)
LINE = [min(16777216 * s // 100, 16777216) >> 16 << 16 for s in range(200)]
ECHO = ["param a 0 8194", "param a 1 16777216", "param a 2 16777216"]
QUARTER = ["param a 0 4194304 0.2500", LEVEL[1]]


def levels(values):
    """The samples of a file behind a gain with these levels, over the least sample of 24 bits."""
    return [max(-value, FLOOR) for value in values]


def steady(length):
    return wide_sound(*[FLOOR] * length)


RIDDEN = levels([4194304] * 30 + [8388608] * 98 + [4194304] * 72)
MARKED = journal("2 0 0 begin a 0", "2 0 1 perform a 0 7", "2 1 0 tell a 2", "2 0 2 perform a 0 9", "2 1 1 tell a 2", "2 1 2 tell a 1", "2 1 3 tell a 3")
TAP = ["param a 0 0 0.0000"]

EDITS = [  # a journal, and the row
    (OVERLAPPING, Row("two gestures overlap", FLAT, steady(200), RIDDEN, QUARTER, 4)),
    (OVERLAPPING, Row("in blocks of two sizes", FLAT.replace(b"pattern 64", b"pattern 37 64"), steady(200), RIDDEN, QUARTER, 4)),
    (OVERLAPPING, Row("in single samples", FLAT, steady(200), RIDDEN, QUARTER, 200, 1)),
    (OVERLAPPING, Row("in one block", FLAT, steady(200), RIDDEN, QUARTER, 1, 8192)),
    (
        journal("25 0 0 begin a 0", "50 0 1 end a 0"),
        Row("a lane rests", SLOPE, steady(200), levels(LINE[:25] + [4194304] * 25 + LINE[50:])),
    ),
    (
        journal("0 0 0 begin a 0", "1 0 1 perform a 0 4194304", "1 0 2 end a 0", "2 0 3 begin a 0"),
        Row("without a lane the last value stays", wide(GAIN, 3), steady(3), levels([8388608, 4194304, 4194304]), QUARTER),
    ),
    (
        journal("0 0 0 begin a 1", "0 0 1 perform a 1 8388608"),
        Row("performed values are quantised", session([*GAIN, "param a 0 0"]), MONO, MONO_SAMPLES, [ZERO[0], "param a 1 16777216 On"]),
    ),
    (
        journal("3 0 0 begin a 0", "3 0 1 perform a 0 0"),
        Row("an edit behind the last frame", session(), MONO, MONO_SAMPLES, ZERO),
    ),
    (
        journal("0 0 0 begin a 0", "0 0 1 perform a 0 0", "0 7 0 tell a"),
        Row("entries where there is no frame", session(length=0), MONO, [], ZERO, 0, replies=["reply a 0"]),
    ),
]
MESSAGES = [
    (
        journal("100 0 0 tell a 0"),
        Row("a message ends a block", session(one("tap"), 200), MONO, LONG, TAP, 4, replies=["reply a 100 100"]),
    ),
    (
        journal("3 0 0 tell a 0"),
        Row("a message behind the last frame", session(one("tap")), MONO, MONO_SAMPLES, TAP, replies=["reply a 3 3"]),
    ),
    (
        MARKED,
        Row(
            "a message meets the entries before it",
            session(one("tap")),
            MONO,
            MONO_SAMPLES,
            ["param a 0 9 0.0000"],
            2,
            replies=["reply a 2 7", "reply a 2 9", "reply a 2 256000 0", "reply a 2"],
        ),
    ),
    (
        journal("1 0 0 tell a 1", "1 0 1 tell a 1", "2 0 2 tell a 1 1"),
        Row(
            "a meter starts again",
            wide(one("meter"), 3, channels=2),
            wide_sound(-9, 1, 2, -5, 3, 4, channels=2),
            [-9, 1, 2, -5, 3, 4],
            ["param a 0 6 0.0000", "param a 1 10 0.0000"],
            3,
            replies=["reply a 1 9 1", "reply a 1 0 0", "reply a 2"],
        ),
    ),
    (
        journal("3 0 0 tell a 1"),
        Row("an echo is cut off", wide(one("delay", *ECHO), 8), wide_sound(1600, 0, 0, 80), [0, 0, 1600, 0, 0, 80, 0, 40]),
    ),
    (
        journal("0 0 0 tell b 1", "1 0 1 tell a 0"),
        Row(
            "replies in the journal's order",
            session(chain("tap", "delay")),
            MONO,
            MONO_SAMPLES,
            TAP + ["param b 0 0 0 smp", "param b 1 8388608 0.5000", "param b 2 0 0.0000"],
            2,
            replies=["reply b 0 1", "reply a 1 1"],
        ),
    ),
]
FAULTY_JOURNALS = [  # a journal, its line and its kind
    (b"", 1, 1),
    (journal()[1:], 1, 1),
    (journal("0 0 0 begin a"), 2, 2),
    (journal("0 8 0 tell a"), 2, 2),
    (journal("", "0 0 0 tell a"), 2, 2),
    (journal() + b"\n", 3, 2),
    (journal(*[f"0 0 {at} tell a" for at in range(4097)]), 4098, 3),
    (journal("4 0 0 begin a 0"), 2, 4),
    (journal("2 0 0 tell a", "1 0 1 tell a"), 3, 5),
    (journal("0 0 0 tell b"), 2, 6),
    (journal("0 0 0 begin a 2"), 2, 7),
    (journal("0 0 0 tell a", "0 0 0 tell a"), 3, 9),
    (journal("0 0 0 perform a 0 5"), 2, 10),
    (journal("0 0 0 begin a 0", "0 0 1 end a 0", "0 0 2 end a 0"), 4, 10),
    (journal("0 0 0 begin a 0", "0 0 1 begin a 0"), 3, 11),
    (journal().removesuffix(b"close\n"), 2, 12),
    (b"#" * 1_048_577, 0, 13),
]


def refusals():
    good = {"s": session(), "in.wav": MONO, "j": journal()}
    there = {"out.wav": b"was here"}
    yield Refusal("an empty journal", REPLAY, good, 0, REPORT, {"out.wav": MONO})
    yield Refusal("a journal with other ends", REPLAY, {**good, "j": b" vsthost  journal 1\r\n close "}, 0, REPORT, {"out.wav": MONO})
    yield Refusal("an editor that the session hasn't", REPLAY, {**good, "j": journal("0 7 0 begin a 0")}, 0, REPORT, {"out.wav": MONO})
    most = journal(*[f"0 {at % 8} {at // 8} tell a" for at in range(4096)])
    yield Refusal("as many entries as may be", REPLAY, {**good, "j": most}, 0, REPORT.replace("close", "reply a 0\n" * 4096 + "close"), {"out.wav": MONO})
    yield Refusal("the journal as output", [*REPLAY[:3], "j", "j"], good, 0, REPORT, {"j": MONO})
    yield Refusal("single samples", [*REPLAY, "block=1"], good, 0, REPORT.replace("pieces 1", "pieces 3"), {"out.wav": MONO})
    for words in [REPLAY[:4], [*REPLAY, "x"], [*REPLAY, "block=0"], [*REPLAY, "block=8193"], [*REPLAY, "block=1", "block=1"]]:
        yield Refusal(f"words {words}", words, good, 1, "refused usage\n")
    for data, line, kind in FAULTY_JOURNALS:
        yield Refusal(f"a journal of kind {kind}", REPLAY, {**good, "j": data}, 5, f"refused journal {line} {kind}\n")
    meter = {**good, "s": session(["node m meter"]), "j": journal("0 0 0 begin m 0")}
    yield Refusal("a journal of kind 8", REPLAY, meter, 5, "refused journal 2 8\n")
    yield Refusal("no journal", REPLAY, {"s": session(), "in.wav": MONO}, 6, "failed read journal\n")
    yield Refusal("a folder as journal", [*REPLAY[:4], "."], good, 6, "failed read journal\n")
    yield Refusal("no folder for the output of a replay", ["replay", "s", "in.wav", "none/out.wav", "j"], good, 7, "failed write output\n")
    # several faults, of which the first in the order of the steps is told
    bad = {"j": b"", **there}
    yield Refusal("no session and a bad journal", REPLAY, bad, 6, "failed read session\n")
    yield Refusal("a bad session and a bad journal", REPLAY, {"s": CYCLE, **bad}, 2, "refused session 7 19\n")
    yield Refusal("too long a session and too long a journal", REPLAY, {"s": TOO_LONG, "j": b"#" * 1_048_577, **there}, 2, "refused session 0 20\n")
    yield Refusal("no preset and a bad journal", REPLAY, {"s": PRESET, **bad}, 6, "failed read preset\n")
    yield Refusal("no input and a bad journal", REPLAY, {"s": session(), **bad}, 6, "failed read input\n")
    yield Refusal("a bad input and no journal", REPLAY, {"s": session(), "in.wav": EIGHT_BITS, **there}, 3, "refused wav 4\n")
    yield Refusal("two channels and no journal", REPLAY, {"s": session(channels=2), "in.wav": MONO, **there}, 3, "refused wav 7\n")
    yield Refusal("a bad journal and no folder", ["replay", "s", "in.wav", "none/out.wav", "j"], {"s": session(), "in.wav": MONO, **bad}, 5, "refused journal 1 1\n")
    yield Refusal("no journal and no folder", ["replay", "s", "in.wav", "none/out.wav", "j"], {"s": session(), "in.wav": MONO, **there}, 6, "failed read journal\n")


def unsaid():
    good = {"s": session(), "in.wav": MONO, "j": journal()}
    yield Refusal("a replay's report that can't be said", REPLAY, good, 7, "", {"out.wav": MONO})
    yield Refusal("a bad journal, unsaid", REPLAY, {**good, "j": b""}, 5, "")


def main():
    tally = Tally()
    with tempfile.TemporaryDirectory() as work:
        for lines, row in EDITS + MESSAGES:
            words = REPLAY + [f"block={row.block}"] * bool(row.block)
            check_row(tally, Path(work), row, words, {"s": row.session, "in.wav": row.sound, "j": lines})
        for row in refusals():
            check_refusal(tally, work, row)
        for row in unsaid() if CAN_BE_FULL else []:
            check_unsaid(tally, work, row)
    return tally.close("replays")


if __name__ == "__main__":
    sys.exit(main())
