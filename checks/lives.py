"""Live renderings whose editors' deeds, reports and refusals are written out here by hand: of the built program over real
files, and of the second reader. Where words may fall before or behind the one block, both are right."""
import resource
import sys
import tempfile
from collections import namedtuple

import gesture_reference
import host_reference
import session_reference
from made import GAIN, MONO, journal, session, sound
from program import run
from statuses import BLOCKS, CAN_BE_FULL, CYCLE, EIGHT_BITS, FAULTY_INPUTS, FAULTY_SESSIONS, GOOD, PRESET, REPORT
from statuses import Row as Refusal
from statuses import check_row as check_refusal
from statuses import check_unsaid, contents, folder_with, limited
from tally import Tally

RUNS = 3  # of each row
LIVE = ["live", "s", "in.wav", "out.wav", "j"]
NOTHING_DONE = journal()
TWO = ["node a gain", "node b tap", "wire in a", "wire a b", "wire b out"]
BOTH = {"out.wav": MONO, "j": NOTHING_DONE}
THERE = {"out.wav": b"was here", "j": b"was here, too"}
Row = namedtuple("Row", "name scripts edits refused lines", defaults=[GAIN])

ROWS = [  # the words of each editor, what of them stands in the journal, and how many are refused
    Row("no words", [[]], [[]], [0]),
    Row("one gesture", [["begin a 0", "perform a 0 4194304", "end a 0"]], [["begin a 0", "perform a 0 4194304", "end a 0"]], [0]),
    Row("behind the last reference", [["begin a 0", "drop a", "end a 0"]], [["begin a 0"]], [1]),
    Row("sixty-five holds", [["hold a"] * 65], [[]], [1]),
    Row("as many holds as may be, and a drop of each reference", [["hold a"] * 64 + ["drop a"] * 65], [[]], [0]),
    Row("a drop makes no room for a hold", [["hold a"] * 64 + ["drop a", "hold a"]], [[]], [1]),
    Row("a drop of nothing", [["drop a", "drop a"]], [[]], [1]),
    Row("no hold behind the last reference", [["drop a", "hold a"]], [[]], [1]),
    Row("a hold keeps the node", [["hold a", "drop a", "tell a 7"]], [["tell a 7"]], [0]),
    Row("a wait is no word of an editor's own", [["wait 0", "begin a 0"]], [["begin a 0"]], [0]),
    Row("a wait behind the last reference", [["drop a", "wait 0", "tell a"]], [[]], [1]),
    Row("a wait for what never comes", [["wait 4294967295", "begin a 0"]], [["begin a 0"]], [0]),
    Row("a perform before a begin", [["perform a 0 5"]], [[]], [1]),
    Row("an end before a begin", [["end a 0", "begin a 0"]], [["begin a 0"]], [1]),
    Row("a second begin", [["begin a 0", "begin a 0", "perform a 0 9"]], [["begin a 0", "perform a 0 9"]], [1]),
    Row("two gestures in a row", [["begin a 0", "end a 0", "begin a 0"]], [["begin a 0", "end a 0", "begin a 0"]], [0]),
    Row("a perform behind the end", [["begin a 0", "end a 0", "perform a 0 9"]], [["begin a 0", "end a 0"]], [1]),
    Row("two parameters at once", [["begin a 0", "begin a 1", "end a 0", "end a 1"]], [["begin a 0", "begin a 1", "end a 0", "end a 1"]], [0]),
    Row(
        "a value above 1.0",
        [["begin a 0", "perform a 0 16777217", "perform a 0 4294967295", "perform a 0 16777216"]],
        [["begin a 0", "perform a 0 16777216"]],
        [2],
    ),
    Row("no such parameter", [["begin a 2", "begin a 4294967295"]], [[]], [2]),
    Row("a parameter that is only read", [["begin m 0", "tell m 0"]], [["tell m 0"]], [1], ["node m meter"]),
    Row("messages", [["tell a", "tell a 1 2 3 4294967295"]], [["tell a", "tell a 1 2 3 4294967295"]], [0]),
    Row("each node for itself", [["drop a", "tell a", "tell b 1", "begin b 0"]], [["tell b 1", "begin b 0"]], [1], TWO),
    Row("no other editor's word counts", [["begin a 0", "drop a"], ["perform a 0 5", "begin a 0", "end a 0"]], [["begin a 0"], ["begin a 0", "end a 0"]], [0, 1]),
    Row("an editor behind one that does nothing", [[], ["tell a 7"]], [[], ["tell a 7"]], [0, 0]),
    Row("eight editors", [["begin a 0", "perform a 0 7", "tell a"]] * 8, [["begin a 0", "perform a 0 7", "tell a"]] * 8, [0] * 8),
]


def with_editors(row, **more):
    """A row's session."""
    scripts = [line for editor, words in enumerate(row.scripts) for line in (f"editor {editor}", *words)]
    return session([*row.lines, *scripts], **more)


def deeds_in(text):
    """The samples of a journal's lines, and of each editor the numbers and the words of its lines."""
    samples, deeds = [], {}
    for line in text.decode().splitlines()[1:-1]:
        sample, editor, deed = line.split(" ", 2)
        samples.append(int(sample))
        deeds.setdefault(int(editor), []).append(deed)
    return samples, deeds


def numbered(row):
    return {editor: [f"{seq} {deed}" for seq, deed in enumerate(edits)] for editor, edits in enumerate(row.edits) if edits}


def counts(row):
    return [f"editor {editor} accepted {len(edits)} refused {refused}" for editor, (edits, refused) in enumerate(zip(row.edits, row.refused))]


def check_reader(tally, row):
    """That the second reader finds what the row says."""
    played = gesture_reference.all_played(session_reference.read(with_editors(row)))
    told = [[" ".join([verb.decode(), name.decode(), *map(str, numbers)]) for verb, name, numbers in edits] for edits, _ in played]
    tally.expect(f"{row.name}, by the second reader", (told, [refused for _, refused in played]), (row.edits, row.refused))


def check_row(tally, work, row, ends, **more):
    """A run, whose entries stand at these samples."""
    files = {"s": with_editors(row, **more), "in.wav": MONO}
    folder = folder_with(work, files)
    status, said = run(folder, LIVE)
    written = contents(folder)
    kept = written.get("j", b"")
    samples, deeds = deeds_in(kept)
    tally.expect(f"{row.name}, deeds", (status, deeds), (0, numbered(row)))
    tally.expect(f"{row.name}, samples", (samples == sorted(samples), set(samples) <= ends), (True, True))
    tally.expect(f"{row.name}, counts", [line for line in said.splitlines() if line.startswith("editor ")], counts(row))
    wanted = host_reference.answer(LIVE, files, kept)
    tally.expect(f"{row.name}, by the second renderer", (status, said, written), (wanted[0], wanted[1], {**files, **wanted[2]}))


def refusals():
    good = {**GOOD, **THERE}
    yield Refusal("no editors", LIVE, GOOD, 0, REPORT, BOTH)
    yield Refusal("outputs that are there", LIVE, good, 0, REPORT, BOTH)
    yield Refusal("live in single samples", [*LIVE, "block=1"], GOOD, 0, REPORT.replace("pieces 1", "pieces 3"), BOTH)
    yield Refusal("live with a size of ten digits", [*LIVE, "block=0000008192"], GOOD, 0, REPORT, BOTH)
    yield Refusal("a journal named as a size", [*LIVE[:4], "block=1"], GOOD, 0, REPORT, {"out.wav": MONO, "block=1": NOTHING_DONE})
    yield Refusal("the session as journal", [*LIVE[:4], "s"], GOOD, 0, REPORT, {"out.wav": MONO, "s": NOTHING_DONE})
    yield Refusal("the session as output of live", ["live", "s", "in.wav", "s", "j"], GOOD, 0, REPORT, {"s": MONO, "j": NOTHING_DONE})
    for words in [LIVE[:4], LIVE[:1], [*LIVE, "x"], [*LIVE, "block=1", "block=1"], ["live", "block=1", *LIVE[1:]], ["Live", *LIVE[1:]]]:
        yield Refusal(f"words {words}", words, good, 1, "refused usage\n")
    for size in BLOCKS:
        yield Refusal(f"live with block={size}", [*LIVE, f"block={size}"], good, 1, "refused usage\n")
    for data, line, kind in FAULTY_SESSIONS:
        yield Refusal(f"live with a session of kind {kind}", LIVE, {**good, "s": data}, 2, f"refused session {line} {kind}\n")
    for data, kind in FAULTY_INPUTS:
        yield Refusal(f"live with an input of kind {kind}", LIVE, {**good, "in.wav": data}, 3, f"refused wav {kind}\n")
    yield Refusal("live without a session", LIVE, {"in.wav": MONO, **THERE}, 6, "failed read session\n")
    yield Refusal("live without an input", LIVE, {"s": session(), **THERE}, 6, "failed read input\n")
    yield Refusal("live without a preset", LIVE, {**good, "s": session([*GAIN, "preset a p"])}, 6, "failed read preset\n")
    yield Refusal("live with a bad preset", LIVE, {**good, "s": session([*GAIN, "preset a p"]), "p": b""}, 4, "refused preset 0 1\n")
    yield Refusal("live without a preset and an input", LIVE, {"s": PRESET, **THERE}, 6, "failed read preset\n")
    yield Refusal("live with a bad session and a bad input", LIVE, {"s": CYCLE, "in.wav": b"", **THERE}, 2, "refused session 7 19\n")


def unwritten():
    """Outputs that can't be made or grown: the journal is made last."""
    no_output = "failed write output\n"
    good = {**GOOD, **THERE}
    yield Refusal("no folder for the output of live", ["live", "s", "in.wav", "none/out.wav", "j"], good, 7, no_output)
    yield Refusal("a folder as output of live", ["live", "s", "in.wav", ".", "j"], good, 7, no_output)
    yield Refusal("no folder for both outputs", ["live", "s", "in.wav", "none/out.wav", "none/j"], good, 7, no_output)
    yield Refusal("no folder for the journal", [*LIVE[:4], "none/j"], good, 7, "failed write journal\n", {"out.wav": MONO})
    yield Refusal("a folder as journal of live", [*LIVE[:4], "."], good, 7, "failed write journal\n", {"out.wav": MONO})
    bad = {"s": session(), "in.wav": EIGHT_BITS, **THERE}
    yield Refusal("a bad input and no folder for the journal", [*LIVE[:4], "none/j"], bad, 3, "refused wav 4\n")
    if CAN_BE_FULL:
        yield Refusal("a full output of live", ["live", "s", "in.wav", "/dev/full", "j"], good, 7, no_output)
        yield Refusal("a full journal", [*LIVE[:4], "/dev/full"], good, 7, "failed write journal\n", {"out.wav": MONO})


def unsaid():
    yield Refusal("a live report that can't be said", LIVE, GOOD, 7, "", BOTH)
    yield Refusal("a bad session of live, unsaid", LIVE, {"s": b"", "in.wav": MONO, **THERE}, 2, "")
    yield Refusal("no folder for the journal, unsaid", [*LIVE[:4], "none/j"], GOOD, 7, "", {"out.wav": MONO})


def check_short_disk(tally, work):
    """Files that can't grow further than so many bytes, where there are no frames and so one journal alone can be made."""
    words = ["begin a 0", "perform a 0 4194304", "end a 0", "perform a 0 1"]
    files = {"s": session([*GAIN, "editor 0", *words], 0), "in.wav": MONO}
    out, kept = sound([]), journal("0 0 0 begin a 0", "0 0 1 perform a 0 4194304", "0 0 2 end a 0")
    report = "vsthost report 1\nframes 0\npieces 0\nparam a 0 4194304 0.2500\nparam a 1 0 Off\neditor 0 accepted 3 refused 1\nclose\n"
    for size in range(len(kept) + 1):
        folder = folder_with(work, files)
        if size < len(out):
            wanted = (7, "failed write output\n"), {"out.wav": out[:size]}
        elif size < len(kept):
            wanted = (7, "failed write journal\n"), {"out.wav": out, "j": kept[:size]}
        else:
            wanted = (0, report), {"out.wav": out, "j": kept}
        tally.expect(f"live with room for {size} bytes", run(folder, LIVE, **limited(resource.RLIMIT_FSIZE, size)), wanted[0])
        tally.expect(f"live with room for {size} bytes, files", contents(folder), {**files, **wanted[1]})


def main():
    tally = Tally()
    with tempfile.TemporaryDirectory() as work:
        for row in ROWS:
            check_reader(tally, row)
            for _ in range(RUNS):
                check_row(tally, work, row, {0, 3})
            check_row(tally, work, row, {0}, length=0)
        for rows in [refusals(), unwritten()]:
            for row in rows:
                check_refusal(tally, work, row)
        for row in unsaid() if CAN_BE_FULL else []:
            check_unsaid(tally, work, row)
        check_short_disk(tally, work)
    return tally.close("lives")


if __name__ == "__main__":
    sys.exit(main())
