"""Each status at each place where it can come, over real files: what the built program says, how it ends, and what every file
holds afterwards. Rows of several faults have the one that is told first."""
import os
import pathlib
import resource
import sys
import tempfile
from collections import namedtuple

import host_reference
from made import GAIN, MONO, STEREO, session, text
from program import run
from tally import Tally

CAN_BE_FULL = pathlib.Path("/dev/full").exists()
Row = namedtuple("Row", "name words files status said changed", defaults=[{}])

RENDER = ["render", "s", "in.wav", "out.wav"]
GOOD = {"s": session(), "in.wav": MONO}
REPORT = "vsthost report 1\nframes 3\npieces 1\nparam a 0 8388608 0.5000\nparam a 1 0 Off\nclose\n"
HEAD = "vsthost session 1\nlength 8\nchannels 1\nbits 16\npattern 37 64\n"
VERSE = b"vsthost session 1\n# a verse\nlength   008\r\nchannels 1\nbits 16\npattern 37 64\nwire in out"
CANONICAL = f"{HEAD}wire in out\n"
MOST = 33_554_432  # bytes of a session
TOO_LONG = b"#" * (MOST + 1)
CYCLE = session(["node a gain", "node b gain", "node c gain", "wire a b", "wire b c", "wire c b"])
PRESET = session([*GAIN, "node b gain", "# a comment", "preset b nosuch.vstpreset", "preset a c"])
SHORT_STEREO = STEREO[:-1]
EIGHT_BITS = MONO[:34] + b"\x08" + MONO[35:]
USAGE = [
    [],
    [""],
    ["--help"],
    ["--version"],
    ["Check", "s"],
    ["check"],
    ["check", "s", "block=1"],
    ["check", "s", "in.wav", "out.wav"],
    ["render"],
    ["render", "s"],
    ["render", "s", "in.wav"],
    [*RENDER, "out.wav"],
    [*RENDER, "block=1", "block=1"],
    ["render", "block=1", *RENDER[1:]],
    ["live"],
    ["live", *RENDER[1:]],
    ["live", *RENDER[1:], "j", "k"],
    ["live", *RENDER[1:], "j", "block=1", "block=1"],
    ["Live", *RENDER[1:], "j"],
    ["--help", "live"],
    ["preset-show"],
    ["preset-show", "p", "out"],
    ["preset-show", "p", "block=1"],
    ["preset-save", "s", "a"],
    ["preset-save", "s", "a", "out", "out"],
    ["preset-save", "s", "a", "out", "block=1"],
    ["preset_save", "s", "a", "out"],
    ["gen"],
    ["gen", ""],
    ["gen", "-1"],
    ["gen", "0x7"],
    ["gen", "4294967296"],
    ["gen", "00000000007"],
    ["gen", "7", "7"],
    ["gen", "7", "block=1"],
    ["Gen", "7"],
    [b"render", b"\xff", b"in.wav", b"out.wav"],
]
BLOCKS = ["", "0", "8193", "4294967297", "00000000001", "-1", "+1", "1 ", " 1", "x", "1.0", "\u0661"]
FAULTY_SESSIONS = [  # a session's text, its line and its kind
    (b"", 1, 1),
    (b"vsthost session 2\n", 1, 1),
    (session(["wire in \tout"]), 6, 2),
    (session(["nodes"]), 6, 3),
    (session(GAIN, length=16777217), 2, 4),
    (session(["node in gain"]), 6, 5),
    (session(["node a"]), 6, 6),
    (session(["node a gain b"]), 6, 7),
    (session([*GAIN, "length 3"]), 9, 8),
    (session([*GAIN, "node a gain"]), 9, 9),
    (session(["node a gain", "wire out a"]), 7, 10),
    (session(["node a nosuch"]), 6, 11),
    (session([*GAIN, "param a 2 0"]), 9, 12),
    (session(["node a meter", "param a 0 0"]), 7, 13),
    (session([*GAIN, "wire in a"]), 9, 14),
    (session([*GAIN, "point 4 0"]), 9, 15),
    (session([*GAIN, "editor 1"]), 9, 16),
    (session([f"node n{at} gain" for at in range(65)]), 70, 17),
    (text(HEAD.splitlines()[:4]), 5, 18),
    (CYCLE, 7, 19),
    (TOO_LONG, 0, 20),
]
FAULTY_INPUTS = [(b"", 1), (MONO[:12], 2), (MONO[:16] + b"\x0f" + MONO[17:], 3), (EIGHT_BITS, 4), (MONO[:36], 5), (MONO[:-1], 6), (STEREO, 7)]


def usage_rows():
    for words in USAGE:
        yield Row(f"words {words}", words, GOOD, 1, "refused usage\n")
    for size in BLOCKS:
        yield Row(f"block={size}", [*RENDER, f"block={size}"], GOOD, 1, "refused usage\n")


def check_rows():
    """Rows of `check`."""
    rows = [
        ("a verse", VERSE, 0, CANONICAL),
        ("a canonical text", CANONICAL.encode(), 0, CANONICAL),
        ("presets, which aren't read", session([*GAIN, "preset a nosuch"]), 0, session([*GAIN[:1], "preset a nosuch", *GAIN[1:]]).decode()),
        ("one byte more than the limit", TOO_LONG, 2, "refused session 0 20\n"),
        ("as many bytes as the limit", CANONICAL.encode() + b"\n" * (MOST - len(CANONICAL)), 0, CANONICAL),
    ]
    for name, data, status, said in rows:
        yield Row(f"check of {name}", ["check", "s"], {"s": data}, status, said)
    yield Row("check of no file", ["check", "s"], {}, 6, "failed read session\n")
    yield Row("check of a folder", ["check", "."], {}, 6, "failed read session\n")


def render_rows():
    yield Row("all is good", RENDER, GOOD, 0, REPORT, {"out.wav": MONO})
    yield Row("an output that is there", RENDER, {**GOOD, "out.wav": b"x" * 99}, 0, REPORT, {"out.wav": MONO})
    yield Row("an output named as a size", ["render", "s", "in.wav", "block=1"], GOOD, 0, REPORT, {"block=1": MONO})
    yield Row("the smallest blocks", [*RENDER, "block=1"], GOOD, 0, REPORT.replace("pieces 1", "pieces 3"), {"out.wav": MONO})
    yield Row("a size of ten digits", [*RENDER, "block=0000008192"], GOOD, 0, REPORT, {"out.wav": MONO})
    yield Row("the session as output", ["render", "s", "in.wav", "s"], GOOD, 0, REPORT, {"s": MONO})
    yield Row("the input as output", ["render", "s", "in.wav", "in.wav"], GOOD, 0, REPORT, {"in.wav": MONO})
    for data, line, kind in FAULTY_SESSIONS:
        yield Row(f"a session of kind {kind}", RENDER, {**GOOD, "s": data}, 2, f"refused session {line} {kind}\n")
    for data, kind in FAULTY_INPUTS:
        yield Row(f"an input of kind {kind}", RENDER, {**GOOD, "in.wav": data}, 3, f"refused wav {kind}\n")
    yield Row("one channel where there are two", RENDER, {"s": session(channels=2), "in.wav": MONO}, 3, "refused wav 7\n")
    yield Row("no session", RENDER, {"in.wav": MONO}, 6, "failed read session\n")
    yield Row("no input", RENDER, {"s": session()}, 6, "failed read input\n")
    yield Row("a folder as session", ["render", ".", "in.wav", "out.wav"], GOOD, 6, "failed read session\n")
    yield Row("a folder as input", ["render", "s", ".", "out.wav"], GOOD, 6, "failed read input\n")
    yield Row("a folder as output", ["render", "s", "in.wav", "."], GOOD, 7, "failed write output\n")
    yield Row("no folder for the output", ["render", "s", "in.wav", "none/out.wav"], GOOD, 7, "failed write output\n")
    if CAN_BE_FULL:
        yield Row("a full output", ["render", "s", "in.wav", "/dev/full"], GOOD, 7, "failed write output\n")


def several_rows():
    """Several faults, of which the first in the order of the steps is told."""
    there = {"out.wav": b"was here"}
    yield Row("wrong words, and nothing is there", ["render", "s", "in.wav", "none/out.wav", "block=0"], there, 1, "refused usage\n")
    yield Row("nothing is there", ["render", "s", "in.wav", "none/out.wav"], there, 6, "failed read session\n")
    yield Row("a bad session, and no input", ["render", "s", "in.wav", "none/out.wav"], {"s": b"", **there}, 2, "refused session 1 1\n")
    yield Row("too long a session, and no input", RENDER, {"s": TOO_LONG, **there}, 2, "refused session 0 20\n")
    yield Row("a bad session and a bad input", RENDER, {"s": CYCLE, "in.wav": b"", **there}, 2, "refused session 7 19\n")
    yield Row("a preset and a cycle", RENDER, {"s": CYCLE + b"preset a b\n", "in.wav": MONO, **there}, 2, "refused session 7 19\n")
    yield Row("a preset and a bad line", RENDER, {"s": PRESET.replace(b"preset a c", b"preset c a"), "in.wav": MONO, **there}, 2, "refused session 12 10\n")
    yield Row("no preset and no input", RENDER, {"s": PRESET, **there}, 6, "failed read preset\n")
    yield Row("a bad input and no folder", ["render", "s", "in.wav", "none/out.wav"], {"s": session(), "in.wav": EIGHT_BITS, **there}, 3, "refused wav 4\n")
    yield Row("too many channels in a short file", RENDER, {"s": session(), "in.wav": SHORT_STEREO, **there}, 3, "refused wav 6\n")
    yield Row("no input and no folder", ["render", "s", "in.wav", "none/out.wav"], {"s": session(), **there}, 6, "failed read input\n")


def contents(folder):
    return {path.name: path.read_bytes() for path in folder.iterdir() if path.is_file()}


def folder_with(work, files):
    """A folder with these files; the zeros at a file's end take no room."""
    folder = pathlib.Path(tempfile.mkdtemp(dir=work))
    for name, data in files.items():
        (folder / name).write_bytes(data.rstrip(b"\0"))
        os.truncate(folder / name, len(data))
    return folder


def check_row(tally, work, row):
    folder = folder_with(work, row.files)
    tally.expect(row.name, run(folder, row.words), (row.status, row.said))
    tally.expect(f"{row.name}, files", contents(folder), {**row.files, **row.changed})
    if row.status != 7 and all(isinstance(word, str) for word in row.words):
        tally.expect(f"{row.name}, by the second renderer", host_reference.answer(row.words, row.files), (row.status, row.said, row.changed))


def unsaid_rows():
    """What can't be said: of a refusal the status stays, and what was rendered is whole."""
    return [
        Row("a report that can't be said", RENDER, GOOD, 7, "", {"out.wav": MONO}),
        Row("a text that can't be said", ["check", "s"], GOOD, 7, ""),
        Row("a summary that can't be said", ["gen", "1"], GOOD, 7, ""),
        Row("no words, unsaid", [], GOOD, 1, ""),
        Row("a bad session, unsaid", RENDER, {"s": b"", "in.wav": MONO}, 2, ""),
        Row("a bad input, unsaid", RENDER, {"s": session(), "in.wav": b""}, 3, ""),
        Row("no session, unsaid", RENDER, {}, 6, ""),
        Row("no folder, unsaid", ["render", "s", "in.wav", "none/out.wav"], GOOD, 7, ""),
    ]


def check_unsaid(tally, work, row):
    folder = folder_with(work, row.files)
    with open("/dev/full", "wb") as full:
        tally.expect(row.name, run(folder, row.words, full)[0], row.status)
    tally.expect(f"{row.name}, files", contents(folder), {**row.files, **row.changed})


def limited(kind, size):
    """What a run is begun with, so that it finds no more than this."""
    return {"preexec_fn": lambda: resource.setrlimit(kind, (size, size)), "restore_signals": False}


def check_short_disk(tally, work):
    """Outputs that can't grow further than so many bytes: what is written is a front part."""
    for words in [RENDER, [*RENDER, "block=1"]]:
        for size in [*range(len(MONO)), len(MONO)]:
            folder = folder_with(work, GOOD)
            whole = size == len(MONO)
            report = REPORT.replace("pieces 1", "pieces 3") if len(words) == 5 else REPORT
            ran = run(folder, words, **limited(resource.RLIMIT_FSIZE, size))
            tally.expect(f"room for {size} bytes {words[4:]}", ran, (0, report) if whole else (7, "failed write output\n"))
            tally.expect(f"room for {size} bytes {words[4:]}, files", contents(folder), {**GOOD, "out.wav": MONO[:size]})


def check_short_memory(tally, work):
    """Where a small session has room enough, a large one has none: nothing is said, and no file is changed."""
    large = session() + b"\n" * (MOST - len(session()))
    little = limited(resource.RLIMIT_AS, 24 << 20)
    folder = folder_with(work, GOOD)
    if run(folder, RENDER, **little) != (0, REPORT):
        print("checks: no little memory can be given here, and what comes of it is skipped")
        return
    for words in [RENDER, ["check", "s"], ["live", *RENDER[1:], "j"]]:
        files = {"s": large, "in.wav": MONO, "out.wav": b"was here"}
        folder = folder_with(work, files)
        tally.expect(f"{words[0]} in little memory", run(folder, words, **little), (8, ""))
        tally.expect(f"{words[0]} in little memory, files", contents(folder), files)


def main():
    tally = Tally()
    with tempfile.TemporaryDirectory() as work:
        for rows in [usage_rows(), check_rows(), render_rows(), several_rows()]:
            for row in rows:
                check_row(tally, work, row)
        for row in unsaid_rows() if CAN_BE_FULL else []:
            check_unsaid(tally, work, row)
        check_short_disk(tally, work)
        check_short_memory(tally, work)
    return tally.close("statuses")


if __name__ == "__main__":
    sys.exit(main())
