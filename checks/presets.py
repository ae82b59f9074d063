"""Presets that are shown, loaded and saved, with what comes written out here by hand, and each of their refusals at each place
where it can come: of the built program over real files, and of the second renderer. Random presets, the same in each run, are
shown, and those of random sessions' nodes are saved, loaded and saved again."""
import resource
import struct
import sys
import tempfile

import host_reference
from classes_reference import HALF, ONE, PARAMETERS
from made import GAIN, GAIN_CLASS, GAIN_STATE, HOST, MONO, PRESET_HEAD, SHUT_STATE, TWO_STATES, journal, session
from preset_reference import MOST_BYTES
from program import run
from random_presets import preset as random_preset
from random_renderings import PICK, add_presets, drawn
from statuses import CAN_BE_FULL, CYCLE, EIGHT_BITS, RENDER, REPORT, Row, check_row, check_unsaid, contents, folder_with, limited
from tally import Tally

SHOWS, SAVES = 300, 200  # random ones
REPLAY = ["replay", "s", "in.wav", "out.wav", "j"]
SHOW = ["preset-show", "p"]
SAVE = ["preset-save", "s", "a", "out"]
QUIET = bytes.fromhex("01000000 01000000")  # a controller's state: its values are told without texts

# for a gain, without a chunk
EMPTY = PRESET_HEAD + GAIN_CLASS + bytes.fromhex("3000000000000000 4C697374 00000000")
# what is saved of a gain at its defaults
SAVED = b"".join(
    [
        PRESET_HEAD + GAIN_CLASS + bytes.fromhex("4C00000000000000"),
        GAIN_STATE + bytes.fromhex("01000000 00000000"),
        bytes.fromhex("4C697374 02000000 436F6D70 3000000000000000 1400000000000000 436F6E74 4400000000000000 0800000000000000"),
    ]
)
SHOWN = "vsthost preset 1\nclass 56485354434F4D500000000000000001\nversion 1\n"
SAVED_SHOWN = SHOWN + "chunk 436F6D70 48 20\nchunk 436F6E74 68 8\nclose\n"
HOST_SHOWN = "vsthost preset 1\nclass 0123456789ABCDEF0123456789ABCDEF\nversion 1\nchunk 436F6D70 48 4\nchunk 436F6E74 52 2\nchunk 496E666F 54 5\nclose\n"


def preset(*chunks, kind=1, version=1, digits=None):
    """A preset of a class with these chunks, one after the other, each an id and its bytes."""
    body = b"".join(data for _, data in chunks)
    places = [48 + sum(len(data) for _, data in chunks[:at]) for at in range(len(chunks))]
    entries = b"".join(struct.pack("<4sQQ", name, place, len(data)) for (name, data), place in zip(chunks, places))
    digits = digits or b"56485354434F4D50%016X" % kind
    return struct.pack("<4sI32sQ", b"VST3", version, digits, 48 + len(body)) + body + struct.pack("<4sI", b"List", len(chunks)) + entries


def state(*numbers):
    return b"Comp", struct.pack(f"<{len(numbers)}I", *numbers)


def with_preset(*lines, nodes=("gain",)):
    """A session of these nodes in a row, each with a preset that has its name, and further lines."""
    names = "abc"[: len(nodes)]
    wires = [f"wire {source} {target}" for source, target in zip(["in", *names], [*names, "out"])]
    return session([f"node {name} {kind}" for name, kind in zip(names, nodes)] + wires + [f"preset {name} {name}" for name in names] + list(lines))


def report(*parameters, pieces=1):
    return "".join(line + "\n" for line in ["vsthost report 1", "frames 3", f"pieces {pieces}", *parameters, "close"])


ONE_GAIN = with_preset()
TWO_GAINS = with_preset(nodes=("gain", "gain"))
GOOD = {"s": ONE_GAIN, "in.wav": MONO, "a": SAVED}
LONGEST = SAVED + bytes(MOST_BYTES - len(SAVED))
TOO_LONG = bytes(MOST_BYTES + 1)
OTHER = preset((b"Comp", GAIN_STATE), kind=2)
FAULTY = [  # a preset, and the number of its fault
    (b"", 1),
    (EMPTY[:47], 1),
    (b"W" + SAVED[1:], 2),
    (preset((b"Comp", GAIN_STATE), version=0), 3),
    (preset((b"Comp", GAIN_STATE), version=2**31), 3),
    (preset((b"Comp", GAIN_STATE), digits=GAIN_CLASS[:-1] + b"g"), 4),
    (EMPTY[:55], 5),
    (EMPTY[:40] + b"\x2f" + EMPTY[41:], 5),
    (EMPTY[:40] + 8 * b"\xff" + EMPTY[48:], 5),
    (EMPTY[:48] + b"list" + EMPTY[52:], 6),
    (EMPTY[:52] + b"\1\0\0\0", 7),
    (EMPTY[:52] + 4 * b"\xff", 7),
    (preset(*129 * [(b"Some", b"")]), 7),
    (TWO_STATES[:100] + 8 * b"\xff" + TWO_STATES[108:], 8),
    (TOO_LONG, 12),
]
UNLOADED = [  # a preset that can be shown but not loaded for a gain, and the number of its fault
    (HOST, 9),
    (OTHER, 9),
    (preset(kind=9), 9),
    (EMPTY, 10),
    (preset((b"comp", GAIN_STATE), (b"Cont", QUIET)), 10),
    (preset((b"Comp", b"")), 11),
    (preset((b"Comp", GAIN_STATE[:-1])), 11),
    (preset((b"Comp", GAIN_STATE[:-8])), 11),
    (preset((b"Comp", GAIN_STATE + b"\0")), 11),
    (preset((b"Comp", b""), (b"Comp", GAIN_STATE)), 11),
    (preset(state(2, 0, HALF, 1, 0)), 11),
    (preset(state(1, 1, 0, 0, HALF)), 11),
    (preset(state(1, 0, HALF, 0, HALF)), 11),
    (preset(state(1, 0, HALF, 2, 0)), 11),
    (preset(state(1, 0, ONE + 1, 1, 0)), 11),
    (preset(state(1, 0, HALF, 1, 2**32 - 1)), 11),
]
MODES = [  # what the controller's chunks are, and whether values are told without texts
    ([], False),
    ([(b"Cont", bytes.fromhex("01000000 00000000"))], False),
    ([(b"Cont", QUIET)], True),
    ([(b"Cont", QUIET), (b"Cont", b"")], True),
    ([(b"Cont", b""), (b"Cont", QUIET)], False),
    ([(b"cont", QUIET)], False),
    ([(b"Cont", QUIET[:-1])], False),
    ([(b"Cont", QUIET + b"\0")], False),
    ([(b"Cont", bytes.fromhex("02000000 01000000"))], False),
    ([(b"Cont", bytes.fromhex("01000000 02000000"))], False),
]


def show_rows():
    yield Row("no chunk is shown", SHOW, {"p": EMPTY}, 0, SHOWN + "close\n")
    yield Row("another host's preset is shown", SHOW, {"p": HOST}, 0, HOST_SHOWN)
    yield Row("two states are shown, in lower-case digits", SHOW, {"p": TWO_STATES}, 0, SHOWN + "chunk 436F6D70 48 20\nchunk 436F6D70 68 20\nclose\n")
    yield Row("a saved preset is shown", SHOW, {"p": SAVED}, 0, SAVED_SHOWN)
    yield Row("as many bytes as may be are shown", SHOW, {"p": LONGEST}, 0, SAVED_SHOWN)
    most = preset((b"\0\1\xfe\xff", b"x"), version=2**31 - 1, digits=b"f" * 32)
    yield Row("an unknown id is shown", SHOW, {"p": most}, 0, f"vsthost preset 1\nclass {32 * 'F'}\nversion 2147483647\nchunk 0001FEFF 48 1\nclose\n")
    for data, kind in FAULTY:
        yield Row(f"a preset of {len(data)} bytes and kind {kind} is shown", SHOW, {"p": data}, 4, f"refused preset - {kind}\n")
    yield Row("no preset is shown", SHOW, {}, 6, "failed read preset\n")
    yield Row("a folder as preset", ["preset-show", "."], {}, 6, "failed read preset\n")


def load_rows():
    done = {"out.wav": MONO}
    yield Row("a preset is loaded", RENDER, GOOD, 0, REPORT, done)
    yield Row("the first of two states is loaded", RENDER, {**GOOD, "a": TWO_STATES}, 0, REPORT, done)
    yield Row("as many bytes as may be are loaded", RENDER, {**GOOD, "a": LONGEST}, 0, REPORT, done)
    yield Row("a preset is loaded in a replay", [*REPLAY, "block=1"], {**GOOD, "j": journal()}, 0, REPORT.replace("pieces 1", "pieces 3"), done)
    silence = MONO[:44] + bytes(6)
    shut = {**GOOD, "a": preset((b"Comp", SHUT_STATE))}
    yield Row("a preset's values are heard", RENDER, shut, 0, report("param a 0 0 0.0000", "param a 1 0 Off"), {"out.wav": silence})
    over = {**shut, "s": with_preset("param a 0 8388608")}
    yield Row("a param line goes over the preset", RENDER, over, 0, REPORT, done)
    one_over = {**GOOD, "a": preset(state(1, 0, 0, 1, ONE)), "s": with_preset("param a 0 4194304")}
    yield Row("a param line goes over one value", RENDER, one_over, 0, report("param a 0 4194304 0.2500", "param a 1 16777216 On"), done)
    half = {**GOOD, "a": preset(state(1, 0, HALF, 1, HALF))}
    yield Row("a preset's values are quantised", RENDER, half, 0, report("param a 0 8388608 0.5000", "param a 1 16777216 On"), done)
    laned = {**shut, "s": with_preset("lane a 0 0 0 8388608")}
    yield Row("a lane goes over the preset", RENDER, laned, 0, REPORT, done)
    for chunks, quiet in MODES:
        files = {**GOOD, "a": preset((b"Comp", GAIN_STATE), *chunks)}
        said = report("param a 0 8388608", "param a 1 0") if quiet else REPORT
        yield Row(f"a controller's state {chunks}", RENDER, files, 0, said, done)
    two = {"s": with_preset(nodes=("gain", "meter")), "in.wav": MONO, "a": SAVED, "b": preset((b"Cont", QUIET), state(1), kind=7)}
    said = report("param a 0 8388608 0.5000", "param a 1 0 Off", "param b 0 512000", "param b 1 0")
    yield Row("one node's texts are left out", RENDER, two, 0, said, done)
    shared = {**GOOD, "s": TWO_GAINS.replace(b"preset b b", b"preset b a")}
    said = report(*[f"param {name} {rest}" for name in "ab" for rest in ("0 8388608 0.5000", "1 0 Off")])
    yield Row("one file for two nodes", RENDER, shared, 0, said, done)
    yield Row("the preset as output", [*RENDER[:3], "a"], GOOD, 0, REPORT, {"a": MONO})
    for data, kind in FAULTY + UNLOADED:
        yield Row(f"a preset of {len(data)} bytes and kind {kind} is loaded", RENDER, {**GOOD, "a": data}, 4, f"refused preset 0 {kind}\n")
        yield Row(f"a preset of {len(data)} bytes and kind {kind} for node 1", RENDER, {**GOOD, "s": TWO_GAINS, "b": data}, 4, f"refused preset 1 {kind}\n")
    meter = {**two, "b": preset((b"Comp", GAIN_STATE), kind=7)}
    yield Row("a gain's state for a meter", RENDER, meter, 4, "refused preset 1 11\n")
    yield Row("no preset", RENDER, {"s": ONE_GAIN, "in.wav": MONO}, 6, "failed read preset\n")
    yield Row("a folder for a preset", RENDER, {**GOOD, "s": ONE_GAIN.replace(b"preset a a", b"preset a .")}, 6, "failed read preset\n")
    yield Row("presets aren't read by check", ["check", "s"], {"s": session([*GAIN[:1], "preset a nosuch", *GAIN[1:]])}, 0, session([*GAIN[:1], "preset a nosuch", *GAIN[1:]]).decode())


def save_rows():
    yield Row("defaults are saved", SAVE, {"s": session()}, 0, "", {"out": SAVED})
    yield Row("what was loaded is saved", SAVE, {"s": ONE_GAIN, "a": TWO_STATES}, 0, "", {"out": SAVED})
    yield Row("an output that is there", SAVE, {"s": session(), "out": bytes(range(256))}, 0, "", {"out": SAVED})
    half = preset((b"Comp", GAIN_STATE), (b"Cont", QUIET), (b"Prog", b"x"), (b"Info", b"y"))
    yield Row("a controller's state is saved, and no other chunk", SAVE, {"s": ONE_GAIN, "a": half}, 0, "", {"out": preset((b"Comp", GAIN_STATE), (b"Cont", QUIET))})
    shut = preset((b"Comp", SHUT_STATE), (b"Cont", bytes(8)))
    yield Row("first values are saved, over the preset", SAVE, {"s": with_preset("param a 0 8388608"), "a": shut}, 0, "", {"out": SAVED})
    yield Row("no lane is saved", SAVE, {"s": session([*GAIN, "lane a 0 0 0 4194304"])}, 0, "", {"out": SAVED})
    quantised = preset(state(1, 0, HALF, 1, ONE), (b"Cont", bytes.fromhex("01000000 00000000")))
    yield Row("quantised values are saved", SAVE, {"s": session([*GAIN, "param a 1 8388608"])}, 0, "", {"out": quantised})
    meter = preset(state(1), (b"Cont", bytes.fromhex("01000000 00000000")), kind=7)
    yield Row("a meter is saved", SAVE, {"s": session(["node a meter"], length=0)}, 0, "", {"out": meter})
    yield Row("the session as output", [*SAVE[:3], "s"], {"s": session()}, 0, "", {"s": SAVED})
    yield Row("the preset as output of preset-save", [*SAVE[:3], "a"], {"s": ONE_GAIN, "a": TWO_STATES}, 0, "", {"a": SAVED})
    for name in ["nobody", "in", "out", "", "0", "A", "a ", "a" * 300]:
        yield Row(f"preset-save of {name}", ["preset-save", "s", name, "out"], {"s": session()}, 4, "refused preset - 13\n")
    yield Row("preset-save of no session", SAVE, {}, 6, "failed read session\n")
    yield Row("preset-save of a bad session", SAVE, {"s": CYCLE}, 2, "refused session 7 19\n")
    yield Row("preset-save of no preset", SAVE, {"s": ONE_GAIN}, 6, "failed read preset\n")
    yield Row("a folder as output of preset-save", [*SAVE[:3], "."], {"s": session()}, 7, "failed write output\n")
    yield Row("no folder for the output of preset-save", [*SAVE[:3], "none/out"], {"s": session()}, 7, "failed write output\n")
    if CAN_BE_FULL:
        yield Row("a full output of preset-save", [*SAVE[:3], "/dev/full"], {"s": session()}, 7, "failed write output\n")


NONE = object()  # no file
BOTH = [  # the presets of the nodes 0 and 1, and what is told
    (SAVED, NONE, "failed read preset"),
    (OTHER, NONE, "failed read preset"),
    (EMPTY[:47], NONE, "refused preset 0 1"),
    (NONE, EMPTY[:47], "failed read preset"),
    (NONE, TOO_LONG, "failed read preset"),
    (TOO_LONG, NONE, "refused preset 0 12"),
    (EMPTY[:55], TOO_LONG, "refused preset 0 5"),
    (TOO_LONG, EMPTY[:55], "refused preset 0 12"),
    (OTHER, TOO_LONG, "refused preset 1 12"),
    (EMPTY[:47], b"W" + SAVED[1:], "refused preset 0 1"),
    (b"W" + SAVED[1:], EMPTY[:47], "refused preset 0 2"),
    (OTHER, EMPTY[:47], "refused preset 1 1"),
    (EMPTY[:47], OTHER, "refused preset 0 1"),
    (preset((b"Comp", b"")), EMPTY[:55], "refused preset 1 5"),
    (EMPTY, TWO_STATES[:-4], "refused preset 1 7"),
    (OTHER, EMPTY, "refused preset 0 9"),
    (EMPTY, OTHER, "refused preset 0 10"),
    (preset((b"Comp", b"")), OTHER, "refused preset 0 11"),
    (OTHER, preset((b"Comp", b"")), "refused preset 0 9"),
    (EMPTY, preset((b"Comp", b"")), "refused preset 0 10"),
    (preset((b"Comp", b"")), EMPTY, "refused preset 0 11"),
    (SAVED, EMPTY, "refused preset 1 10"),
    (preset(kind=2), SAVED, "refused preset 0 9"),
]


def several_rows():
    """Several faults, of which the first in the order of the steps is told."""
    for first, second, said in BOTH:
        files = {name: data for name, data in zip("ab", (first, second)) if data is not NONE}
        status = 6 if said.startswith("failed") else 4
        lengths = [0 if data is NONE else len(data) for data in (first, second)]
        swapped = session(["node a gain", "node b gain", "preset b b", "preset a a"])
        for words in [RENDER, SAVE, ["preset-save", "s", "nobody", "none/out"]]:
            yield Row(f"two presets of {lengths} bytes, {said}, {words[0]}", words, {"s": TWO_GAINS, **files}, status, f"{said}\n")
        yield Row(f"two presets in turned lines, {said}", RENDER, {"s": swapped, "in.wav": b"", **files}, status, f"{said}\n")
    there = {"out.wav": b"was here"}
    bad = {"s": ONE_GAIN, "a": EMPTY, **there}
    yield Row("a bad session and a bad preset", RENDER, {"s": ONE_GAIN + b"nodes\n", "a": EMPTY}, 2, "refused session 10 3\n")
    yield Row("a bad preset and no input", RENDER, bad, 4, "refused preset 0 10\n")
    yield Row("a bad preset and a bad input", RENDER, {**bad, "in.wav": EIGHT_BITS}, 4, "refused preset 0 10\n")
    yield Row("no preset and a bad input", RENDER, {"s": ONE_GAIN, "in.wav": EIGHT_BITS, **there}, 6, "failed read preset\n")
    yield Row("a bad preset and a bad journal", REPLAY, {**bad, "in.wav": MONO, "j": b""}, 4, "refused preset 0 10\n")
    yield Row("a preset and a bad input", RENDER, {**GOOD, "in.wav": EIGHT_BITS, **there}, 3, "refused wav 4\n")
    yield Row("a preset and no input", RENDER, {"s": ONE_GAIN, "a": SAVED, **there}, 6, "failed read input\n")
    yield Row("a preset and a bad journal", REPLAY, {**GOOD, "j": b"", **there}, 5, "refused journal 1 1\n")
    yield Row("a bad preset and no folder", ["render", "s", "in.wav", "none/out.wav"], {**bad, "in.wav": MONO}, 4, "refused preset 0 10\n")
    yield Row("a preset and no folder", ["render", "s", "in.wav", "none/out.wav"], {**GOOD, **there}, 7, "failed write output\n")
    yield Row("a bad session and nobody", ["preset-save", "s", "nobody", "out"], {"s": CYCLE}, 2, "refused session 7 19\n")
    yield Row("a bad preset and nobody", ["preset-save", "s", "nobody", "out"], bad, 4, "refused preset 0 10\n")
    yield Row("nobody and no folder", ["preset-save", "s", "nobody", "none/out"], {"s": session()}, 4, "refused preset - 13\n")


def unsaid_rows():
    return [
        Row("a preset's listing that can't be said", SHOW, {"p": SAVED}, 7, ""),
        Row("a bad preset, unsaid", SHOW, {"p": EMPTY[:47]}, 4, ""),
        Row("a bad preset of a node, unsaid", RENDER, {**GOOD, "a": EMPTY}, 4, ""),
        Row("no preset, unsaid", RENDER, {"s": ONE_GAIN, "in.wav": MONO}, 6, ""),
        Row("nobody, unsaid", ["preset-save", "s", "nobody", "out"], {"s": session()}, 4, ""),
        Row("preset-save says nothing", SAVE, {"s": session()}, 0, "", {"out": SAVED}),
    ]


def check_short_disk(tally, work):
    """What is saved where the file can't grow further than so many bytes: a front part."""
    for size in range(len(SAVED) + 1):
        folder = folder_with(work, {"s": session()})
        awaited = (0, "") if size == len(SAVED) else (7, "failed write output\n")
        tally.expect(f"a preset with room for {size} bytes", run(folder, SAVE, **limited(resource.RLIMIT_FSIZE, size)), awaited)
        tally.expect(f"a preset with room for {size} bytes, files", contents(folder), {"s": session(), "out": SAVED[:size]})


def check_class(tally, work, kind):
    """That a class's saved preset, loaded without param lines, is saved to the same bytes, in each mode."""
    lines = [f"node a {kind}"]
    values = [f"param a {at} {(at + 1) * 2796203}" for at, parameter in enumerate(PARAMETERS[kind.encode()]) if not parameter.read_only]
    for quiet in [b"\0", b"\1"]:
        files = {"s": session([*lines, *values]), "again": session([*lines, "preset a p"])}
        folder = folder_with(work, files)
        tally.expect(f"a {kind} is saved", run(folder, ["preset-save", "s", "a", "p"]), (0, ""))
        saved = (folder / "p").read_bytes()
        tally.expect(f"a {kind}'s preset", saved, host_reference.answer(["preset-save", "s", "a", "p"], files)[2]["p"])
        at = saved.index(b"List") - 4  # the mode
        saved = saved[:at] + quiet + saved[at + 1 :]
        (folder / "p").write_bytes(saved)
        tally.expect(f"a {kind} is saved again", run(folder, ["preset-save", "again", "a", "q"]), (0, ""))
        tally.expect(f"a {kind}'s preset again", (folder / "q").read_bytes(), saved)
        tally.expect(f"a {kind}'s presets are shown", run(folder, ["preset-show", "q"]), host_reference.answer(["preset-show", "p"], {"p": saved})[:2])


def check_random_shows(tally, work):
    for count in range(SHOWS):
        files = {"p": random_preset()}
        tally.expect(f"random preset {count}", run(folder_with(work, files), SHOW), host_reference.answer(SHOW, files)[:2])


def check_random_saves(tally, work):
    """That random nodes' presets are those of the second renderer, and the same where they are loaded and saved again."""
    saved = 0
    for count in range(SAVES):
        draft = drawn()
        if not draft.presets:
            add_presets(draft, 0.3)
        name, kind = PICK.choice(draft.nodes or [("nobody", "gain")])
        files = {**draft.files(), "again": session([f"node a {kind}", "preset a out"])}
        words = ["preset-save", "s", name, "out"]
        status, said, changed = host_reference.answer(words, files)
        folder = folder_with(work, files)
        tally.expect(f"random node {count}", run(folder, words), (status, said))
        tally.expect(f"random node {count}, files", contents(folder), {**files, **changed})
        if status == 0:
            saved += 1
            tally.expect(f"random node {count} again", run(folder, ["preset-save", "again", "a", "out2"]), (0, ""))
            tally.expect(f"random node {count} again, files", contents(folder).get("out2"), changed["out"])
    tally.expect("random nodes are saved", saved > SAVES // 2, True)


def main():
    tally = Tally()
    tally.expect("sizes", [len(data) for data in (EMPTY, HOST, TWO_STATES, SAVED)], [56, 127, 139, 124])
    with tempfile.TemporaryDirectory() as work:
        for rows in [show_rows(), load_rows(), save_rows(), several_rows()]:
            for row in rows:
                check_row(tally, work, row)
        for row in unsaid_rows() if CAN_BE_FULL else []:
            check_unsaid(tally, work, row)
        check_short_disk(tally, work)
        for kind in PARAMETERS:
            check_class(tally, work, kind.decode())
        check_random_shows(tally, work)
        check_random_saves(tally, work)
    return tally.close("presets")


if __name__ == "__main__":
    sys.exit(main())
