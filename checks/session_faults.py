"""Checks the first fault of sessions, row by row: what the built program says of each, and what session_reference does."""
import pathlib
import sys
import tempfile

from program import run
from session_reference import KINDS, answer
from tally import Tally

SETTINGS = ["vsthost session 1", "length 8", "channels 1", "bits 16", "pattern 64"]
HEAD = SETTINGS + ["node g gain", "node e gate", "node m meter", "node d delay"]
TALLY = Tally()

ONE_FAULT = [
    ("length 8", "Repeated"),
    ("channels 2", "Repeated"),
    ("bits 24", "Repeated"),
    ("pattern 1", "Repeated"),
    ("nodes", "UnknownWord"),
    ("vsthost session 1", "UnknownWord"),
    ("length", "Missing"),
    ("length 1 2", "Extra"),
    ("length x", "BadNumber"),
    ("length 16777217", "BadNumber"),
    ("channels 0", "BadNumber"),
    ("channels 3", "BadNumber"),
    ("bits 17", "BadNumber"),
    ("pattern", "Missing"),
    ("pattern 0", "BadNumber"),
    ("pattern 8193", "BadNumber"),
    ("pattern 1 1 1 1 1 1 1 1 1 1 1 1 1 1 1 1 1", "Extra"),
    ("node a", "Missing"),
    ("node a gain b", "Extra"),
    ("node a nosuch", "UnknownClass"),
    ("node g gain", "DuplicateNode"),
    ("node in gain", "BadName"),
    ("node out gain", "BadName"),
    ("preset nosuch a", "UnknownNode"),
    ("preset g " + 256 * "a", "BadName"),
    ("param g 2 0", "UnknownParam"),
    ("param g x 0", "BadNumber"),
    ("param m 0 0", "ReadOnlyParam"),
    ("param g 0 16777217", "BadNumber"),
    ("wire in", "Missing"),
    ("wire in g aux", "BadWire"),
    ("wire in out aux", "BadWire"),
    ("wire in e main", "BadWire"),
    ("wire out g", "UnknownNode"),
    ("wire g in", "UnknownNode"),
    ("lane m 0 0 0 0", "ReadOnlyParam"),
    ("lane g 0 25 0 0", "BadNumber"),
    ("lane g 0 0 16777217 0", "BadNumber"),
    ("point 0 0", "BadLane"),
    ("editor 1", "BadEditor"),
    ("begin g 0", "BadEditor"),
    ("wait 0", "BadEditor"),
    ("wait", "Missing"),
    ("tell g 1 2 3 4 5", "Extra"),
    ("length \t8", "BadByte"),
    ("\t", "BadByte"),
]
TWO_FAULTS = [
    ("nodes \t", "BadByte"),
    ("length 1 x 2", "Extra"),
    ("pattern 0 1 1 1 1 1 1 1 1 1 1 1 1 1 1 1 1", "Extra"),
    ("pattern 1 0 x", "BadNumber"),
    ("node In nosuch", "BadName"),
    ("node g nosuch", "UnknownClass"),
    ("param nosuch x y", "UnknownNode"),
    ("param g x y", "BadNumber"),
    ("param g 2 y", "UnknownParam"),
    ("param m 0 y", "ReadOnlyParam"),
    ("wire nosuch in aux", "UnknownNode"),
    ("wire in nosuch main", "UnknownNode"),
    ("lane nosuch 0 25 0 0", "UnknownNode"),
    ("lane g 2 25 0 0", "UnknownParam"),
    ("lane m 0 25 0 0", "ReadOnlyParam"),
    ("lane g 0 25 x 0", "BadNumber"),
    ("point x 0", "BadNumber"),
    ("editor x", "BadNumber"),
    ("begin nosuch x", "UnknownNode"),
    ("begin g x", "BadNumber"),
    ("begin g 99", "BadEditor"),
    ("perform g 0 4294967296", "BadNumber"),
    ("tell nosuch x", "UnknownNode"),
    ("tell g x", "BadNumber"),
    ("hold nosuch", "UnknownNode"),
    ("drop g g", "Extra"),
    ("wait x", "BadNumber"),
]
BEHIND_OTHERS = [  # lines, and which line has the fault
    (["preset g a", "preset g b"], 11, "Repeated"),
    (["preset g a", "preset nosuch b"], 11, "UnknownNode"),
    (["param g 0 1", "param g 1 0", "param g 0 x"], 12, "BadNumber"),
    (["param g 0 1", "param g 1 0", "param g 00 1"], 12, "Repeated"),
    (["wire in e", "wire in e aux", "", "# twice", "wire in e"], 14, "BadWire"),
    (["lane g 0 0 0 0", "lane g 0 25 0 0"], 11, "BadNumber"),
    (["lane g 0 0 0 0", "lane e 0 0 0 0", "lane g 0 24 0 0"], 12, "BadLane"),
    (["lane g 0 0 5 0", "  # a comment", "", "point 6 0", "point 6 0"], 14, "BadLane"),
    (["lane g 0 0 5 0", "wire in out", "point 6 0"], 12, "BadLane"),
    (["lane g 0 0 5 0", "point 5 16777217"], 11, "BadNumber"),
    (["editor 0", "editor 0"], 11, "BadEditor"),
    (["editor 0", "begin g 99", "begin nosuch 99"], 12, "UnknownNode"),
    (["wire d g", "wire g e", "wire e g aux", "wire e e"], 12, "BadWire"),
    (["wire d d"], 9, "Cycle"),
    (["wire m e aux", "wire e d", "wire d e"], 7, "Cycle"),
    (["wire g e", "wire e m", "wire m e aux"], 7, "Cycle"),
]
WHOLE_TEXTS = [
    ([], 1, "BadHeader"),
    (["vsthost session 2"], 1, "BadHeader"),
    (["# a verse", "vsthost session 1"], 1, "BadHeader"),
    (["vsthost session 1\t"], 1, "BadHeader"),
    (SETTINGS[:1], 2, "NoLine"),
    (SETTINGS[:2], 3, "NoLine"),
    (SETTINGS[:4], 5, "NoLine"),
    (SETTINGS + ["node a gain", "wire out a"], 7, "UnknownNode"),
    (SETTINGS + ["node a gain", "wire in a", "wire a out", "point 4 0"], 9, "BadLane"),
    (SETTINGS + ["node a gain", "node b gain", "node c gain", "wire a b", "wire b c", "wire c b"], 7, "Cycle"),
]
NODES = [f"node n{number} gain" for number in range(64)]
WIRES = [f"wire n{first} n{last}" for first in range(4) for last in range(first + 1, 60)] + [f"wire in n{last}" for last in range(26)]
LIMITS = [  # lines that stand, and one that is too many
    (NODES, "node m gain", "TooMany"),
    (NODES, "node n1 gain", "DuplicateNode"),
    (NODES + WIRES, "wire n5 out", "TooMany"),
    (NODES + WIRES, "wire in n25", "BadWire"),
    (NODES[:1] + ["lane n0 0 24 0 16777216"] + [f"point {sample} {sample}" for sample in range(1, 4096)], "point 16777216 0", "TooMany"),
    ([f"editor {number}" for number in range(8)], "editor 8", "TooMany"),
    ([f"editor {number}" for number in range(8)], "editor 9", "BadEditor"),
    (NODES[:1] + ["editor 0", "hold n0"] + [f"wait {block}" for block in range(1, 4096)], "wait 4096", "TooMany"),
]


def expect(name, lines, want):
    text = "\n".join(lines).encode()
    (FOLDER / "s").write_bytes(text)
    TALLY.expect(name, run(FOLDER, ["check", "s"]), want)
    TALLY.expect(f"{name}, by the second reader", answer(text), want)


def expect_fault(lines, at, kind):
    expect(lines[-1] if lines else "no line", lines, (2, f"refused session {at} {KINDS.index(kind) + 1}\n"))


with tempfile.TemporaryDirectory() as at:
    FOLDER = pathlib.Path(at)
    for line, kind in ONE_FAULT + TWO_FAULTS:
        expect_fault(HEAD + [line], len(HEAD) + 1, kind)
    for lines, line, kind in BEHIND_OTHERS:
        expect_fault(HEAD + lines, line, kind)
    for lines, line, kind in WHOLE_TEXTS:
        expect_fault(lines, line, kind)
    for lines, further, kind in LIMITS:
        stand = SETTINGS + lines
        expect(f"before {further}", stand, (0, "".join(line + "\n" for line in stand)))
        expect_fault(stand + [further], len(stand) + 1, kind)
sys.exit(TALLY.close("faults of sessions"))
