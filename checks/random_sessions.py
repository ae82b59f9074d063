"""Writes random sessions, the same in each run, and compares what `check` says of each with session_reference."""
import pathlib
import random
import sys
import tempfile

from classes_reference import ONE, PARAMETERS
from program import run
from session_reference import KINDS, MOST_BYTES, Fault, Session, answer
from tally import Tally

SESSIONS = 600
LEAST = 5  # how often each kind of fault has to come
CLASSES = [kind.decode() for kind in PARAMETERS] * 4 + ["gains", "Gain", "in"]
NAMES = ["a", "b", "c", "d_4", "e" * 32]
ODD_WORDS = ["in", "out", "aux", "A", "9a", "_a", "f" * 33, "#", "gain", "-1", "1x", "16777217", "4294967295", "4294967296", "0000000007", "00000000007"]
HEADERS = [b"vsthost session 1"] * 60 + [b"", b"# a", b"vsthost session 2", b"vsthost session 01", b" vsthost  session 1 "]
ENDS = [b"\n"] * 200 + [b"\r\n"] * 8 + [b"\n\n", b"\n # a comment \xff\n"] * 4 + [b"\r\r\n"]
ODD_BYTES = [0, 9, 10, 13, 31, 32, 35, 126, 127, 128, 255]
PICK = random.Random(2026)


def some(most):
    return PICK.choice(["", "", "0", "000"]) + str(PICK.choice([0, 1, most, PICK.randint(0, most)]))


def name():
    return PICK.choice(NAMES)


def numbers(most, least=0):
    return [some(300) for _ in range(PICK.randint(least, most))]


WRITERS = {  # how often, and the words behind the first
    "length": (1, lambda: [some(ONE)]),
    "channels": (1, lambda: [PICK.choice("12")]),
    "bits": (1, lambda: [PICK.choice(["16", "24"])]),
    "pattern": (1, lambda: numbers(17, 1)),
    "node": (8, lambda: [name(), PICK.choice(CLASSES)]),
    "preset": (4, lambda: [name(), PICK.choice(["a.vstpreset", "#", "~" * 255, "~" * 256])]),
    "param": (8, lambda: [name(), some(3), some(ONE)]),
    "wire": (16, lambda: [PICK.choice(["in", name(), name()]), PICK.choice(["out", name(), name()])] + PICK.choice([[], ["aux"]])),
    "lane": (6, lambda: [name(), some(3), some(24), some(50), some(ONE)]),
    "point": (6, lambda: [some(5000), some(ONE)]),
    "editor": (4, lambda: [some(2)]),
    "begin": (3, lambda: [name(), some(9)]),
    "perform": (3, lambda: [name(), some(9), some(2**32 - 1)]),
    "end": (3, lambda: [name(), some(9)]),
    "tell": (3, lambda: [name()] + numbers(5)),
    "hold": (2, lambda: [name()]),
    "drop": (2, lambda: [name()]),
    "wait": (2, lambda: [some(99)]),
}
FREQUENCIES = [often for often, _ in WRITERS.values()]


def line():
    """A line, most often one whose words are right."""
    first = PICK.choices(list(WRITERS), FREQUENCIES)[0]
    words = [first] + WRITERS[first][1]()
    change = PICK.random()
    if change < 0.02:
        words.pop()
    elif change < 0.04:
        words.append(PICK.choice(ODD_WORDS))
    elif change < 0.1:
        words[PICK.randrange(len(words))] = PICK.choice(ODD_WORDS)
    spaces = PICK.choice([" ", " ", " ", "   "])
    return (PICK.choice(["", "", " "]) + spaces.join(words) + PICK.choice(["", "", "  "])).encode()


def fault_of(session, text, at):
    """The kind of fault of a line behind those of a session, or none, and then the session has it."""
    try:
        session.read_line(text, at)
    except Fault as fault:
        return fault.args[0]
    return None


def settings():
    return [b"length %d" % PICK.randrange(99), b"channels 2", b"bits 24", b"pattern 64"]


def lines():
    """Lines of which each may stand behind those before it, but for those of one kind of fault."""
    session = Session()
    stand = settings()
    wanted = PICK.choice([None] * 10 + KINDS[2:17])  # those of one line
    for at, text in enumerate(stand):
        session.read_line(text, at)
    for _ in range(PICK.choice([60, 200] if wanted else [0, 5, 20, 60])):
        text = line()
        if fault_of(session, text, len(stand)) in (None, wanted):
            stand.append(text)
    return stand


def many():
    """Lines up to a limit, or one of them past it."""
    nodes = [b"node n%d gate" % at for at in range(64)]
    wires = [b"wire n%d n%d" % (source, target) for target in range(1, 24) for source in range(target)]
    kinds = [
        nodes + [b"node o gain"],
        nodes + wires[:256] + [b"wire in n63 aux"],
        nodes[:1] + [b"lane n0 0 0 0 0"] + [b"point %d 0" % at for at in range(1, 4097)],
        [b"editor %d" % at for at in range(9)],
        nodes[:2] + [b"editor 0"] + [b"wait 1", b"hold n1"] * 1024 + [b"editor 1"] + [b"tell n0 1"] * 2049,
    ]
    chosen = PICK.choice(kinds)
    return settings() + chosen[:len(chosen) - PICK.randrange(2)]


def padded(text):
    """The text with a comment behind it, up to the most bytes or one more."""
    return text + b"\n#" + b" " * (MOST_BYTES - len(text) - 2 + PICK.randrange(2))


def text():
    """A session's text."""
    stand = [PICK.choice(HEADERS)] + (many() if PICK.random() < 0.1 else lines())
    change = PICK.random()
    if change < 0.1:
        stand.pop(PICK.randrange(len(stand)))
    elif change < 0.3:
        stand.insert(PICK.randrange(1, len(stand) + 1), line())
    whole = bytearray(b"".join(part + PICK.choice(ENDS) for part in stand))
    if PICK.random() < 0.05:
        whole[PICK.randrange(len(whole))] = PICK.choice(ODD_BYTES)
    if PICK.random() < 0.3:
        whole.pop()
    return padded(bytes(whole)) if PICK.random() < 0.03 else bytes(whole)


TALLY = Tally()
CAME = dict.fromkeys(range(1, len(KINDS) + 1), 0)
with tempfile.TemporaryDirectory() as folder:
    for count in range(SESSIONS):
        written = text()
        (pathlib.Path(folder) / "s").write_bytes(written)
        wanted = answer(written)
        TALLY.expect(f"random session {count}", run(folder, ["check", "s"]), wanted)
        if wanted[0] == 2:
            CAME[int(wanted[1].split()[3])] += 1
for kind, count in CAME.items():
    TALLY.expect(f"kind {KINDS[kind - 1]} comes", min(count, LEAST), LEAST)
sys.exit(TALLY.close("random sessions"))
