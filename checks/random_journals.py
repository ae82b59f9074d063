"""Writes random journals, the same in each run, and compares what vh_journal_text reads in each and prints again, by
journal_check, with journal_reference."""
import pathlib
import random
import subprocess
import sys
import tempfile

from journal_reference import KINDS, MOST_BYTES, ONE, answer, fields_of, rules
from tally import Tally

TOP = pathlib.Path(__file__).resolve().parent.parent
CRATE = TOP / "crates/journal_check"
PROGRAM = CRATE / "out/journal_check"
JOURNALS = 3000
AT_ONCE = 500
LEAST = 5  # how often each kind of fault has to come
LENGTH = 1000
PICK = random.Random(2026)
NAMES = [b"a", b"b_2"] * 12 + [b"c", b"A", b"in", b"a_"]
IDS = [0, 7] * 12 + [9, 1, 2**32 - 1]
ODD_WORDS = [b"close", b"begin", b"hold", b"-1", b"1x", b"", b"16777217", b"4294967296", b"0000000007", b"00000000007", b"#"]
HEADERS = [b"vsthost journal 1"] * 60 + [b"", b"vsthost journal 2", b"vsthost journal 01", b"vsthost session 1", b" vsthost  journal 1 ", b"vsthost\tjournal 1"]
ENDS = [b"\n"] * 300 + [b"\r\n"] * 12 + [b"\n\n", b"\r\r\n", b"\n#\n"]
ODD_BYTES = [0, 9, 10, 13, 31, 32, 126, 127, 128, 255]


def build():
    sources = [path for path in TOP.glob("crates/*/src/**/*.rt")]
    newest = max(path.stat().st_mtime for path in sources)
    if not PROGRAM.exists() or PROGRAM.stat().st_mtime < newest:
        subprocess.run(["rt", "run"], cwd=CRATE, stdin=subprocess.DEVNULL, stdout=subprocess.DEVNULL, stderr=subprocess.DEVNULL)
    return PROGRAM.exists()


def padded(number):
    return PICK.choice([b"", b"", b"", b"0", b"000"]) + b"%d" % number


def line(entries):
    """A line, most often one that may stand behind these entries."""
    last = entries[-1][0] if entries else 0
    editor = PICK.choice([0, 0, 0, 1, 1, 2, 7])
    seq = sum(entry[1] == editor for entry in entries) + PICK.choice([0] * 30 + [1, -1])
    sample = PICK.choice([last] * 20 + [last + 1, last + 3, LENGTH] * 3 + [max(last - 1, 0), LENGTH + 1])
    verb = PICK.choice([b"begin", b"perform", b"perform", b"end", b"tell"])
    words = [padded(sample), padded(editor), padded(max(seq, 0)), verb, PICK.choice(NAMES)]
    if verb == b"tell":
        words += [padded(PICK.choice([0, 5, 2**32 - 1])) for _ in range(PICK.randint(0, 4))]
    else:
        words.append(padded(PICK.choice(IDS)))
    if verb == b"perform":
        words.append(padded(PICK.choice([0, 1, ONE, PICK.randint(0, ONE)])))
    change = PICK.random()
    if change < 0.02:
        words.pop(PICK.randrange(len(words)))
    elif change < 0.04:
        words.append(PICK.choice(ODD_WORDS + [b"3"]))
    elif change < 0.07:
        words[PICK.randrange(len(words))] = PICK.choice(ODD_WORDS)
    spaces = PICK.choice([b" ", b" ", b" ", b"   "])
    return PICK.choice([b"", b"", b" "]) + spaces.join(words) + PICK.choice([b"", b"", b"  "])


def kind_of(entries, text):
    """The kind of fault of a line behind these entries, or none, and then it is added to them."""
    fields = fields_of(text)
    if fields is None or fields == "close":
        return "BadLine"
    for broken, kind in rules(entries, LENGTH, fields):
        if broken:
            return kind.split("(")[0]
    entries.append(fields)
    return None


def lines():
    """Lines of which each may stand behind those before it, and last perhaps one that mayn't."""
    entries, stand = [], []
    for _ in range(PICK.choice([0, 1, 5, 20, 60])):
        text = line(entries)
        if kind_of(entries, text) is None:
            stand.append(text)
    wanted = PICK.choice([None, None, "BadLine"] + KINDS[3:11])  # those of one line
    for _ in range(200 if wanted else 0):
        text = line(entries[:])
        if kind_of(entries[:], text) == wanted:
            return stand + [text]
    return stand


def many():
    """Entries up to the limit, or one more."""
    return [b"%d %d %d tell a" % (at // 5, at % 2, at // 2) for at in range(4096 + PICK.randrange(2))]


def text():
    """A journal's text."""
    if PICK.random() < 0.01:
        return b"\n".join([b"vsthost journal 1"] + many() + [b"close"])
    stand = [PICK.choice(HEADERS)] + lines()
    if PICK.random() < 0.9:
        stand.append(PICK.choice([b"close"] * 8 + [b" close ", b"close x"]))
    if PICK.random() < 0.1:
        stand.append(PICK.choice([b"close", b"", b"0 0 0 tell a"]))
    whole = bytearray(b"".join(part + PICK.choice(ENDS) for part in stand))
    if PICK.random() < 0.05:
        whole[PICK.randrange(len(whole))] = PICK.choice(ODD_BYTES)
    if PICK.random() < 0.3:
        whole.pop()
    if PICK.random() < 0.01:
        whole += b" " * (MOST_BYTES - len(whole) + PICK.randrange(2))
    return bytes(whole)


def main():
    if not build():
        print("checks: journal_check can't be built")
        return 1
    tally = Tally()
    came = dict.fromkeys(KINDS + ["none"], 0)
    with tempfile.TemporaryDirectory() as folder:
        for first in range(0, JOURNALS, AT_ONCE):
            files = {f"j{i}": text() for i in range(first, first + AT_ONCE)}
            for name, data in files.items():
                (pathlib.Path(folder) / name).write_bytes(data)
            done = subprocess.run([PROGRAM, *files], cwd=folder, stdin=subprocess.DEVNULL, capture_output=True)
            said = done.stdout.decode().split("file ")
            tally.expect(f"journals from {first} on", (done.returncode, len(said) - 1), (0, AT_ONCE))
            for part, (name, data) in zip(said[1:], files.items()):
                wanted = answer(data, LENGTH)
                tally.expect(f"random journal {name}", part.splitlines(), [name] + wanted)
                came[wanted[0].split()[2].split("(")[0] if wanted[0].startswith("refused") else "none"] += 1
    for kind, count in came.items():
        tally.expect(f"kind {kind} comes", min(count, LEAST), LEAST)
    return tally.close("random journals")


if __name__ == "__main__":
    sys.exit(main())
