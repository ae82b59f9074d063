"""What `gen` says of numbers: of three beside the second renderer, and of others beside the program's own replay of the
session, the journal and the sound that are drawn from them, by none of its means."""
import pathlib
import random
import sys
import tempfile

import made
from gen_reference import generated, summary
from program import run
from tally import Tally

SLOW = [7, 1, 2]  # by the second renderer, some ten seconds each
SAME = {"007": 7, "0000000001": 1}
PICK = random.Random(8)
QUICK = [0, 2**32 - 1, *(PICK.randrange(2**32) for _ in range(6))]


def replayed(folder, number):
    """The summary of a number by a replay of what is drawn from it."""
    session, journal, nodes, entries, samples = generated(number)
    files = {"s": session, "j": journal, "in.wav": made.sound([x // 256 for x in samples], 2)}
    for name, data in files.items():
        (folder / name).write_bytes(data)
    status, report = run(folder, ["replay", "s", "in.wav", "out.wav", "j"])
    if status:
        return report
    total = sum(sample + 32768 for sample in made.samples_in((folder / "out.wav").read_bytes()))
    pieces = report.splitlines()[2]
    return "".join(f"{line}\n" for line in [f"vsthost gen {number}", f"nodes {nodes}", f"entries {entries}", pieces, f"sum {total}", "close"])


def main():
    tally = Tally()
    with tempfile.TemporaryDirectory() as name:
        folder = pathlib.Path(name)
        wanted = {number: summary(number) for number in SLOW}
        for number, said in wanted.items():
            tally.expect(f"gen {number}, by the second renderer", run(folder, ["gen", str(number)]), (0, said))
        for word, number in SAME.items():
            tally.expect(f"gen {word}", run(folder, ["gen", word]), (0, wanted[number]))
        tally.expect("files of gen", list(folder.iterdir()), [])
        for number in QUICK:
            tally.expect(f"gen {number}, by its replay", run(folder, ["gen", str(number)]), (0, replayed(folder, number)))
    return tally.close("generated")


if __name__ == "__main__":
    sys.exit(main())
