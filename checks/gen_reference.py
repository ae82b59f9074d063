"""The session, the journal and the sound that docs/formats.md draws from a number, and what `vsthost gen` says of them, by
the second renderer: `gen_reference.py N ..` prints the summaries, and with a folder as the last word leaves the files
there."""
import pathlib
import sys

import made
from classes_reference import PARAMETERS
from journal_reference import entries_of
from rendering_reference import Entry, pieces, render
from session_reference import read

LENGTH, PATTERN = 65536, [64, 1000, 1, 8192]
CLASSES = [kind.decode() for kind in PARAMETERS]
BREAKS = [0, 16384, 32768, 49152]
GESTURES = 170
APART = 384  # frames from gesture to gesture


class Draws:
    """The numbers that come of a first one."""

    def __init__(self, number):
        self.state = number

    def below(self, most):
        self.state = (self.state * 1664525 + 1013904223) % 2**32
        return self.state // 2**16 % most

    def value(self):
        return self.below(65536) * 256

    def sample(self):
        return (self.below(65536) - 32768) * 256


def nodes_and_wires(draws):
    """Each node's class, and the wires."""
    count = 8 + draws.below(25)
    kinds, wires = [], []
    for node in range(count):
        kinds.append(CLASSES[draws.below(8)])
        wires.append(f"wire n{draws.below(node)} n{node}" if node else "wire in n0")
    return kinds, wires + [f"wire n{node} out" for node in range(count)]


def lane(draws, node):
    lines = [f"lane n{node} 0 12 {{}} {{}}", *["point {} {}"] * 3]
    return [line.format(sample, draws.value()) for line, sample in zip(lines, BREAKS)]


def journal(draws, kinds):
    lines = []
    for gesture in range(GESTURES):
        node = draws.below(len(kinds))
        if kinds[node] == "meter":
            words = [f"tell n{node} 0"]
        else:
            words = [f"begin n{node} 0", f"perform n{node} 0 {draws.value()}", f"end n{node} 0"]
        for word in words:
            lines.append(f"{APART * gesture} 0 {len(lines)} {word}")
    return lines


def generated(number):
    """The texts of a session and of its journal, the nodes, the entries, and the samples of each channel."""
    draws = Draws(number)
    kinds, wires = nodes_and_wires(draws)
    lines = [f"node n{node} {kind}" for node, kind in enumerate(kinds)] + wires
    for node, kind in enumerate(kinds):
        if not PARAMETERS[kind.encode()][0].read_only:
            lines += lane(draws, node)
    entries = journal(draws, kinds)
    samples = [draws.sample() for _ in range(2 * LENGTH)]
    session = made.session(lines, LENGTH, 2, 16, " ".join(map(str, PATTERN)))
    return session, made.journal(*entries), len(kinds), len(entries), samples


def rounded(sample):
    return max(-32768, min(32767, sample // 256))


def summary(number):
    text, journal_text, nodes, count, samples = generated(number)
    session = read(text)
    names = {name: {at: parameter.read_only for at, parameter in enumerate(PARAMETERS[kind])} for name, (_, kind, _) in session.nodes.items()}
    entries = [Entry(*fields) for fields in entries_of(journal_text, LENGTH, names)]
    rendering = render(session, {}, [samples[0::2], samples[1::2]], entries)
    stops = [entry.sample for entry in entries if entry.verb == b"tell"]
    total = sum(rounded(sample) + 32768 for xs in rendering.channels for sample in xs)
    lines = [f"vsthost gen {number}", f"nodes {nodes}", f"entries {count}", f"pieces {pieces(LENGTH, PATTERN, stops)}", f"sum {total}", "close"]
    return "".join(line + "\n" for line in lines)


def main():
    *numbers, last = sys.argv[1:]
    folder = None if last.isdigit() else pathlib.Path(last)
    for number in map(int, numbers if folder else [*numbers, last]):
        if folder:
            session, entries, _, _, samples = generated(number)
            (folder / f"gen{number}.session").write_bytes(session)
            (folder / f"gen{number}.journal").write_bytes(entries)
            (folder / f"gen{number}.wav").write_bytes(made.sound([x // 256 for x in samples], 2))
        print(summary(number), end="")


if __name__ == "__main__":
    main()
