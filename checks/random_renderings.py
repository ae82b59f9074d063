"""Renders random sessions, the same in each run, some of them with presets, and the examples, under four sizes of blocks, and
compares what is written and said with host_reference; what sox and ffmpeg read of some of it, where they are there, too."""
import pathlib
import random
import re
import shutil
import subprocess
import sys
import tempfile
from concurrent.futures import ThreadPoolExecutor

import host_reference
import preset_reference
import wav_reference
from classes_reference import HALF, ONE, PARAMETERS, WITH_AUX
from program import TOP, run
from tally import Tally

SESSIONS = 300
PICK = random.Random(2026)
CLASSES = [kind.decode() for kind in PARAMETERS]
OPENED = 24  # how many of the files that are written other programs open


class Draft:
    """A random session: its lines, and what a journal needs of it."""

    def __init__(self, length, channels):
        self.length, self.channels = length, channels
        sizes = [str(PICK.choice([1, 2, 7, 64, 100, 8192, PICK.randint(1, 60)])) for _ in range(PICK.choice([1, 1, 2, 3, 16]))]
        self.lines = ["vsthost session 1", f"length {length}", f"channels {channels}", f"bits {PICK.choice([16, 24])}", "pattern " + " ".join(sizes)]
        self.nodes = []  # name and class
        self.presets = {}  # files, by their names
        self.bits = PICK.choice([16, 24])  # of the input
        frames = PICK.choice([length] * 6 + [length + 3, length // 2, 0, 1])
        self.sound = [[x << (24 - self.bits) for x in samples_of(frames, self.bits)] for _ in range(channels)]

    def node(self, kind):
        name = f"n{len(self.nodes)}"
        self.nodes.append((name, kind))
        self.lines.append(f"node {name} {kind}")
        return name

    def say(self, *words):
        self.lines.append(" ".join(map(str, words)))

    def parameters(self):
        """Each parameter that may be set."""
        return [(name, at, kind, parameter) for name, kind in self.nodes for at, parameter in enumerate(PARAMETERS[kind.encode()]) if not parameter.read_only]

    def value(self, at, kind, parameter):
        """A value of a parameter, one that matters within so many samples."""
        if parameter.steps == 4095:
            return index_value(4095, PICK.choice([0, 1, 2, 3, PICK.randint(0, 40), PICK.randint(0, self.length), 4095]))
        if parameter.steps:
            return index_value(parameter.steps, PICK.choice([0, parameter.steps, PICK.randint(0, parameter.steps), PICK.randint(0, min(parameter.steps, 5))]))
        if kind == "gate" and PICK.random() < 0.8:
            return min(ONE, 2 * abs(PICK.choice(self.sound[0] or [0])) + PICK.choice([0, 1, 2]))
        if kind == "gain":
            return PICK.choice([ONE, HALF, PICK.randint(0, ONE), PICK.randint(HALF >> 4, ONE), PICK.randint(HALF, ONE)])
        return PICK.choice([0, 1, ONE, HALF, PICK.randint(0, ONE), PICK.randint(0, ONE), PICK.randint(0, ONE) >> PICK.randint(1, 12)])

    def session(self):
        return "".join(line + "\n" for line in self.lines).encode()

    def files(self):
        return {"s": self.session(), "in.wav": self.input(), **self.presets}

    def input(self):
        return wav_reference.file_of(self.sound, PICK.choice([8000, 44100, 48000, 1, 768000]), self.bits)


def index_value(steps, at):
    """A value of this index: its own, or another that stands for it."""
    least, most = -(-at * ONE // (steps + 1)), ((at + 1) * ONE - 1) // (steps + 1)
    return PICK.choice([at * ONE // steps, least, most, PICK.randint(least, most)])


def samples_of(count, bits):
    """Samples of a file: quiet ones, loud ones, edges, and stretches of silence."""
    most = 1 << (bits - 1)
    size = PICK.choice([4, most >> 8, most, most])
    found = []
    while len(found) < count:
        kind = PICK.random()
        if kind < 0.2:
            found += [0] * PICK.randint(1, 12)
        elif kind < 0.3:
            found += [PICK.choice([most - 1, -most, -1, 1])] * PICK.randint(1, 3)
        else:
            found += [PICK.randint(-size, size - 1) for _ in range(PICK.randint(1, 20))]
    return found[:count]


def add_values(draft, often):
    for name, at, kind, parameter in draft.parameters():
        if PICK.random() < often:
            draft.say("param", name, at, draft.value(at, kind, parameter))


def add_lanes(draft, often):
    for name, at, kind, parameter in draft.parameters():
        if PICK.random() < often:
            most = PICK.choice([3, draft.length + 1, draft.length + 1, 2 * draft.length + 2, ONE + 1])
            places = sorted(PICK.sample(range(most), min(most, PICK.choice([1, 2, 3, 8]))))
            points = [(place, draft.value(at, kind, parameter)) for place in places]
            draft.say("lane", name, at, PICK.choice([0, 0, 0, 4, 12, 20, 23, 24, PICK.randint(0, 24)]), *points[0])
            for point in points[1:]:
                draft.say("point", *point)


def preset(draft, name, kind):
    """A preset of a node, most often one that can be loaded."""
    identifier = preset_reference.identifier_of(kind.encode() if PICK.random() < 0.97 else b"tap")
    values = {at: draft.value(at, kind, parameter) for named, at, _, parameter in draft.parameters() if named == name}
    state = preset_reference.state_of(kind.encode(), values)
    if PICK.random() < 0.03:
        at = PICK.randrange(len(state))
        state = state[:at] + bytes([PICK.randrange(256)]) + state[at + 1 :]
    mode = bytes([PICK.choice([1, 1, 1, 1, 2]), 0, 0, 0, PICK.choice([0, 1, 1, 2]), 0, 0, 0])
    chunks = {b"Comp": state, b"Cont": mode, b"Prog": b"", b"Info": b"<MetaInfo/>"}
    data = preset_reference.file_of(identifier, {name: chunk for name, chunk in chunks.items() if PICK.random() < (0.98 if name == b"Comp" else 0.6)})
    if PICK.random() < 0.3:
        data = data[:8] + data[8:40].lower() + data[40:] + b"behind"
    return data[:-1] if PICK.random() < 0.03 else data


def add_presets(draft, often):
    for number, (name, kind) in enumerate(draft.nodes):
        if PICK.random() < often:
            draft.say("preset", name, f"p{number}")
            if PICK.random() < 0.98:
                draft.presets[f"p{number}"] = preset(draft, name, kind)


def scattered(draft):
    """Nodes of all classes, wired at random without a cycle, whatever their numbers."""
    for _ in range(PICK.choice([0, 1, 2, 3, 5, 8])):
        draft.node(PICK.choice(CLASSES + ["gain", "gate"]))
    ends = [("in", "")] + PICK.sample(draft.nodes, len(draft.nodes)) + [("out", "")]
    wires = []
    for place, (source, _) in enumerate(ends[:-1]):
        for further, (target, kind) in enumerate(ends[place + 1 :]):
            if PICK.random() < (0.25 if further else 0.8):
                wires.append((source, target))
            if kind.encode() in WITH_AUX and PICK.random() < 0.4:
                wires.append((source, target, "aux"))
    for wire in PICK.sample(wires, len(wires)):
        draft.say("wire", *wire)
    add_values(draft, 0.5)
    add_lanes(draft, 0.2)


def chained(draft):
    """One class, or two in a row, and much that is done to them; a gate's key is another sound."""
    names = [draft.node(PICK.choice(CLASSES + ["gate", "delay"])) for _ in range(PICK.choice([1, 1, 2]))]
    for source, target in zip(["in"] + names, names + ["out"]):
        draft.say("wire", source, target)
    gates = [name for name, kind in draft.nodes if kind == "gate"]
    if gates and PICK.random() < 0.7:
        key = draft.node(PICK.choice(["delay", "gain", "onepole"]))
        draft.say("wire", "in", key)
        for name in gates:
            draft.say("wire", key, name, "aux")
    add_values(draft, 0.7)
    add_lanes(draft, 0.4)


def loud(draft):
    """Layers of gains that together pass the range of 32 bits, something behind them, and what turns it down again."""
    before = ["in"]
    levels = []
    for _ in range(4):
        layer = [draft.node("gain") for _ in range(3)]
        levels += [(name, PICK.choice([ONE, ONE, PICK.randint(HALF, ONE)])) for name in layer]
        for target in layer:
            for source in before:
                draft.say("wire", source, target)
        before = layer
    behind = draft.node(PICK.choice(CLASSES + ["delay", "delay", "meter"]))
    last = draft.node("gain")
    for source in before:
        draft.say("wire", source, behind)
        if PICK.random() < 0.3:
            draft.say("wire", source, last)
    draft.say("wire", behind, last)
    draft.say("wire", last, "out")
    for name, level in levels + [(last, HALF >> 8)]:
        draft.say("param", name, 0, level)
    for name, at, kind, parameter in draft.parameters():
        if name == behind:
            draft.say("param", name, at, PICK.choice([draft.value(at, kind, parameter), ONE]) if kind != "delay" or at else index_value(4095, PICK.randint(0, 3)))


def drawn():
    """A random session."""
    draft = Draft(PICK.choice([PICK.randint(0, 4), PICK.randint(60, 70), PICK.randint(20, 400), PICK.randint(20, 400)]), PICK.choice([1, 2]))
    PICK.choice([scattered, scattered, chained, loud])(draft)
    if PICK.random() < 0.2:
        add_presets(draft, 0.7)
    return draft


def examples():
    """Each rendering that the examples' page shows: its session's name, and the files that it reads."""
    shown = re.findall(r"vsthost render examples/(\S+) examples/(\S+) ", (TOP / "examples/README.md").read_text())
    presets = {str(path.relative_to(TOP)): path.read_bytes() for path in (TOP / "examples").glob("*.vstpreset")}
    return [(name, {"s": (TOP / "examples" / name).read_bytes(), "in.wav": (TOP / "examples" / sound).read_bytes(), **presets}) for name, sound in shown]


def check_rendering(pool, work, name, files, words):
    """Renders under four sizes of blocks: of each the name, the output, the run and what is awaited."""
    folder = pathlib.Path(tempfile.mkdtemp(dir=work))
    for file, data in files.items():
        (folder / file).parent.mkdir(exist_ok=True)
        (folder / file).write_bytes(data)
    for size in ["", "block=1", f"block={PICK.randint(2, 200)}", "block=8192"]:
        out = f"out{size}.wav"
        ordered = [out if word == "OUT" else word for word in words] + [size] * bool(size)
        yield f"{name} {size}", folder / out, pool.submit(run, folder, ordered), host_reference.answer(ordered, files)


def settle(tally, awaited):
    """Compares what was awaited with what came."""
    for name, out, ran, (status, said, changed) in awaited:
        tally.expect(name, ran.result(), (status, said))
        tally.expect(f"{name}, output", out.read_bytes() if out.exists() else None, changed.get(out.name))


def by_sox(path, bits):
    return subprocess.run(["sox", "-D", path, "-t", "raw", "-e", "signed", "-b", str(bits), "-L", "-"], check=True, capture_output=True).stdout


def by_ffmpeg(path, bits):
    return subprocess.run(["ffmpeg", "-v", "error", "-i", path, "-f", f"s{bits}le", "-c:a", f"pcm_s{bits}le", "-"], check=True, capture_output=True).stdout


def check_opened(tally, name, path):
    """That other programs read the frames that a file has."""
    data = path.read_bytes()
    bits, size = data[34], int.from_bytes(data[40:44], "little")
    for tool, frames in [("sox", by_sox), ("ffmpeg", by_ffmpeg)]:
        if size and shutil.which(tool):
            tally.expect(f"{name}, by {tool}", frames(path, bits), data[44 : 44 + size])


def main():
    tally = Tally()
    for tool in ["sox", "ffmpeg"]:
        if not shutil.which(tool):
            print(f"checks: {tool} is missing, and what it would read is skipped")
    words = ["render", "s", "in.wav", "OUT"]
    drafts = [drawn() for _ in range(SESSIONS)]
    cases = [(f"random rendering {count}", draft.files()) for count, draft in enumerate(drafts)] + examples()
    with tempfile.TemporaryDirectory() as work, ThreadPoolExecutor(4) as pool:
        awaited = []
        for name, files in cases:
            awaited += check_rendering(pool, work, name, files, words)
        settle(tally, awaited)
        for name, out, _, _ in awaited[:: len(awaited) // OPENED]:
            if out.exists():
                check_opened(tally, name, out)
    loaded = sum(bool(files.keys() - {"s", "in.wav"}) and answered[0] == 0 for (_, files), (_, _, _, answered) in zip(cases, awaited[::4]))
    tally.expect("presets are loaded", loaded > SESSIONS // 20, True)
    return tally.close("random renderings")


if __name__ == "__main__":
    sys.exit(main())
