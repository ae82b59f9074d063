"""Reads sessions as docs/formats.md tells, line by line and by none of the program's means, so that what `check` says
can be compared with it."""
from classes_reference import ONE, PARAMETERS, WITH_AUX

MOST_BYTES = 33_554_432
KINDS = ["BadHeader", "BadByte", "UnknownWord", "BadNumber", "BadName", "Missing", "Extra", "Repeated", "DuplicateNode", "UnknownNode", "UnknownClass", "UnknownParam", "ReadOnlyParam", "BadWire", "BadLane", "BadEditor", "TooMany", "NoLine", "Cycle", "TooLong"]


class Fault(Exception):
    """A fault of this kind."""

    def number(self):
        return KINDS.index(self.args[0]) + 1


class Refused(Exception):
    """The line and the number of a text's first fault."""


def need(holds, kind):
    if not holds:
        raise Fault(kind)


def words_of(line):
    return [word for word in line.split(b" ") if word]


def number(word, least=0, most=2**32 - 1):
    need(len(word) <= 10 and set(word) <= set(b"0123456789"), "BadNumber")
    need(least <= int(word) <= most, "BadNumber")
    return int(word)


def is_name(word):
    lower = set(b"abcdefghijklmnopqrstuvwxyz")
    return len(word) <= 32 and word[0] in lower and set(word) <= lower | set(b"0123456789_") and word not in (b"in", b"out")


class Session:
    """What the lines so far say."""

    def __init__(self):
        self.once = {}
        self.nodes = {}  # by name: number, class and line
        self.presets = {}
        self.firsts = {}
        self.wires = []
        self.lanes = {}  # by node and id: the words of the lane's lines
        self.last_lane = None
        self.scripts = []

    def read_line(self, line, at):
        """Takes in a line behind the first, or raises its fault and leaves the session as it was. What reads a line of a
        lane gives the lane, on which further points may stand."""
        words = words_of(line)
        if not words or words[0][:1] == b"#":
            return
        need(all(32 <= byte <= 126 for byte in line), "BadByte")
        need(words[0] in LINES, "UnknownWord")
        least, most, read = LINES[words[0]]
        need(len(words) > least, "Missing")
        need(len(words) <= most + 1, "Extra")
        self.last_lane = read(self, at, *words)

    def node(self, name):
        need(name in self.nodes, "UnknownNode")
        return self.nodes[name][0]

    def parameter(self, name, word):
        node, identifier = self.node(name), number(word)
        kind = self.nodes[name][1]
        need(identifier < len(PARAMETERS[kind]), "UnknownParam")
        need(not PARAMETERS[kind][identifier].read_only, "ReadOnlyParam")
        return node, identifier

    def setting(self, at, name, *words):
        least, most = {b"length": (0, ONE), b"channels": (1, 2), b"bits": (16, 24), b"pattern": (1, 8192)}[name]
        values = [number(word, least, most) for word in words]
        need(name != b"bits" or values[0] in (16, 24), "BadNumber")
        need(name not in self.once, "Repeated")
        self.once[name] = values

    def node_line(self, at, _, name, kind):
        need(is_name(name), "BadName")
        need(kind in PARAMETERS, "UnknownClass")
        need(name not in self.nodes, "DuplicateNode")
        need(len(self.nodes) < 64, "TooMany")
        self.nodes[name] = (len(self.nodes), kind, at)

    def preset(self, at, _, name, file):
        node = self.node(name)
        need(len(file) <= 255, "BadName")
        need(node not in self.presets, "Repeated")
        self.presets[node] = (name, file)

    def param(self, at, _, name, identifier, value):
        parameter = self.parameter(name, identifier)
        value = number(value, 0, ONE)
        need(parameter not in self.firsts, "Repeated")
        self.firsts[parameter] = (name, value)

    def wire(self, at, _, source, target, *aux):
        if source != b"in":
            self.node(source)
        if target != b"out":
            self.node(target)
        need(aux in ((), (b"aux",)), "BadWire")
        need(not aux or (target != b"out" and self.nodes[target][1] in WITH_AUX), "BadWire")
        need((source, target, *aux) not in self.wires, "BadWire")
        need(len(self.wires) < 256, "TooMany")
        self.wires.append((source, target, *aux))

    def lane(self, at, _, name, identifier, grain, sample, value):
        parameter = self.parameter(name, identifier)
        numbers = (parameter[1], number(grain, 0, 24), number(sample, 0, ONE), number(value, 0, ONE))
        need(parameter not in self.lanes, "BadLane")
        need(len(self.lanes) < 256, "TooMany")
        self.lanes[parameter] = [(b"lane", name, *numbers)]
        return parameter

    def point(self, at, _, sample, value):
        numbers = (number(sample, 0, ONE), number(value, 0, ONE))
        need(self.last_lane is not None, "BadLane")
        points = self.lanes[self.last_lane]
        need(points[-1][-2] < numbers[0], "BadLane")
        need(len(points) < 4096, "TooMany")
        points.append((b"point", *numbers))
        return self.last_lane

    def editor(self, at, _, word):
        need(number(word) == len(self.scripts), "BadEditor")
        need(len(self.scripts) < 8, "TooMany")
        self.scripts.append([])

    def script_word(self, at, word, *words):
        names = words[:0 if word == b"wait" else 1]
        for name in names:
            self.node(name)
        numbers = [number(text) for text in words[len(names):]]
        need(self.scripts, "BadEditor")
        need(sum(map(len, self.scripts)) < 4096, "TooMany")
        self.scripts[-1].append((word, *names, *numbers))

    def cycle(self):
        """The line of the least node that is on a cycle."""
        after = {name: [wire[1] for wire in self.wires if wire[0] == name and wire[1] != b"out"] for name in self.nodes}
        for name, (_, _, at) in self.nodes.items():
            reached, left = set(), list(after[name])
            while left:
                node = left.pop()
                if node not in reached:
                    reached.add(node)
                    left += after[node]
            if name in reached:
                return at
        return None

    def canonical(self):
        lines = [(b"vsthost", b"session", 1)]
        lines += [(name, *self.once[name]) for name in (b"length", b"channels", b"bits", b"pattern")]
        lines += [(b"node", name, kind) for name, (_, kind, _) in self.nodes.items()]
        lines += [(b"preset", *self.presets[node]) for node in sorted(self.presets)]
        lines += [(b"param", name, parameter[1], value) for parameter, (name, value) in sorted(self.firsts.items())]
        lines += [(b"wire", *wire) for wire in self.wires]
        lines += [line for points in self.lanes.values() for line in points]
        for editor, script in enumerate(self.scripts):
            lines += [(b"editor", editor), *script]
        return "".join(" ".join(word.decode() if isinstance(word, bytes) else str(word) for word in line) + "\n" for line in lines)


LINES = {  # the least and most words behind the first, and what reads them
    b"length": (1, 1, Session.setting),
    b"channels": (1, 1, Session.setting),
    b"bits": (1, 1, Session.setting),
    b"pattern": (1, 16, Session.setting),
    b"node": (2, 2, Session.node_line),
    b"preset": (2, 2, Session.preset),
    b"param": (3, 3, Session.param),
    b"wire": (2, 3, Session.wire),
    b"lane": (5, 5, Session.lane),
    b"point": (2, 2, Session.point),
    b"editor": (1, 1, Session.editor),
    b"begin": (2, 2, Session.script_word),
    b"perform": (3, 3, Session.script_word),
    b"end": (2, 2, Session.script_word),
    b"tell": (1, 5, Session.script_word),
    b"hold": (1, 1, Session.script_word),
    b"drop": (1, 1, Session.script_word),
    b"wait": (1, 1, Session.script_word),
}


def lines_of(text):
    """The lines of a text, without their ends."""
    lines = text.split(b"\n")
    if not lines[-1]:
        lines.pop()
    return [line.removesuffix(b"\r") for line in lines]


def read(text):
    """The session that a text says."""
    if len(text) > MOST_BYTES:
        raise Refused(0, Fault("TooLong").number())
    lines = lines_of(text)
    if not lines or words_of(lines[0]) != [b"vsthost", b"session", b"1"]:
        raise Refused(1, Fault("BadHeader").number())
    session = Session()
    for at, line in enumerate(lines[1:], 2):
        try:
            session.read_line(line, at)
        except Fault as fault:
            raise Refused(at, fault.number()) from None
    if len(session.once) < 4:
        raise Refused(len(lines) + 1, Fault("NoLine").number())
    if session.cycle() is not None:
        raise Refused(session.cycle(), Fault("Cycle").number())
    return session


def answer(text):
    """The status of `check` over this text, and what it says."""
    try:
        return 0, read(text).canonical()
    except Refused as refused:
        line, kind = refused.args
        return 2, f"refused session {line} {kind}\n"
