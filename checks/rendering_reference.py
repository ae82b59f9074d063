"""Renders sessions as docs/formats.md tells, over whole lists and by none of the program's means: no blocks, no points and
no order of nodes."""
from bisect import bisect_right
from collections import namedtuple

from classes_reference import ONE, PARAMETERS, SOUNDS, clamp, index, quantised, reply, shown

Rendering = namedtuple("Rendering", "channels values replies")
Entry = namedtuple("Entry", "sample editor seq verb name numbers")  # as journal_reference gives them


class Setting:
    """A parameter of a node, with what a session and a journal do to it."""

    def __init__(self, parameter, first, lane, edits):
        self.steps, self.first, self.edits = parameter.steps, quantised(first, parameter.steps), edits
        self.lane = lane and (lane[0][3], [line[-2:] for line in lane])  # the grain and the breakpoints
        self.places = lane and [line[-2] for line in lane]

    def lane_at(self, sample):
        grain, points = self.lane
        behind = bisect_right(self.places, sample)
        if behind in (0, len(points)):
            value = points[max(behind - 1, 0)][1]
        else:
            (p, a), (q, b) = points[behind - 1], points[behind]
            value = a + (b - a) * (sample - p) // (q - p)
        return quantised(value >> grain << grain, self.steps)

    def held(self, edits):
        """The value that edits hold, or none where the lane has it."""
        verbs = [edit.verb for edit in edits]
        performed = [edit.numbers[1] for edit in edits if edit.verb == b"perform"]
        if not self.lane:
            return quantised(performed[-1], self.steps) if performed else self.first
        opened = [verbs[:place].count(b"begin") - verbs[:place].count(b"end") for place in range(len(verbs) + 1)]
        if opened[-1] <= 0:
            return None
        place = max(place for place, verb in enumerate(verbs) if verb == b"begin" and opened[place] <= 0)
        performed = [edit.numbers[1] for edit in edits[place:] if edit.verb == b"perform"]
        return quantised(performed[-1], self.steps) if performed else self.lane_at(edits[place].sample)

    def value_at(self, sample, edits):
        held = self.held(edits)
        return self.lane_at(sample) if held is None else held

    def values(self, length):
        """The values at each sample, and at the one behind the last."""
        bounds = sorted({edit.sample for edit in self.edits})
        found = []
        for start, end in zip([0] + bounds, bounds + [length + 1]):
            held = self.held([edit for edit in self.edits if edit.sample <= start])
            found += [self.lane_at(sample) for sample in range(start, end)] if held is None else [held] * (end - start)
        return found


def first_values(session, name, loaded):
    """The values that a node's parameters begin with, where its preset gave `loaded`, or none."""
    node, kind, _ = session.nodes[name]
    held = dict(loaded.values) if loaded else {}
    values = [session.firsts.get((node, at), (name, held.get(at, parameter.default)))[1] for at, parameter in enumerate(PARAMETERS[kind])]
    return [quantised(value, parameter.steps) for value, parameter in zip(values, PARAMETERS[kind])]


class Graph:
    """The sounds of a session's nodes, where their presets gave `loaded`, by the nodes' names."""

    def __init__(self, session, loaded, channels, entries):
        self.session, self.loaded, self.entries = session, loaded, list(enumerate(entries))
        self.length = session.once[b"length"][0]
        self.input = [xs[: self.length] + [0] * (self.length - len(xs)) for xs in channels]
        self.silence = [[0] * self.length for _ in channels]
        self.sounds = {}
        self.settings = {name: self.settings_of(name) for name in session.nodes}
        self.values = {name: [setting.values(self.length) for setting in settings] for name, settings in self.settings.items()}

    def settings_of(self, name):
        node, kind, _ = self.session.nodes[name]
        found = []
        firsts = first_values(self.session, name, self.loaded.get(name))
        for identifier, (parameter, first) in enumerate(zip(PARAMETERS[kind], firsts)):
            edits = [entry for _, entry in self.entries if entry.verb != b"tell" and (entry.name, entry.numbers[0]) == (name, identifier)]
            found.append(Setting(parameter, first, self.session.lanes.get((node, identifier)), edits))
        return found

    def messages(self, name):
        return [(place, entry) for place, entry in self.entries if entry.verb == b"tell" and entry.name == name]

    def restarts(self, name):
        return [(place, entry.sample) for place, entry in self.messages(name) if entry.numbers == [1]]

    def mixed(self, target, *aux):
        """What the wires bring to a node's input, or to `out`; none where there is no wire."""
        sources = [wire[0] for wire in self.session.wires if wire[1:] == (target, *aux)]
        sounds = [self.input if source == b"in" else self.sound(source) for source in sources]
        return [[clamp(sum(samples)) for samples in zip(*lists)] for lists in zip(*sounds)] or None

    def reaching(self, name):
        return self.mixed(name) or self.silence

    def sound(self, name):
        if name not in self.sounds:
            values = [values[: self.length] for values in self.values[name]]
            kind = self.session.nodes[name][1]
            restarts = {sample for _, sample in self.restarts(name)}
            self.sounds[name] = SOUNDS[kind](self.reaching(name), values, restarts, self.mixed(name, b"aux"))
        return self.sounds[name]

    def reply(self, place, message):
        """The answer to the message at this place of the journal."""
        values = []
        for setting in self.settings[message.name]:
            before = [edit for _, edit in self.entries[:place] if edit in setting.edits]
            values.append(setting.value_at(message.sample, before))
        restarts = [sample for earlier, sample in self.restarts(message.name) if earlier < place]
        kind = self.session.nodes[message.name][1]
        return reply(kind, message.numbers, message.sample, values, self.reaching(message.name), restarts)

    def last_values(self, name):
        kind = self.session.nodes[name][1]
        restarts = [sample for _, sample in self.restarts(name)]
        return shown(kind, self.reaching(name), restarts) or [values[-1] for values in self.values[name]]


def render(session, loaded, channels, entries):
    """What comes of a session, what its presets gave, the channels' samples of its input and a journal's entries."""
    graph = Graph(session, loaded, channels, entries)
    values = {name: graph.last_values(name) for name in session.nodes}
    replies = [(entry.name, entry.sample, graph.reply(place, entry)) for place, entry in graph.entries if entry.verb == b"tell"]
    return Rendering(graph.mixed(b"out") or graph.silence, values, replies)


def pieces(length, pattern, stops):
    """How many blocks there are."""
    count = start = 0
    while start < length:
        later = [stop - start for stop in stops if stop > start]
        start += min(pattern[count % len(pattern)], length - start, *later)
        count += 1
    return count


def value_text(parameter, value):
    if parameter.steps == 0:
        k = value * 10000 // ONE
        text = f"{k // 10000}.{k % 10000:04}"
    elif parameter.steps == 1:
        text = ["Off", "On"][index(value, 1)]
    else:
        text = str(index(value, parameter.steps))
    return text + (f" {parameter.units}" if parameter.units else "")


def report(session, loaded, rendering, count, editors=()):
    """What is said of a rendering in so many pieces, with these lines of the editors."""
    lines = ["vsthost report 1", f"frames {session.once[b'length'][0]}", f"pieces {count}"]
    for name, (_, kind, _) in session.nodes.items():
        texts = not (name in loaded and loaded[name].mode)
        for identifier, (parameter, value) in enumerate(zip(PARAMETERS[kind], rendering.values[name])):
            lines.append(f"param {name.decode()} {identifier} {value}" + f" {value_text(parameter, value)}" * texts)
    lines += [" ".join(map(str, ["reply", name.decode(), sample, *words])) for name, sample, words in rendering.replies]
    return "".join(line + "\n" for line in [*lines, *editors, "close"])
