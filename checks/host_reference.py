"""What the program answers to words over files, as docs/formats.md tells, by none of its means."""
import functools

import gesture_reference
import journal_reference
import preset_reference
import session_reference
import wav_reference
from classes_reference import PARAMETERS
from rendering_reference import Entry, first_values, pieces, render, report

NOTHING_DONE = b"vsthost journal 1\nclose\n"
COMMANDS = {  # with the places of their words
    "check": ["session"],
    "render": ["session", "input", "output"],
    "replay": ["session", "input", "output", "journal"],
    "live": ["session", "input", "output", "journal"],
    "preset-show": ["preset"],
    "preset-save": ["session", "node", "output"],
}


class Refused(Exception):
    """The status and what is said."""


def number(word):
    return int(word) if word.isascii() and word.isdigit() and len(word) <= 10 and int(word) < 2**32 else None


def names_of(words):
    """The command, the further words by their places, and the size of blocks that takes the pattern's place, or none."""
    command, *names = words or [""]
    places = COMMANDS.get(command, [])
    block = None
    if command in ("render", "replay", "live") and len(names) == len(places) + 1:
        last = names.pop()
        block = number(last.removeprefix("block=")) if last.startswith("block=") else None
        if block is None or not 1 <= block <= 8192:
            raise Refused(1, "refused usage\n")
    if not places or len(names) != len(places):
        raise Refused(1, "refused usage\n")
    return command, dict(zip(places, names)), block


def content(files, name, place):
    if name not in files:
        raise Refused(6, f"failed read {place}\n")
    return files[name]


def session_of(data):
    try:
        session = session_reference.read(data)
    except session_reference.Refused as refused:
        line, kind = refused.args
        raise Refused(2, f"refused session {line} {kind}\n") from None
    return session


def unfaulted(call, node, *given):
    """The answer of a call on a preset, or its fault, at a node's number or `-`."""
    try:
        return call(*given)
    except preset_reference.Fault as fault:
        raise Refused(4, f"refused preset {node} {fault.number()}\n") from None


def preset_of(files, name, node):
    return unfaulted(preset_reference.read, node, content(files, name, "preset"))


def loaded_of(session, files):
    """What the presets of a session give, by the nodes' names."""
    presets = {node: preset_of(files, file.decode(), node) for node, (_, file) in sorted(session.presets.items())}
    named = [(name, node, kind) for name, (node, kind, _) in session.nodes.items() if node in presets]
    return {name: unfaulted(preset_reference.load, node, presets[node], kind) for name, node, kind in named}


def saved_of(session, name, loaded):
    """The preset file of a node's first values and its mode."""
    if name not in session.nodes:
        raise Refused(4, "refused preset - 13\n")
    mode = loaded[name].mode if name in loaded else 0
    return preset_reference.saved(session.nodes[name][1], first_values(session, name, loaded.get(name)), mode)


def sound_of(data, session):
    """The rate and the channels of an input."""
    try:
        rate, channels = wav_reference.read(data)
    except wav_reference.Fault as fault:
        raise Refused(3, f"refused wav {fault}\n") from None
    if len(channels) != session.once[b"channels"][0]:
        raise Refused(3, "refused wav 7\n")
    return rate, channels


def entries_of(data, session):
    nodes = {name: {at: parameter.read_only for at, parameter in enumerate(PARAMETERS[kind])} for name, (_, kind, _) in session.nodes.items()}
    try:
        return [Entry(*fields) for fields in journal_reference.entries_of(data, session.once[b"length"][0], nodes)]
    except journal_reference.Fault as fault:
        line, kind = fault.args
        number = journal_reference.KINDS.index(kind.split("(")[0]) + 1
        raise Refused(5, f"refused journal {line} {number}\n") from None


@functools.lru_cache(maxsize=1)
def rendered(session, loaded, sound, journal):
    """The entries, what comes of a session and an input that are accepted, of what presets gave and of a journal or none, and
    the output."""
    session = session_reference.read(session)
    rate, channels = sound_of(sound, session)
    entries = entries_of(journal, session) if journal is not None else []
    rendering = render(session, dict(loaded), channels, entries)
    return entries, rendering, wav_reference.file_of(rendering.channels, rate, session.once[b"bits"][0])


def done(words, files, played):
    command, names, block = names_of(words)
    if command == "preset-show":
        return 0, preset_reference.listing(preset_of(files, names["preset"], "-")), {}
    session = session_of(content(files, names["session"], "session"))
    if command == "check":
        return 0, session.canonical(), {}
    loaded = loaded_of(session, files)
    if command == "preset-save":
        return 0, "", {names["output"]: saved_of(session, names["node"].encode(), loaded)}
    sound_of(content(files, names["input"], "input"), session)
    journal = content(files, names["journal"], "journal") if command == "replay" else played if command == "live" else None
    entries, rendering, out = rendered(files[names["session"]], tuple(loaded.items()), files[names["input"]], journal)
    stops = [entry.sample for entry in entries if entry.verb == b"tell"]
    count = pieces(session.once[b"length"][0], [block] if block else session.once[b"pattern"], stops)
    if command != "live":
        return 0, report(session, loaded, rendering, count), {names["output"]: out}
    flaws = list(gesture_reference.flaws(session, entries, block))
    if flaws:
        raise Refused(0, f"no journal of the session's editors: {flaws[0]}\n")
    return 0, report(session, loaded, rendering, count, gesture_reference.editor_lines(session)), {names["output"]: out, names["journal"]: played}


def answer(words, files, played=NOTHING_DONE):
    """The status of a command over these files, what is said, and the files that change; of `live`, where its editors made
    this journal."""
    try:
        return done(words, files, played)
    except Refused as refused:
        return *refused.args, {}
