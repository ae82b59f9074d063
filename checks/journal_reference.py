"""Reads and prints journals as docs/formats.md tells, by none of the program's means, so that what vh_journal_text reads
and prints can be compared with it."""
import re

MOST_BYTES = 1_048_576
MOST_ENTRIES = 4096
ONE = 2**24
KINDS = [  # by number, from 1
    "BadHeader", "BadLine", "TooMany", "SampleOver", "SampleFalls", "UnknownNode", "UnknownParam", "ReadOnlyParam",
    "SeqWrong", "NotOpen", "AlreadyOpen", "NoClose", "TooLong",
]
CHECKED = dict.fromkeys([b"a", b"b_2"], {0: False, 7: False, 9: True})  # journal_check's nodes, each with its parameters, and whether each is only read
FORMS = [
    (rb"begin", 1, 1),
    (rb"perform", 2, 2),
    (rb"end", 1, 1),
    (rb"tell", 0, 4),
]


class Fault(Exception):
    """A fault: its line and its kind, named as vh_journal_text names it."""


def number(word):
    """The number of a word, or none."""
    if re.fullmatch(rb"[0-9]{1,10}", word) and int(word) < 2**32:
        return int(word)
    return None


def fields_of(line):
    """The sample, editor, number, verb, node's name and numbers of a line, `close` alone, or none."""
    if re.search(rb"[^ -~]", line):
        return None
    words = [word for word in line.split(b" ") if word]
    if words == [b"close"]:
        return "close"
    if len(words) < 5:
        return None
    head, verb, name = [number(word) for word in words[:3]], words[3], words[4]
    numbers = [number(word) for word in words[5:]]
    if None in head + numbers or head[1] > 7:
        return None
    for form, least, most in FORMS:
        if form == verb and least <= len(numbers) <= most:
            if verb == b"perform" and numbers[1] > ONE:
                return None
            return (*head, verb, name, numbers)
    return None


def rules(entries, length, fields, nodes=CHECKED):
    """Each rule of an entry's line, whether it is broken behind these entries, and its kind, in the order of the kinds."""
    sample, editor, seq, verb, name, numbers = fields
    mine = [entry for entry in entries if entry[1] == editor]
    on_parameter = verb != b"tell"
    here = [entry[3] for entry in mine if on_parameter and entry[3] in (b"begin", b"end") and (entry[4], entry[5][0]) == (name, numbers[0])]
    is_open = bool(here) and here[-1] == b"begin"
    yield len(entries) >= MOST_ENTRIES, "TooMany"
    yield sample > length, "SampleOver"
    yield bool(entries) and sample < entries[-1][0], "SampleFalls"
    params = nodes.get(name, {})
    yield name not in nodes, "UnknownNode"
    yield on_parameter and numbers[0] not in params, "UnknownParam"
    yield on_parameter and params.get(numbers[0]), "ReadOnlyParam"
    yield seq != len(mine), f"SeqWrong({len(mine)})"
    yield verb in (b"perform", b"end") and not is_open, "NotOpen"
    yield verb == b"begin" and is_open, "AlreadyOpen"


def lines_of(text):
    """The lines of a text, without their ends."""
    parts = text.split(b"\n")
    if parts[-1] == b"":
        parts.pop()
    return [part[:-1] if part.endswith(b"\r") else part for part in parts]


def entries_of(text, length, nodes=CHECKED):
    """The entries of a journal's text, or its first fault."""
    if len(text) > MOST_BYTES:
        raise Fault(0, "TooLong")
    lines = lines_of(text)
    if not lines or not re.fullmatch(rb" *vsthost +journal +1 *", lines[0]):
        raise Fault(1, "BadHeader")
    entries = []
    for place, line in enumerate(lines[1:], 2):
        fields = fields_of(line)
        if fields is None:
            raise Fault(place, "BadLine")
        if fields == "close":
            if place < len(lines):
                raise Fault(place + 1, "BadLine")
            return entries
        for broken, kind in rules(entries, length, fields, nodes):
            if broken:
                raise Fault(place, kind)
        entries.append(fields)
    raise Fault(len(lines) + 1, "NoClose")


def text_of(entries):
    """The canonical text of a journal."""
    lines = [b"vsthost journal 1"]
    for sample, editor, seq, verb, name, numbers in entries:
        words = [b"%d" % sample, b"%d" % editor, b"%d" % seq, verb, name] + [b"%d" % value for value in numbers]
        lines.append(b" ".join(words))
    return b"\n".join(lines + [b"close"]) + b"\n"


def answer(text, length):
    """What journal_check says of a text."""
    try:
        entries = entries_of(text, length)
    except Fault as fault:
        line, kind = fault.args
        return [f"refused {line} {kind}"]
    return [f"entries {len(entries)}"] + text_of(entries).decode().splitlines()
