"""Plays the scripts of a session's editors as docs/formats.md tells, by none of the program's means: which words of a script
are accepted, and which journals the editors can have made."""
from collections import Counter, namedtuple
from itertools import accumulate

from classes_reference import ONE, PARAMETERS

MOST_HOLDS = 64  # of an editor on a node
Played = namedtuple("Played", "edits refused")  # the edits and messages, each a verb, a node's name and numbers; how many words are refused


def is_held(came, name):
    """Whether an editor has a reference to a node, where each of its accepted words came so often."""
    return 1 + came[b"hold", name] - came[b"drop", name] > 0


def is_settable(session, name, numbers):
    parameters = PARAMETERS[session.nodes[name][1]]
    return numbers[0] < len(parameters) and not parameters[numbers[0]].read_only


def is_accepted(session, came, verb, name, numbers):
    """Whether a word that isn't a wait is accepted behind those that came."""
    if not is_held(came, name):
        return False
    if verb == b"hold":
        return came[b"hold", name] < MOST_HOLDS
    if verb in (b"drop", b"tell"):
        return True
    if not is_settable(session, name, numbers):
        return False
    opened = came[b"begin", name, numbers[0]] - came[b"end", name, numbers[0]]
    return opened == (0 if verb == b"begin" else 1) and (verb != b"perform" or numbers[1] <= ONE)


def played(session, script):
    """What an editor does whose script has these words, whatever the others do."""
    came, edits, refused = Counter(), [], 0
    for verb, *words in script:
        if verb == b"wait":
            continue
        name, *numbers = words
        if not is_accepted(session, came, verb, name, numbers):
            refused += 1
            continue
        came[verb, name, *numbers[: 1 if verb in (b"begin", b"end") else 0]] += 1
        if verb not in (b"hold", b"drop"):
            edits.append((verb, name, numbers))
    return Played(edits, refused)


def all_played(session):
    return [played(session, script) for script in session.scripts]


def is_at_block(length, pattern, sample):
    """Whether a block begins at a sample, where no message stops one, or the rendering ends there."""
    starts = {0, *accumulate(pattern[:-1])}
    return sample == length or (sample < length and sample % sum(pattern) in starts)


def flaws(session, entries, block=None):
    """What keeps these entries from being a journal that the session's editors can have made, in blocks of this size or of
    the session's own: nothing where they can."""
    length, pattern = session.once[b"length"][0], [block] if block else session.once[b"pattern"]
    samples = [entry[0] for entry in entries]
    if samples != sorted(samples):
        yield "a sample falls"
    for sample in samples:
        if not is_at_block(length, pattern, sample):
            yield f"no block begins at {sample}"
    for editor in {entry[1] for entry in entries} - set(range(len(session.scripts))):
        yield f"there is no editor {editor}"
    for editor, (edits, _) in enumerate(all_played(session)):
        made = [(seq, (verb, name, numbers)) for _, by, seq, verb, name, numbers in entries if by == editor]
        if made != list(enumerate(edits)):
            yield f"editor {editor} did something else"


def editor_lines(session):
    """What a report says of the editors."""
    return [f"editor {editor} accepted {len(edits)} refused {refused}" for editor, (edits, refused) in enumerate(all_played(session))]
