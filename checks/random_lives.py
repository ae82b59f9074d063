"""Renders random sessions, the same in each run, while one to eight editors work at random scripts, each session several
times. Each journal has to be one that the editors can have made, and its replay has to write and say the same; where a
session is short the second renderer has to, too. How far journals differ from run to run is counted and said: by what no
contract tells, that editors and audio run beside each other."""
import sys
import tempfile
from collections import Counter, namedtuple
from concurrent.futures import ThreadPoolExecutor

import gesture_reference
import host_reference
import journal_reference
import session_reference
from classes_reference import ONE
from made import chain
from program import run
from random_renderings import PICK, Draft, add_lanes, add_values, drawn
from random_replays import message, touched
from rendering_reference import pieces
from statuses import contents, folder_with
from tally import Tally

SHORT, LONG = 80, 24  # sessions
RUNS = 4  # of each session
MOST_WORDS = 4096  # of all scripts of a session
LIVE = ["live", "s", "in.wav", "out.wav", "j"]
AGAIN = ["replay", "s", "in.wav", "again.wav", "j"]
Case = namedtuple("Case", "name files size short")  # `size` are the words that say the size of blocks
Live = namedtuple("Live", "case folder answered replayed")


class Hands:
    """An editor that grasps a few parameters, most often by the rules, and waits for later and later blocks."""

    def __init__(self, draft, few, last, apart):
        self.draft, self.few, self.last, self.apart = draft, few, last, apart
        self.opened, self.block = set(), 0
        self.held = dict.fromkeys((name for name, _ in draft.nodes), 1)

    def on_parameter(self):
        name, at, kind, parameter = PICK.choice(self.few)
        verb = PICK.choice(["perform", "perform", "perform", "end"]) if (name, at) in self.opened else "begin"
        if PICK.random() < 0.1:
            verb, at = PICK.choice(["begin", "perform", "end"]), PICK.choice([at, at, 2, 9])
        self.opened = {"begin": self.opened | {(name, at)}, "end": self.opened - {(name, at)}}.get(verb, self.opened)
        value = PICK.choice([ONE + 1, 2**32 - 1]) if PICK.random() < 0.05 else self.draft.value(at, kind, parameter)
        return [verb, name, at] + [value] * (verb == "perform")

    def on_node(self):
        name, kind = PICK.choice(self.draft.nodes)
        verb = PICK.choices(["tell", "hold", "drop"], [6, 3, 2])[0]
        if verb == "drop" and self.held[name] == 1 and PICK.random() < 0.97:
            verb = "tell"
        self.held[name] += {"tell": 0, "hold": 1, "drop": -1}[verb]
        return [verb, name] + message(kind) * (verb == "tell")

    def wait(self):
        self.block = min(self.last, self.block + PICK.randint(0, 2 * self.apart))
        return ["wait", self.block]

    def word(self, waits):
        kind = PICK.random()
        if kind < waits or not self.draft.nodes:
            return self.wait()
        return self.on_parameter() if self.few and kind < 0.8 else self.on_node()


def add_editors(draft, size, editors, words, waits):
    """Scripts of so many editors with so many words each, of which this share waits for blocks, up to the last one."""
    pattern = [int(word.removeprefix("block=")) for word in size or draft.lines[4].split()[1:]]
    last = max(0, pieces(draft.length, pattern, []) - 1)
    settable = draft.parameters()
    for editor in range(editors):
        draft.say("editor", editor)
        few = PICK.sample(settable, min(len(settable), PICK.choice([1, 2, 4])))
        hands = Hands(draft, few, last, int(last / max(1, words * waits)))
        for _ in range(words):
            draft.say(*hands.word(waits))


def short(count):
    """A session that the second renderer renders soon."""
    draft = PICK.choice([drawn, touched, touched])()
    size = [f"block={PICK.choice([1, 2, PICK.randint(1, 100), 8192])}"] * PICK.randrange(2)
    add_editors(draft, size, PICK.choice([1, 2, 3, 8]), PICK.choice([0, 1, 5, 12]), PICK.choice([0, 0.2]))
    return Case(f"random live rendering {count}", draft.files(), size, True)


def long(count, words=None):
    """A session that goes on while its editors work, in blocks of few frames."""
    draft = Draft(PICK.randint(60_000, 120_000), PICK.choice([1, 2]))
    draft.lines[4] = " ".join(map(str, ["pattern", *(PICK.randint(1, 6) for _ in range(PICK.choice([1, 2, 3, 16])))]))
    kinds = PICK.sample(["gain", "gain", "tap", "delay", "meter", "onepole"], PICK.choice([1, 2]))
    draft.nodes = list(zip("abc", kinds))
    draft.lines += chain(*kinds)
    add_values(draft, 0.3)
    add_lanes(draft, 0.3)
    size = [f"block={PICK.randint(1, 6)}"] * PICK.randrange(2)
    add_editors(draft, size, 8 if words else PICK.choice([1, 2, 4, 8]), words or PICK.choice([5, 20, 60]), PICK.choice([0, 0.1, 0.3]))
    return Case(f"long random live rendering {count}", draft.files(), size, False)


def live(work, case):
    """A live rendering and the replay of its journal."""
    folder = folder_with(work, case.files)
    (folder / "j").unlink(missing_ok=True)
    answered = run(folder, LIVE + case.size)
    return Live(case, folder, answered, run(folder, AGAIN + case.size) if answered[0] == 0 else None)


def without_editors(said):
    return "".join(line for line in said.splitlines(keepends=True) if not line.startswith("editor "))


def check_journal(tally, done, session, kept):
    """That the session's editors can have made the journal, and that its text is canonical; its entries."""
    try:
        entries = host_reference.entries_of(kept, session)
    except host_reference.Refused as refused:
        tally.expect(f"{done.case.name}, journal", refused.args, "entries")
        return None
    block = int(done.case.size[0].removeprefix("block=")) if done.case.size else None
    tally.expect(f"{done.case.name}, text", journal_reference.text_of(entries), kept)
    tally.expect(f"{done.case.name}, legal", list(gesture_reference.flaws(session, entries, block)), [])
    return entries


def check_live(tally, done):
    """What was written and said; the entries of the journal, or none where the session can't be played."""
    written = contents(done.folder)
    again, kept = written.pop("again.wav", None), written.get("j", host_reference.NOTHING_DONE)
    status, said = done.answered
    if done.case.short:
        wanted = host_reference.answer(LIVE + done.case.size, done.case.files, kept)
        tally.expect(f"{done.case.name}, by the second renderer", (status, said), wanted[:2])
        files = {name: data for name, data in done.case.files.items() if name in written}
        tally.expect(f"{done.case.name}, files", written, {**files, **wanted[2]})
        if wanted[0]:
            return None
    session = session_reference.read(done.case.files["s"])
    entries = check_journal(tally, done, session, kept)
    editors = [line for line in said.splitlines() if line.startswith("editor ")]
    tally.expect(f"{done.case.name}, editors", (status, editors), (0, gesture_reference.editor_lines(session)))
    tally.expect(f"{done.case.name}, replayed", done.replayed, (0, without_editors(said)))
    tally.expect(f"{done.case.name}, samples", again == written["out.wav"], True)
    return entries


class Schedules:
    """When words came, over all runs."""

    def __init__(self):
        self.journals, self.places = {}, Counter()
        self.words = Counter()

    def add(self, done, entries):
        session = session_reference.read(done.case.files["s"])
        length = session.once[b"length"][0]
        self.journals.setdefault(done.case.name, []).append([entry[:3] for entry in entries])
        for entry in entries:
            self.places["at the first block" if entry[0] == 0 else "at the length" if entry[0] == length else "between"] += 1
        played = gesture_reference.all_played(session)
        self.words["accepted"] += sum(len(edits) for edits, _ in played)
        self.words["refused"] += sum(refused for _, refused in played)

    def differing(self):
        """The sessions whose journals aren't the same in each run."""
        return [name for name, journals in self.journals.items() if any(journal != journals[0] for journal in journals)]

    def say(self):
        print(f"random lives: {len(self.differing())} of {len(self.journals)} sessions have journals that differ from run to run;", end=" ")
        print("entries stand", ", ".join(f"{count} {place}" for place, count in sorted(self.places.items())))


def main():
    tally, schedules = Tally(), Schedules()
    cases = [short(count) for count in range(SHORT)] + [long(count) for count in range(LONG)] + [long(LONG, MOST_WORDS // 8)]
    with tempfile.TemporaryDirectory() as work, ThreadPoolExecutor(4) as pool:
        runs = [pool.submit(live, work, case) for case in cases for _ in range(RUNS)]
        for ran in runs:
            done = ran.result()
            entries = check_live(tally, done)
            if entries is not None:
                schedules.add(done, entries)
    schedules.say()
    for kind in ["accepted", "refused"]:
        tally.expect(f"words are {kind}", schedules.words[kind] > SHORT, True)
    tally.expect("entries stand between blocks", schedules.places["between"] > LONG, True)
    tally.expect("journals differ from run to run", len(schedules.differing()) > 0, True)
    return tally.close("random lives")


if __name__ == "__main__":
    sys.exit(main())
