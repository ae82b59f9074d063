"""Runs each command that a document shows by itself on a line, and compares what is said with the lines below it, where `...`
stands for any lines. What a document links to, and each file of the repository that it names, has to be there; the manual
page tells each kind of refusal that the formats have; and the pictures are those that are drawn of renderings."""
import os
import re
import shutil
import subprocess
import sys
import tempfile
from pathlib import Path

from program import PROGRAM, TOP
from tally import Tally

DOCUMENTS = [TOP / "README.md", TOP / "CONTRIBUTING.md", TOP / "examples/README.md", *sorted((TOP / "docs").glob("*.md"))]
MANUAL = TOP / "docs/vsthost.1"
PARTS = {"Session": "session", "The journal": "journal", "Input": "wav", "Preset file": "preset"}  # of the formats, with kinds
TOOLS = {"./vsthost", "vsthost", "cat", "cmp", "ffmpeg", "head", "printf", "sed", "sox", "soxi", "tail"}  # what is run of what documents show
PATHS = r"(?<![\w/.-])((?:bench|checks|crates|docs|examples|tools)/[\w./-]*\w)"


def commands(text):
    """Each command that a text shows, and the lines below it."""
    found, shown = [], None
    for line in text.splitlines():
        if line.startswith("    $ "):
            shown = []
            found.append((line[6:], shown))
        elif line.startswith("    ") and shown is not None:
            shown.append(line[4:])
        else:
            shown = None
    return found


def plain(manual):
    """A manual page's text with its examples as other documents have them."""
    lines, literal = [], False
    for line in manual.splitlines():
        literal = line.startswith(".Bd -literal") or (literal and line != ".Ed")
        lines.append(f"    {line}" if literal and not line.startswith(".") else re.sub(r"^\.Dl ", "    ", line))
    return "\n".join(lines)


def pattern_of(lines):
    return re.compile("".join("(.*\n)*" if line.strip() == "..." else re.escape(line) + "\n" for line in lines))


def check_commands(tally, document, folder):
    """Runs a document's commands one after the other, but for those whose program isn't there and what needs their files."""
    unmade = set()
    text = document.read_text()
    env = {**os.environ, "PATH": f"{folder}:{os.environ['PATH']}"}
    for command, lines in commands(plain(text) if document == MANUAL else text):
        words = command.split()
        if words[0] not in TOOLS:
            continue
        lacking = [word for word in words if word in unmade and not (folder / word).exists()]
        if lacking or not shutil.which(words[0], path=env["PATH"]) and words[0] != "./vsthost":
            unmade |= {word for word in words[1:] if "." in word}
            continue
        done = subprocess.run(["sh", "-c", command], cwd=folder, env=env, stdin=subprocess.DEVNULL, capture_output=True, text=True)
        name = f"{document.name}: {command}"
        if lines:
            tally.expect(name, bool(pattern_of(lines).fullmatch(done.stdout)) or done.stdout, True)
        else:
            tally.expect(name, (done.returncode, done.stderr), (0, ""))


def anchor(heading):
    """The name under which a heading is linked to."""
    return re.sub(r"[^\w -]", "", heading.lower()).strip().replace(" ", "-")


def check_links(tally, document):
    text = document.read_text()
    for target in re.findall(r"\]\(([^)\s]+)\)", text):
        path, _, place = target.partition("#")
        if "://" in target:
            continue
        linked = document.parent / path if path else document
        tally.expect(f"{document.name} links to {target}", linked.exists(), True)
        if place and linked.exists():
            tally.expect(f"{document.name} links to {target}", place in map(anchor, re.findall(r"^#+ (.*)", linked.read_text(), re.M)), True)
    for path in re.findall(PATHS, text):
        if not Path(path).name.isupper():
            tally.expect(f"{document.name} names {path}", (TOP / path).exists(), True)


def kinds_told():
    """The kinds of refusals that the formats have, and those that the manual page tells, by what is refused."""
    told, part = {}, None
    for line in (TOP / "docs/formats.md").read_text().splitlines():
        part = PARTS.get(line[3:]) if line.startswith("## ") else part
        row = re.match(r"\| ([\d, ]+) \|", line)
        if part and row:
            told.setdefault(part, []).extend(row[1].split(", "))
    manual = re.split(r"^\.S[sh] (.*)$", MANUAL.read_text(), flags=re.M)
    parts = zip(manual[1::2], manual[2::2])
    return told, {name.removeprefix("refused "): re.findall(r"^\.It (\d+)$", text, re.M) for name, text in parts if name.startswith("refused ")}


def check_manual(tally):
    formats, manual = kinds_told()
    for refused in {*re.findall(r"\| `refused (\w+) .*KIND", (TOP / "docs/formats.md").read_text()), *manual}:
        tally.expect(f"the manual's kinds of {refused}", manual.get(refused), formats.get(refused))
    if shutil.which("mandoc"):
        done = subprocess.run(["mandoc", "-Tlint", "-Wstyle", MANUAL], capture_output=True, text=True)
        tally.expect("the manual page, by mandoc", [line for line in done.stdout.splitlines() if "mandoc.db" not in line], [])


def check_pictures(tally):
    with tempfile.TemporaryDirectory() as name:
        subprocess.run([TOP / "docs/draw_pictures", name], check=True)
        drawn = {path.name: path.read_text() for path in Path(name).iterdir()}
    tally.expect("pictures", drawn == {path.name: path.read_text() for path in (TOP / "docs/pictures").iterdir()}, True)


def main():
    tally = Tally()
    check_manual(tally)
    check_pictures(tally)
    for document in [*DOCUMENTS, MANUAL]:
        with tempfile.TemporaryDirectory() as name:
            folder = Path(name)
            (folder / "vsthost").symlink_to(PROGRAM)
            shutil.copytree(TOP / "examples", folder / "examples")
            check_commands(tally, document, folder)
        check_links(tally, document)
    return tally.close("documents")


if __name__ == "__main__":
    sys.exit(main())
