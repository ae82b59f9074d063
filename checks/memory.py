#!/usr/bin/env python3
"""Looks at the text of the library crates for memory that is taken unsaid: a function that is handed no allocator and whose
result has no want of memory names no allocator and calls none of the collections' methods that may take memory by themselves,
`push`, `extend_from_slice` and the like. This is a test of the text and no proof: each function's own text is looked at, so a
callee whose want of memory is passed over isn't found. What it lets pass is listed, with the reason."""
import re
import sys
from pathlib import Path

from tally import Tally

TOP = Path(__file__).resolve().parent.parent
TAKES = re.compile(r"\balloc\b|\bGlobal\b|\.(push|push_str|extend|insert|reserve|resize)\(|(?<!copy_)from_slice\(")
SAYS = re.compile(r"\balloc\b|AllocError")  # in a function's arguments or its result
CLAUSE = re.compile(r"(requires|ensures|decreases|invariant|ghost)(\s+\w+)?\s*$")
EXCEPTIONS = {  # by crate and function
    ("vh_back", "pass_on"): "a ring's push puts into a place that is there",
    ("vh_back", "send"): "a ring's push puts into a place that is there",
    ("vh_files", "open_reader"): "of real files, whose names are kept; a failed call",
    ("vh_files", "open_writer"): "of real files, whose names are kept; a failed call",
    ("vh_files", "append"): "a store in memory, for tests; want of memory is a failed call",
    ("vh_files", "create"): "a store in memory, for tests; want of memory is a failed call",
    ("vh_files", "write"): "what is said in memory, for tests; want of memory is a failed call",
    ("vh_stage", "sound"): "the push of an output of frames, which is the caller's",
}
SAMPLE = """
fn unsaid(list: &mut Vec<u32>) { let _ = list.push(1); }
fn handed(alloc: Global) -> Vec<u32> { Vec::new(alloc) }
fn told(list: &mut Vec<u32>) -> Result<(), AllocError> requires few { length list.old < 4 } { list.push(1) }
fn copied(to: &mut [u8], from: &[u8]) ensures { true } { to.copy_from_slice(from) }
fn named<F: Fn(u32) -> u32>(f: F) -> u32 { let list = Vec::new(Global); f(0) }
"""


def behind(text, at, opening, closing):
    """The place behind the bracket that closes the one at a place."""
    depth = 0
    for place in range(at, len(text)):
        if text[place] == opening:
            depth += 1
        elif text[place] == closing and text[place - 1 : place + 1] not in ("->", "=>"):
            depth -= 1
            if depth == 0:
                return place + 1
    return len(text)


def functions(text):
    """Each function of a text that has a body: its name, its arguments, its result and its body. Brackets in characters and
    texts are left out beforehand."""
    text = re.sub(r"//[^\n]*|b?'(\\.|[^'\\])'|b?\"(\\.|[^\"\\])*\"", "", text)
    for found in re.finditer(r"\bfn\s+(\w+)\s*", text):
        at = found.end()
        if text[at : at + 1] == "<":
            at = behind(text, at, "<", ">")
        end = behind(text, text.index("(", at), "(", ")")
        place, result = end, None
        while place < len(text) and text[place] != ";":
            if text[place] == "{":
                close = behind(text, place, "{", "}")
                result = text[end:place] if result is None else result
                if not CLAUSE.search(text[end:place]):
                    yield found[1], text[at:end], re.split(r"\b(?:requires|ensures)\b", result)[0], text[place:close]
                    break
                place = close
            else:
                place += 1


def unsaid(text):
    """The functions that take memory unsaid, and how many there are in all."""
    found = list(functions(text))
    return [name for name, given, result, body in found if TAKES.search(body) and not SAYS.search(given + result)], len(found)


def main():
    tally = Tally()
    tally.expect("what is found in a sample", unsaid(SAMPLE), (["unsaid", "named"], 5))
    seen, count = set(), 0
    for path in sorted(TOP.glob("crates/vh_*/src/**/*.rt")):
        if path.name == "tests.rt":
            continue
        crate = path.relative_to(TOP / "crates").parts[0]
        names, size = unsaid(path.read_text())
        count += size
        seen |= {(crate, name) for name in names}
    for crate, name in sorted(seen | set(EXCEPTIONS)):
        tally.expect(f"{crate}, {name}: takes memory unsaid", (crate, name) in seen, (crate, name) in EXCEPTIONS)
    tally.expect("functions that were read", count > 1000, True)
    return tally.close("memory")


if __name__ == "__main__":
    sys.exit(main())
