#!/usr/bin/env python3
"""What must not compile: a token of an object that is dropped or copied, and a life out of order.

Each row is a function that is added to a copy of a crate. The compiler has to refuse it with the error that is named;
it takes the first of each crate, which has none.
"""

import shutil
import subprocess
import sys
import tempfile
from pathlib import Path

from tally import Tally

ROOT = Path(__file__).resolve().parent.parent
STEPS = """
fn steps<T: Life + Drop>(opener: vh_counted::Opened<T>, layout: Layout, setup: &Setup) -> Processing<T> {{
    let initialized = Created::from(opener).initialize(layout);
    {}
}}
"""

ROWS = {
    "vh_counted": [
        ("an object that is dissolved", "fn keep(object: Counted<u32>, holder: Holder<u32>) { object.dissolve(holder); }", None),
        ("an object that is dropped", "fn lose(object: Counted<u32>) { let _ = object; }", "linear-value-let-go"),
        ("a holder that is dropped", "fn lose(holder: Holder<u32>) { let _ = holder; }", "linear-value-let-go"),
        ("an opener that is dropped", "fn lose(opener: Opened<u32>) { let _ = opener; }", "linear-value-let-go"),
        ("an ended object that is dropped", "fn lose(ended: Ended<u32>) { let _ = ended; }", "linear-value-let-go"),
        ("an ended object that is copied", "fn copy(ended: Ended<u32>) { let first = ended; ended.finish(); first.finish(); }", "borrow-e0382"),
    ],
    "vh_component": [
        ("steps in their order", STEPS.format("initialized.set_up(setup).activate().start()"), None),
        ("a component that processes before it is active", STEPS.format("initialized.set_up(setup).start()"), "unknown-method"),
        ("a component that is activated before it is set up", STEPS.format("initialized.activate().start()"), "unknown-method"),
        ("a component that is used after a step", "fn twice<T: Life + Drop>(ready: Ready<T>) -> (Active<T>, Active<T>) { (ready.activate(), ready.activate()) }", "borrow-e0382"),
    ],
}


def said_of(folder, crate, function):
    """The status and the words of a check of the crate's code with the function; it proves nothing."""
    path = folder / "crates" / crate / "src/lib.rt"
    text = path.read_text()
    path.write_text(f"{text}\n{function}\n")
    run = subprocess.run(["rt", "check", "--only="], cwd=path.parent.parent, capture_output=True, text=True)
    path.write_text(text)
    return run.returncode, run.stdout + run.stderr


def main():
    if shutil.which("rt") is None:
        print("checks: skipped, rt is missing")
        return 0
    tally = Tally()
    with tempfile.TemporaryDirectory() as at:
        folder = Path(at)
        lines = [line for line in (ROOT / "crates.txt").read_text().splitlines() if line.split(":")[0] in ROWS]
        (folder / "crates.txt").write_text("\n".join(lines) + "\n")
        shutil.copy(ROOT / "HANDLES", folder)
        for crate in ROWS:
            shutil.copytree(ROOT / "crates" / crate, folder / "crates" / crate, ignore=shutil.ignore_patterns("out", "must-fail"))
        for crate, rows in ROWS.items():
            for what, function, error in rows:
                status, said = said_of(folder, crate, function)
                tally.expect(what, status if error is None else f"error[{error}]" in said or said, 0 if error is None else True)
    return tally.close("not compiled")


if __name__ == "__main__":
    sys.exit(main())
