"""Compares what `./try` writes before any proof with what the built program does, by one rendering whose session names presets."""
import shutil
import subprocess
import sys
import tempfile
from pathlib import Path

from program import TOP, run
from tally import Tally

TOLD = "try: nothing is proved in this run; ./vsthost proves and builds\n"


def main():
    if shutil.which("rt") is None:
        print("checks: skipped, rt is missing")
        return 0
    tally = Tally()
    with tempfile.TemporaryDirectory() as name:
        folder = Path(name)
        shutil.copytree(TOP / "examples", folder / "examples")
        words = ["render", "examples/presets.session", "examples/pluck.wav"]
        done = run(folder, [*words, "built.wav"])
        tried = subprocess.run([TOP / "try", *words, "tried.wav"], cwd=folder, stdin=subprocess.DEVNULL, capture_output=True, text=True)
        tally.expect("status and report", (tried.returncode, tried.stdout), done)
        tally.expect("what is told beside", tried.stderr, TOLD)
        tally.expect("samples", (folder / "tried.wav").read_bytes() if (folder / "tried.wav").exists() else None, (folder / "built.wav").read_bytes())
    return tally.close("tries")


if __name__ == "__main__":
    sys.exit(main())
