"""The program that is checked, and runs of it in a folder."""
import os
import pathlib
import subprocess

TOP = pathlib.Path(__file__).resolve().parent.parent


def built():
    """The program's path: the one that VSTHOST names, or the repository's, which is built first where it has to be."""
    if "VSTHOST" in os.environ:
        return os.environ["VSTHOST"]
    subprocess.run([TOP / "vsthost"], stdin=subprocess.DEVNULL, stdout=subprocess.DEVNULL)
    return str(TOP / "crates/vsthost/out/vsthost")


PROGRAM = built()


def run(folder, words, stdout=subprocess.PIPE, **more):
    """The status and what is said where the program runs with these words in this folder."""
    done = subprocess.run([PROGRAM, *words], cwd=folder, stdin=subprocess.DEVNULL, stdout=stdout, stderr=subprocess.DEVNULL, **more)
    return done.returncode, (done.stdout or b"").decode()
