"""Renders inputs that are refused or that other programs made, row by row, and random ones, the same in each run: what the
built program says and writes is compared with the row's fault and with host_reference."""
import pathlib
import random
import shutil
import struct
import subprocess
import sys
import tempfile

import host_reference
from made import GAIN, MONO, STEREO, samples_in, session
from program import run
from tally import Tally

WORDS = ["render", "s", "in.wav", "out.wav"]
RANDOM = 400
LEAST = 5  # how often each kind of fault has to come
PICK = random.Random(2026)
FORMAT = MONO[12:36]
TWO_DATA = b"data\2\0\0\0\1\0data\4\0\0\0\1\0\2\0"
LIST = b"LIST\5\0\0\0abcde"


def form(tag=1, channels=1, rate=48000, align=2, bits=16):
    return struct.pack("<4sIHHIIHH", b"fmt ", 16, tag, channels, rate, 0, align, bits)


CHANGED = [  # a file, a place, the byte that stands there then, and the fault's number
    (MONO, 3, b"X", 1),
    (MONO, 8, b"w", 1),
    (MONO, 12, b"F", 2),
    (MONO, 16, b"\x0f", 3),
    (MONO, 20, b"\3", 4),
    (MONO, 22, b"\0", 3),
    (MONO, 22, b"\3", 4),
    (MONO, 26, b"\x0c", 4),
    (MONO, 32, b"\4", 3),
    (MONO, 34, b"\x08", 4),
    (MONO, 36, b"D", 5),
    (MONO, 40, b"\7", 6),
    (STEREO, 16, b"\x27", 3),
    (STEREO, 44, b"\3", 4),
    (STEREO, 59, b"\0", 4),
    (STEREO, 64, b"\xff", 6),
    (STEREO, 0, b"R", 7),
]
CHUNKS = [  # the chunks of a file, and the fault's number, or the samples
    ([TWO_DATA, FORMAT], 2),
    ([b"data\xff\xff\xff\xff\1\0"], 6),
    ([form(bits=8), FORMAT, TWO_DATA], 4),
    ([form(bits=8), b"data\xff\xff\xff\xff\1\0"], 4),
    ([form(rate=0), TWO_DATA], 3),
    ([form(rate=768001), TWO_DATA], 4),
    ([form(rate=768000), TWO_DATA], [1, 0, 0]),
    ([form(rate=1), TWO_DATA], [1, 0, 0]),
    ([form(channels=0, bits=8), TWO_DATA], 4),
    ([form(channels=3, rate=0), TWO_DATA], 3),
    ([form(channels=3, align=5), TWO_DATA], 4),
    ([form(channels=2), TWO_DATA], 3),
    ([form(channels=2, align=4), TWO_DATA], 7),
    ([form(channels=2, align=4), b"data\xff\xff\xff\xff\1\0"], 6),
    ([FORMAT, LIST], 5),
    ([FORMAT, LIST + b"\0"], 5),
    ([FORMAT, b"LIST\xff\xff\xff\xffab", TWO_DATA], 6),
    ([FORMAT, form(bits=8), TWO_DATA], [1, 0, 0]),
    ([FORMAT, LIST + b"\0", b"data\3\0\0\0\1\0\2"], [1, 0, 0]),
    ([FORMAT, b"data\0\0\0\0"], [0, 0, 0]),
]


def riff(chunks):
    return b"RIFF\0\0\0\0WAVE" + b"".join(chunks)


def rows():
    found = [(f"byte {at} is {byte}", data[:at] + byte + data[at + 1 :], kind) for data, at, byte, kind in CHANGED]
    found += [(f"chunks, row {row}", riff(chunks), outcome) for row, (chunks, outcome) in enumerate(CHUNKS)]
    ends = [(12, 1), (20, 2), (36, 6), (44, 5), (50, 6)]
    return found + [(f"{size} bytes", MONO[:size], next(kind for end, kind in ends if size < end)) for size in range(50)]


def field(size, near):
    """A number of so many bytes, most often one that means something."""
    most = 256**size - 1
    return PICK.choice([0, 1, 2, 3, 16, 24, 40, near, near + 1, most, 0xFFFE & most, 768_000 & most, PICK.randint(0, most)]) & most


def chunk():
    kind = PICK.random()
    channels, bits = PICK.choice([1, 1, 2]), PICK.choice([16, 24])
    if kind < 0.35:
        return form(PICK.choice([1, 1, 1, 0xFFFE]), channels, PICK.choice([48000, 1]), channels * bits // 8, bits)
    if kind < 0.45:
        return b"fmt " + STEREO[16:60]
    body = PICK.randbytes(PICK.choice([0, 1, 2, 5, 6, 12, 13]))
    return PICK.choice([b"data", b"data", b"LIST", b"junk"]) + struct.pack("<I", len(body)) + body + bytes(len(body) % 2)


def drawn():
    """A random input."""
    data = bytearray(PICK.choice([MONO, STEREO, riff([form(), chunk(), chunk()]), riff([chunk() for _ in range(PICK.randint(0, 5))])]))
    for _ in range(PICK.choice([0, 0, 1, 1, 2])):
        size = PICK.choice([1, 2, 2, 4, 4])
        at = PICK.randrange(0, len(data), 2) if len(data) > 12 else 0
        data[at : at + size] = field(size, len(data) - at).to_bytes(size, "little")
    return bytes(data[: PICK.randrange(len(data) + 1)]) if PICK.random() < 0.15 else bytes(data)


def check(tally, folder, name, files):
    """Renders a file, compares all with the second renderer's, and answers what was said and written."""
    for file, data in files.items():
        (folder / file).write_bytes(data)
    out = folder / "out.wav"
    out.unlink(missing_ok=True)
    status, said = run(folder, WORDS)
    written = out.read_bytes() if out.exists() else None
    answer = host_reference.answer(WORDS, files)
    tally.expect(f"{name}, by the second renderer", (status, said, written), (*answer[:2], answer[2].get("out.wav")))
    return status, said, written


def check_rows(tally, folder):
    for name, data, outcome in rows():
        status, said, written = check(tally, folder, name, {"s": session(), "in.wav": data})
        if isinstance(outcome, int):
            tally.expect(name, (status, said, written), (3, f"refused wav {outcome}\n", None))
        else:
            tally.expect(name, (status, written and samples_in(written)), (0, outcome))


def check_random(tally, folder):
    came = dict.fromkeys(range(1, 8), 0)
    for count in range(RANDOM):
        files = {"s": session(GAIN, 5, PICK.choice([1, 1, 2]), PICK.choice([16, 24])), "in.wav": drawn()}
        status, said, _ = check(tally, folder, f"random input {count}", files)
        if status == 3:
            came[int(said.split()[2])] += 1
    for kind, count in came.items():
        tally.expect(f"kind {kind} comes", min(count, LEAST), LEAST)


def made_by_sox(path, bits, channels):
    """Makes a tone with a comment before it, and answers its samples' bytes."""
    tone = ["-R", "-D", "-n", "-r", "44100", "-b", str(bits), "-c", str(channels), "--comment", "a comment", path, "synth", "0.05", "sine", "440"]
    subprocess.run(["sox", *tone], check=True)
    return subprocess.run(["sox", "-D", path, "-t", "raw", "-"], check=True, capture_output=True).stdout


def made_by_ffmpeg(path, bits, channels):
    """The same by ffmpeg, with a title."""
    tone = ["-f", "lavfi", "-i", "sine=frequency=440:duration=0.05:sample_rate=32000", "-ac", str(channels), "-metadata", "title=A title"]
    subprocess.run(["ffmpeg", "-v", "error", *tone, "-c:a", f"pcm_s{bits}le", path], check=True)
    raw = ["-f", f"s{bits}le", "-c:a", f"pcm_s{bits}le", "-"]
    return subprocess.run(["ffmpeg", "-v", "error", "-i", path, *raw], check=True, capture_output=True).stdout


def check_others(tally, folder):
    """Files that other programs make, with what they put before the samples: a gain that changes nothing gives the samples."""
    for tool, maker in [("sox", made_by_sox), ("ffmpeg", made_by_ffmpeg)]:
        for bits, channels in [(16, 1), (24, 1), (16, 2), (24, 2)] if shutil.which(tool) else []:
            name = f"{channels} channels of {bits} bits, made by {tool}"
            path = folder / f"{tool}{bits}{channels}.wav"
            samples = maker(path, bits, channels)
            frames = len(samples) * 8 // (bits * channels)
            status, _, written = check(tally, folder, name, {"s": session(GAIN, frames, channels, bits, "512"), "in.wav": path.read_bytes()})
            tally.expect(name, (status, written and written[44 : 44 + len(samples)]), (0, samples))


def main():
    tally = Tally()
    with tempfile.TemporaryDirectory() as name:
        folder = pathlib.Path(name)
        check_rows(tally, folder)
        check_random(tally, folder)
        check_others(tally, folder)
    return tally.close("inputs")


if __name__ == "__main__":
    sys.exit(main())
