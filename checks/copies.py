"""Copies WAV files of other programs with `wav_copy`, which reads and writes by vh_wav over real files, and
compares the samples that Python's `wave` and, where they are there, sox and ffmpeg read with those that were
put in. Programs of packages that are missing are skipped."""
import pathlib
import shutil
import struct
import subprocess
import sys
import tempfile
import wave

from tally import Tally

TOP = pathlib.Path(__file__).resolve().parent.parent
CRATE = TOP / "crates/wav_copy"
PROGRAM = CRATE / "out/wav_copy"
TALLY = Tally()
expect = TALLY.expect


def build():
    sources = [path for path in TOP.glob("crates/*/src/**/*.rt")]
    newest = max(path.stat().st_mtime for path in sources)
    if not PROGRAM.exists() or PROGRAM.stat().st_mtime < newest:
        subprocess.run(["rt", "run"], cwd=CRATE, stdin=subprocess.DEVNULL, stdout=subprocess.DEVNULL, stderr=subprocess.DEVNULL)
    return PROGRAM.exists()


def in_bytes(samples, width):
    return b"".join(sample.to_bytes(width, "little", signed=True) for sample in samples)


def from_bytes(data, width):
    return [int.from_bytes(data[i : i + width], "little", signed=True) for i in range(0, len(data), width)]


def rounded(samples, bits, to):
    """Samples of so many bits in a file of `to` bits: the lower ones are cut off, rounded down."""
    return [(sample << 8 if bits == 16 else sample) >> (24 - to) for sample in samples]


def written(path, samples, channels, bits, rate=44100):
    with wave.open(str(path), "wb") as made:
        made.setnchannels(channels)
        made.setsampwidth(bits // 8)
        made.setframerate(rate)
        made.writeframes(in_bytes(samples, bits // 8))


def by_wave(path):
    with wave.open(str(path)) as opened:
        data = opened.readframes(opened.getnframes())
        return opened.getnchannels(), 8 * opened.getsampwidth(), opened.getframerate(), from_bytes(data, opened.getsampwidth())


def by_sox(path, bits):
    done = subprocess.run(["sox", "-D", str(path), "-t", "raw", "-e", "signed", "-b", str(bits), "-L", "-"], check=True, capture_output=True)
    return from_bytes(done.stdout, bits // 8)


def by_ffmpeg(path, bits):
    done = subprocess.run(["ffmpeg", "-v", "error", "-i", str(path), "-f", f"s{bits}le", "-c:a", f"pcm_s{bits}le", "-"], check=True, capture_output=True)
    return from_bytes(done.stdout, bits // 8)


def copied(folder, name, to):
    return subprocess.run([PROGRAM, name, "out.wav", str(to)], cwd=folder, stdout=subprocess.PIPE).returncode


def check_copy(name, folder, samples, channels, bits, rate):
    """The file `in.wav` of the folder has these samples; its copies have them too."""
    for to in [16, 24]:
        expect(f"{name} to {to} bits", copied(folder, "in.wav", to), 0)
        want = rounded(samples, bits, to)
        out = folder / "out.wav"
        expect(f"{name} to {to} bits, by wave", by_wave(out), (channels, to, rate, want))
        if shutil.which("sox"):
            expect(f"{name} to {to} bits, by sox", by_sox(out, to), want)
        if shutil.which("ffmpeg"):
            expect(f"{name} to {to} bits, by ffmpeg", by_ffmpeg(out, to), want)


def samples_of(count, bits):
    most = 1 << (bits - 1)
    edges = [0, 1, -1, 255, 256, -256, -257, most - 1, -most]
    return [edges[i % len(edges)] if i % 7 else (i * 7919 * 131) % (2 * most) - most for i in range(count)]


def check_wave(work):
    for bits in [16, 24]:
        for channels in [1, 2]:
            for frames in [0, 1, 3, 70000]:
                folder = pathlib.Path(tempfile.mkdtemp(dir=work))
                samples = samples_of(frames * channels, bits)
                written(folder / "in.wav", samples, channels, bits)
                check_copy(f"{frames} frames of {channels} channels of {bits} bits", folder, samples, channels, bits, 44100)


def check_extensible(work):
    """The extensible form, with a chunk of odd size before the samples."""
    folder = pathlib.Path(tempfile.mkdtemp(dir=work))
    head = struct.pack("<4sI4s4sIHHIIHHHHIH", b"RIFF", 80, b"WAVE", b"fmt ", 40, 65534, 2, 44100, 264600, 6, 24, 22, 24, 3, 1)
    behind = bytes.fromhex("000000001000800000aa00389b71") + struct.pack("<4sI5sx4sI", b"LIST", 5, b"abcde", b"data", 6)
    (folder / "in.wav").write_bytes(head + behind + in_bytes([1, -1], 3))
    check_copy("the extensible form", folder, [1, -1], 2, 24, 44100)


def check_sox(work):
    for bits in [16, 24]:
        for channels in [1, 2]:
            folder = pathlib.Path(tempfile.mkdtemp(dir=work))
            made = ["sox", "-R", "-D", "-n", "-r", "48000", "-b", str(bits), "-c", str(channels), "--comment", "a comment of odd size", str(folder / "in.wav")]
            subprocess.run(made + ["synth", "0.25", "sine", "440", "gain", "-3"], check=True)
            check_copy(f"{channels} channels of {bits} bits, made by sox", folder, by_sox(folder / "in.wav", bits), channels, bits, 48000)


def check_ffmpeg(work):
    for bits in [16, 24]:
        for channels in [1, 2]:
            folder = pathlib.Path(tempfile.mkdtemp(dir=work))
            sound = f"sine=frequency=440:duration=0.25:sample_rate=32000"
            made = ["ffmpeg", "-v", "error", "-f", "lavfi", "-i", sound, "-ac", str(channels), "-metadata", "title=A title", "-c:a", f"pcm_s{bits}le", str(folder / "in.wav")]
            subprocess.run(made, check=True)
            check_copy(f"{channels} channels of {bits} bits, made by ffmpeg", folder, by_ffmpeg(folder / "in.wav", bits), channels, bits, 32000)


def main():
    if not build():
        print("checks: skipped, wav_copy can't be built")
        return 0
    with tempfile.TemporaryDirectory() as work:
        check_wave(work)
        check_extensible(work)
        if shutil.which("sox"):
            check_sox(work)
        if shutil.which("ffmpeg"):
            check_ffmpeg(work)
    return TALLY.close("copies")


if __name__ == "__main__":
    sys.exit(main())
