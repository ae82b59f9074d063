"""Reads and writes WAV files as docs/formats.md tells, by none of the program's means."""
import struct

INTEGERS = bytes.fromhex("0100000000001000800000AA00389B71")


class Fault(Exception):
    """A fault of this kind's number."""


def need(holds, kind):
    if not holds:
        raise Fault(kind)


def form_of(body):
    """The channels, the rate and the bits of a `fmt ` chunk."""
    need(len(body) >= 16, 3)
    tag, channels, rate, _, align, bits = struct.unpack_from("<HHIIHH", body)
    need(tag in (1, 0xFFFE), 4)
    if tag == 0xFFFE:
        need(len(body) >= 40, 3)
        need(body[24:40] == INTEGERS, 4)
    need(bits in (16, 24), 4)
    need(channels and rate, 3)
    need(channels <= 2 and rate <= 768_000, 4)
    need(align == channels * bits // 8, 3)
    return channels, rate, bits


def sounds_of(data, channels, bits):
    """The samples of each channel, in units of 2^-23."""
    width = bits // 8
    whole = len(data) // (channels * width)
    samples = [int.from_bytes(data[at : at + width], "little", signed=True) << (24 - bits) for at in range(0, whole * channels * width, width)]
    return [samples[channel::channels] for channel in range(channels)]


def read(data):
    """The rate and the channels' samples of a file, or its first fault."""
    need(len(data) >= 12 and data[:4] == b"RIFF" and data[8:12] == b"WAVE", 1)
    at, form = 12, None
    while at + 8 <= len(data):
        name, size = struct.unpack_from("<4sI", data, at)
        body = data[at + 8 : at + 8 + size]
        need(len(body) == size, 6)
        if name == b"fmt " and form is None:
            form = form_of(body)
        if name == b"data":
            need(form, 2)
            channels, rate, bits = form
            return rate, sounds_of(body, channels, bits)
        at += 8 + size + size % 2
    raise Fault(5 if form else 2)


def file_of(channels, rate, bits):
    """The file with these channels' samples."""
    most = 1 << (bits - 1)
    frames = [min(max(x >> (24 - bits), -most), most - 1) for frame in zip(*channels) for x in frame]
    data = b"".join(x.to_bytes(bits // 8, "little", signed=True) for x in frames)
    align = len(channels) * bits // 8
    pad = len(data) % 2
    head = struct.pack("<4sI4s4sIHHIIHH4sI", b"RIFF", 36 + len(data) + pad, b"WAVE", b"fmt ", 16, 1, len(channels), rate, rate * align, align, bits, b"data", len(data))
    return head + data + bytes(pad)
