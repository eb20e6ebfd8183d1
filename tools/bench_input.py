#!/usr/bin/env python3
"""Makes inputs of the program `update_bench`.

    python3 tools/bench_input.py whole          a restart and one whole frame
    python3 tools/bench_input.py update         an update in flash, with wrong frames and a supply that fails in every job
    python3 tools/bench_input.py update fram    the same in FRAM
    python3 tools/bench_input.py large          the largest layout filled, approved, copied with one cut, and run

each writes the input to standard output. As a module: the payloads of the commands, frame, sealed, and Script.
"""
import os
import random
import sys

sys.path.insert(0, os.path.dirname(os.path.abspath(__file__)))
sys.dont_write_bytecode = True
import bench_model
from bench_model import ccitt

LOW, HIGH = 0, 1
ERASE_APP, VERSION, JUMP = b"\x15", b"\x19", b"\x1c"


def number(value, count):
    return value.to_bytes(count, "little")


def erase_segment(address):
    return b"\x12" + number(address, 2)


def block(address, data):
    return b"\x10" + number(address, 2) + data


def frame(payload):
    return bytes([0x80, len(payload)]) + payload + number(ccitt(payload), 2)


def sealed(image):
    """The image with its stored sum put right."""
    return number(ccitt(image[2:]), 2) + image[2:]


def noise(length, seed):
    """A sealed image of pseudo-random bytes, with entry 0xE002."""
    return sealed(random.Random(seed).randbytes(length - 2) + number(0xE002, 2))


class Script:
    """An input in the making. The model plays it along, so that a cut can be put so many changes from here."""

    def __init__(self, k, b, fram=False):
        self.head = bytes([3, k, b, fram])
        self.cuts, self.events = [], []
        self.controller = bench_model.Controller(k, b, fram, [])
        self.base, self.length = self.controller.base, self.controller.length

    def cut(self, after, pattern):
        """After so many more changes one is torn. The cut before has to be used up."""
        memory = self.controller.memory
        assert not memory.cuts
        memory.cuts.append((memory.finished + after, pattern))
        self.cuts += memory.cuts

    def restart(self, pin=LOW, password=0, status=0):
        self.events.append(bytes([0, pin]) + number(password, 2) + bytes([status]))
        return self.controller.restart(pin == HIGH, password, status)

    def receive(self, *received):
        for byte in received:
            self.events.append(bytes([1, byte, 0, 0, 0]))
            told = self.controller.receive(byte)
        return told

    def send(self, payload):
        return self.receive(*frame(payload))

    def fill(self, image):
        """Sends an image in blocks of 16, until one is not answered 0x00."""
        for at in range(0, len(image), 16):
            told = self.send(block(self.base + at, image[at:at + 16]))
            if told != ("A", 0):
                break
        return told

    def input(self):
        cuts = b"".join(number(count, 4) + number(pattern, 2) for count, pattern in self.cuts)
        return self.head + number(len(self.cuts), 2) + cuts + number(len(self.events), 2) + b"".join(self.events)


def expect(told, letter, value=0):
    assert told == (letter, value), told


def whole():
    s = Script(1, 1)
    expect(s.restart(HIGH), "L")
    expect(s.send(VERSION), "A", 0xA0)
    return s.input()


def update(fram):
    s = Script(1, 1, fram)
    image = noise(s.length, 1)
    expect(s.receive(0x80), "R", 6)
    expect(s.restart(), "L")
    expect(s.send(VERSION), "A", 0xA0)
    # wrong frames and commands
    expect(s.receive(0x7F), "A", 0x51)
    expect(s.receive(0x80, 0), "A", 0x53)
    expect(s.receive(0x80, 20), "A", 0x54)
    expect(s.receive(*frame(ERASE_APP)[:-1], 0xA2), "A", 0x52)
    expect(s.send(b"\x11"), "A", 0xC6)
    expect(s.send(erase_segment(s.base + 1)), "A", 0xC5)
    expect(s.send(block(s.base + s.length - 1, b"\xaa\xbb")), "A", 0xC5)
    # the supply goes in a block, and then in an erase
    expect(s.send(ERASE_APP), "A")
    s.cut(3 * 16 + 5, 0x0F)
    expect(s.fill(image), "R", 2)
    expect(s.receive(0x80), "R", 6)
    expect(s.restart(), "L")
    s.cut(0, 0x33)
    expect(s.send(erase_segment(s.base)), "R", 2)
    expect(s.restart(), "L")
    # nothing startable has come in yet
    expect(s.send(JUMP), "A", 0xC5)
    expect(s.receive(0x80), "R", 6)
    expect(s.restart(), "L")
    # the supply goes in the write of the mark: flash has some mark then, and FRAM none
    expect(s.send(ERASE_APP), "A")
    expect(s.fill(image), "A")
    s.cut(0, 0xA0)
    expect(s.send(JUMP), "R", 2)
    expect(s.restart(HIGH), "L")
    # all of it again, and approved
    expect(s.send(erase_segment(s.base)), "A")
    expect(s.fill(image), "A")
    expect(s.send(JUMP), "A")
    expect(s.receive(0x80), "R", 6)
    # the supply goes in a write of the copy, in its erase, in the mark erase, which leaves the mark, and in the download erase
    s.cut(100, 0x3C)
    expect(s.restart(HIGH), "R", 2)
    s.cut(0, 0x81)
    expect(s.restart(), "R", 2)
    s.cut(513, 0)
    expect(s.restart(HIGH), "R", 2)
    if not fram:
        s.cut(513, 0x01)  # leaves another mark, so that nothing is copied any more
        expect(s.restart(HIGH), "R", 2)
    s.cut(514 if fram else 1, 0x0155)
    expect(s.restart(HIGH), "R", 2)
    # it runs, listens where it is asked to, and runs
    expect(s.restart(HIGH), "S")
    expect(s.receive(0x80), "R", 6)
    expect(s.restart(HIGH, 0xC0DE, 1), "L")
    expect(s.send(VERSION), "A", 0xA0)
    expect(s.restart(HIGH, 0xC0DE, 2), "S")
    return s.input()


def large():
    s = Script(48, 8)
    expect(s.restart(), "L")
    expect(s.send(ERASE_APP), "A")
    expect(s.fill(noise(s.length, 2)), "A")
    expect(s.send(JUMP), "A")
    s.cut(24 * 513 + 200, 0x5C)
    expect(s.restart(HIGH), "R", 2)
    expect(s.restart(HIGH), "S")
    return s.input()


INPUTS = {
    ("whole",): whole,
    ("update",): lambda: update(False),
    ("update", "fram"): lambda: update(True),
    ("large",): large,
}

if __name__ == "__main__":
    if tuple(sys.argv[1:]) not in INPUTS:
        sys.exit(__doc__)
    sys.stdout.buffer.write(INPUTS[tuple(sys.argv[1:])]())
