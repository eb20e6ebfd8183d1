#!/usr/bin/env python3
"""Compares a program with the model of `update_bench` on random inputs.

    python3 tools/bench_fuzz.py PROGRAM [N] [SEED]

runs PROGRAM on some 500 fixed inputs at the edges of the form and on N random ones (1000 if none is given), tells what came up
in them and how many came out differently, and keeps the first few of those in a temporary folder. Equal seeds make equal inputs.
Status 1 where any was different.

Most random inputs are stories on small layouts: images are filled in, approved and copied, while the supply goes at places where it
matters and some frames are wrong. Some of them are then spoilt into malformed ones.
"""
import collections
import os
import random
import subprocess
import sys
import tempfile

sys.path.insert(0, os.path.dirname(os.path.abspath(__file__)))
sys.dont_write_bytecode = True
import bench_model
from bench_input import ERASE_APP, HIGH, JUMP, LOW, VERSION, Script, block, erase_segment, frame, number, sealed
from bench_model import LISTENING, ccitt, word


def before(register, data):
    """What the register of CRC-CCITT held before these bytes, by what it holds after them."""
    for byte in reversed(data):
        for _ in range(8):
            register = (register ^ 0x1021) >> 1 | 0x8000 if register & 1 else register >> 1
        register ^= byte << 8
    return register


class Story:
    def __init__(self, rng, seen):
        self.rng, self.seen = rng, seen
        k = 48 if rng.random() < 0.01 else rng.choice([1, 1, 1, 2, 2, 3])
        self.script = Script(k, rng.randint(1, 8), rng.random() < 0.5)
        self.controller = self.script.controller
        self.careless = rng.choice([0, 0.02, 0.2])  # how often a frame is spoilt
        self.failing = rng.choice([0, 0.1, 0.5])    # how often a cut is put before a restart or a frame

    def play(self):
        for _ in range(self.rng.randint(1, 12)):
            steps = [self.install] * 2 + [self.command] * 3 + [self.approve, self.rest, self.babble]
            self.rng.choice(steps)()
        if self.rng.random() < 0.7:
            self.rest()
        return self.script.input()

    def note(self, told):
        if told == ("R", 2):
            self.seen["lost in job %d" % self.controller.job] += 1
        return told

    def maybe_cut(self, places):
        if self.rng.random() < self.failing and not self.controller.memory.cuts and len(self.script.cuts) < 64:
            pattern = self.rng.choice([0, 0x01, 0x5A, 0xA0, 0xA5, 0xFF, 0x100, 0x1FF, 0x200, 0xFF00, self.rng.randrange(65536)])
            self.script.cut(self.rng.choice(places), pattern)

    def restart(self, pin):
        k, mark = self.controller.k, self.controller.memory.bytes[0]
        if mark == 0x5A:
            self.maybe_cut([0, 512, 513 * k - 1, 513 * k, 513 * k, 513 * k + 1, 514 * k, self.rng.randrange(514 * k + 1)])
        elif mark != 0xFF:
            self.maybe_cut(range(k + 1))
        password = self.rng.choice([0, 0xC0DE, 0xDEC0, self.rng.randrange(65536)])
        return self.note(self.script.restart(pin, password, self.rng.choice([0, 1, 2, self.rng.randrange(256)])))

    def rest(self):
        """Restarts until one has finished."""
        while self.restart(self.rng.choice([LOW, HIGH, HIGH]))[0] == "R":
            pass

    def send(self, payload):
        """Sends one frame to a controller that listens, mostly."""
        if self.controller.phase != LISTENING and self.rng.random() < 0.97:
            while self.restart(LOW)[0] == "R":
                pass
        self.maybe_cut([0, 0, 0, 1, 2, self.rng.randrange(17), self.rng.randrange(600)])
        sent = bytearray(frame(payload))
        if self.rng.random() < self.careless:
            at = self.rng.randrange(len(sent))
            self.rng.choice([
                lambda: sent.__setitem__(at, sent[at] ^ 1 << self.rng.randrange(8)),
                lambda: sent.insert(at, self.rng.randrange(256)),
                lambda: sent.pop(at),
                lambda: sent.__delitem__(slice(at, None)),
            ])()
        return self.note(self.script.receive(*sent)) if sent else None

    def address(self):
        """One of the application area, or near its ends, or any."""
        base, length = self.script.base, self.script.length
        return self.rng.choice([
            base + self.rng.randrange(length),
            base + 512 * self.rng.randrange(length // 512),
            base + 512 * self.rng.randrange(length // 512),
            base + length - self.rng.randrange(20),
            base + self.rng.choice([-512, -1, 0, 1, length - 1, length, length + 1]),
            base - length + self.rng.randrange(length),
            self.rng.randrange(65536),
        ]) % 65536

    def command(self):
        self.send(self.rng.choice([
            VERSION, ERASE_APP, JUMP,
            VERSION + self.rng.randbytes(self.rng.randrange(19)),
            ERASE_APP + self.rng.randbytes(self.rng.randrange(19)),
            JUMP + self.rng.randbytes(self.rng.randrange(19)),
            erase_segment(self.address()),
            erase_segment(self.script.base + self.rng.choice([-512, 0, self.script.length - 512, self.script.length])),
            erase_segment(self.address()) + self.rng.randbytes(self.rng.randrange(17)),
            block(self.address(), self.rng.randbytes(self.rng.randrange(17))),
            block(self.address(), self.rng.randbytes(self.rng.randint(1, 16))),
            block(self.address(), self.rng.randbytes(16)),
            bytes([self.rng.choice([0x10, 0x12])]) + self.rng.randbytes(self.rng.randrange(2)),
            self.rng.randbytes(self.rng.randint(1, 19)),
        ]))

    def babble(self):
        for _ in range(self.rng.randint(1, 6)):
            self.note(self.script.receive(self.rng.choice([0x80, 0x80, 0, 1, 19, 20, self.rng.randrange(256)])))

    def image(self):
        """Sealed, mostly, with few blocks that are not blank, so that it is sent in few frames."""
        image = bytearray(b"\xff" * self.script.length)
        for _ in range(self.rng.randrange(5)):
            at = self.rng.randrange(len(image))
            image[at:at + 16] = self.rng.randbytes(len(image[at:at + 16]))
        image[-2:] = self.rng.choice([b"\x02\xe0", b"\xff\xfe", b"\xfe\xff", self.rng.randbytes(2), b"\xff\xff"])
        image = bytearray(sealed(bytes(image)))
        if self.rng.random() < 0.1:
            image[self.rng.randrange(len(image))] ^= 1 << self.rng.randrange(8)
        return bytes(image)

    def approve(self):
        """Makes the download area startable, by two blank bytes of it, and jumps: a byte that differs from the model's shows."""
        area = self.controller.area(self.controller.download)
        if area.endswith(b"\xff\xff"):
            self.send(block(self.script.base + len(area) - 2, b"\x02\xe0"))
            area = self.controller.area(self.controller.download)
        at = area.find(b"\xff\xff", self.rng.randrange(2, len(area) - 2), -2)
        if at >= 0:
            right = ccitt(area[2:at]) ^ before(word(*area[:2]), b"\0\0" + area[at + 2:])
            self.send(block(self.script.base + at, right.to_bytes(2, "big")))
        return self.send(JUMP)

    def install(self):
        """An image comes in, is approved and copied. Where the supply goes on the way, the host goes on or begins again."""
        image = self.image()
        for _ in range(3):
            told = self.send(ERASE_APP) if self.rng.random() < 0.95 else None
            for at in range(0, len(image), 16):
                data = image[at:at + 16]
                if data.strip(b"\xff") and (told != ("R", 2) or self.rng.random() < 0.5):
                    told = self.send(block(self.script.base + at, data))
            if told != ("R", 2) and self.send(JUMP) != ("R", 2):
                break
            if self.rng.random() < 0.5 and self.approve() == ("A", 0):
                break
        self.rest()


def spoilt(rng, data):
    data = bytearray(data)
    kind = rng.randrange(8)
    if kind == 0:
        return data[:rng.randrange(len(data))]
    if kind == 1:
        return data[:rng.randrange(min(20, len(data)))]
    if kind == 2:
        return data + rng.randbytes(rng.randint(1, 12))
    if kind == 3:
        data[rng.randrange(6)] = rng.choice([0, 1, 2, 3, 8, 9, 48, 49, 64, 65, rng.randrange(256)])
    if kind == 4:
        for _ in range(rng.randint(1, 3)):
            data[rng.randrange(len(data))] = rng.choice([0, 1, 2, rng.randrange(256)])
    if kind == 5:  # other cuts, as many as are allowed or one more
        count, had = rng.choice([1, 63, 64, 64, 65]), int.from_bytes(data[4:6], "little")
        counts = [0, 1, 20, 600, 0x10000, 0x10014, 0xFFFFFFFF]
        cuts = b"".join(number(rng.choice(counts), 4) + number(rng.randrange(65536), 2) for _ in range(count))
        data[4:6 + 6 * had] = number(count, 2) + cuts
    if kind == 6:  # no layout, or one that the events were not made for
        data[1], data[2] = rng.choice([0, 1, 2, 48, 49, 255]), rng.choice([0, 1, 8, 9, 255])
    if kind == 7:  # another count of events
        at = 6 + 6 * int.from_bytes(data[4:6], "little")
        data[at:at + 2] = number(rng.choice([0, 1, 65535, rng.randrange(65536)]), 2)
    return data


def edges():
    """A short input that ends at each place, or has another byte at each; and as many cuts as are allowed, and one more."""
    script = Script(1, 1)
    script.cut(0, 0)
    script.restart(HIGH)
    script.send(VERSION)
    script.restart(LOW, 0xC0DE, 1)
    data = script.input()
    for at in range(len(data)):
        yield data[:at]
        for value in 0, 1, 2, 8, 9, 48, 49, 65, 255:
            yield data[:at] + bytes([value]) + data[at + 1:]
    for count in 64, 65:
        yield data[:4] + number(count, 2) + bytes(6 * count) + data[12:]


def inputs(count, seed, seen):
    for i, data in enumerate(edges()):
        yield "edge %d" % i, data
    for i in range(count):
        rng = random.Random("%s %d" % (seed, i))
        if rng.random() < 0.02:
            yield "%d" % i, b"\x03" * rng.randrange(2) + rng.randbytes(rng.randrange(40))
            continue
        data = Story(rng, seen).play()
        yield "%d" % i, bytes(spoilt(rng, data)) if rng.random() < 0.25 else data


def main(program, count=1000, seed=1):
    seen, tried, different, folder = collections.Counter(), 0, 0, None
    for name, data in inputs(int(count), seed, seen):
        tried += 1
        expected = bench_model.run(data)
        for line in expected.splitlines():
            seen["line " + line.split(" ", 1)[1]] += 1
        done = subprocess.run([os.path.abspath(program)], input=data, stdout=subprocess.PIPE, timeout=60)
        if done.stdout != expected.encode() or done.returncode < 0:
            different += 1
            if different <= 5:
                folder = folder or tempfile.mkdtemp(prefix="bench_fuzz.")
                path = os.path.join(folder, name.replace(" ", "-"))
                with open(path, "wb") as file:
                    file.write(data)
                print("different: input %s of seed %s, status %d, kept as %s" % (name, seed, done.returncode, path))
    for what in sorted(seen):
        print("%8d  %s" % (seen[what], what))
    print("%d inputs of seed %s, %d different" % (tried, seed, different))
    return 1 if different else 0


if __name__ == "__main__":
    if not 2 <= len(sys.argv) <= 4:
        sys.exit(__doc__)
    sys.exit(main(*sys.argv[1:]))
