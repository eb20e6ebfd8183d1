#!/usr/bin/env python3
"""What the program `update_bench` must print, by a model of its own, written from docs/RULES.md: nothing here is taken from the
Rattle code.

    python3 tools/bench_model.py < INPUT

As a module: run(bytes) gives the lines; Controller is one controller with its memory.
"""
import binascii
import sys

SEGMENT = 512
BLANK = b"\xff" * SEGMENT
APPROVED, ERASED = 0x5A, 0xFF
WAITING, LISTENING, RUNNING = "waiting", "listening", "running"
COPY, MARK_ERASE, DOWNLOAD_ERASE, HOST_COMMAND = 1, 2, 3, 4
INVALID_PARAMS, INCORRECT_COMMAND, VERSION = 0xC5, 0xC6, 0xA0


class SupplyLost(Exception):
    """The supply went in a change, or was off."""


class Malformed(Exception):
    """The input is not of the form that the bench takes."""


def ccitt(data):
    return binascii.crc_hqx(data, 0xFFFF)


def word(low, high):
    return low + 256 * high


def startable(area):
    return word(*area[-2:]) != 0xFFFF and word(*area[:2]) == ccitt(area[2:])


class Memory:
    def __init__(self, size, fram, cuts):
        self.bytes = bytearray(b"\xff" * size)
        self.fram = fram
        self.cuts = list(cuts)  # those still to come, as pairs of count and pattern
        self.finished = 0       # changes since the making or the last cut
        self.on = True

    def begin(self):
        """Begins a change: the pattern that tears it, or None if it finishes."""
        if not self.on:
            raise SupplyLost
        if self.cuts and self.cuts[0][0] == self.finished:
            self.finished, self.on = 0, False
            return self.cuts.pop(0)[1]
        self.finished += 1
        return None

    def write(self, place, byte):
        pattern, old = self.begin(), self.bytes[place]
        if pattern is None:
            self.bytes[place] = byte if self.fram else old & byte
            return
        self.bytes[place] = old if self.fram else old & (byte | pattern & 0xFF)
        raise SupplyLost

    def erase(self, segment):
        pattern, here = self.begin(), slice(SEGMENT * segment, SEGMENT * (segment + 1))
        if pattern is None:
            self.bytes[here] = BLANK
            return
        old = self.bytes[here]
        reached = pattern % SEGMENT
        self.bytes[here] = BLANK[:reached] + old[reached:] if self.fram else bytes(byte | pattern & 0xFF for byte in old)
        raise SupplyLost


class Controller:
    """A controller just commissioned, on an erased memory. Its calls give the letter and the number of a line."""

    def __init__(self, k, b, fram, cuts):
        size = SEGMENT * (1 + 2 * k + b)
        self.k = k
        self.download = SEGMENT
        self.application = SEGMENT * (1 + k)
        self.length = SEGMENT * k
        self.base = self.application + 65536 - size  # the application area's first address
        self.memory = Memory(size, fram, cuts)
        self.wait()
        self.job = None  # at work, or the last that was

    def wait(self):
        self.phase, self.packet = WAITING, bytearray()

    def area(self, place):
        return self.memory.bytes[place:place + self.length]

    def restart(self, pin_high, password, status):
        self.memory.on = True
        self.wait()
        try:
            self.mend()
        except SupplyLost:
            return "R", 2
        asked = not pin_high or (password == 0xC0DE and status % 2 == 1)
        if not asked and startable(self.area(self.application)):
            self.phase = RUNNING
            return "S", 0
        self.phase = LISTENING
        return "L", 0

    def mend(self):
        memory, mark = self.memory, self.memory.bytes[0]
        if mark == APPROVED:
            self.job = COPY
            for i in range(self.k):
                memory.erase(1 + self.k + i)
                for offset in range(SEGMENT * i, SEGMENT * (i + 1)):
                    memory.write(self.application + offset, memory.bytes[self.download + offset])
        if mark != ERASED:
            self.job = MARK_ERASE
            memory.erase(0)
            self.job = DOWNLOAD_ERASE
            for i in range(self.k):
                memory.erase(1 + i)

    def receive(self, byte):
        if self.phase != LISTENING:
            return "R", 6
        self.packet.append(byte)
        try:
            answer = self.hear(self.packet)
        except SupplyLost:
            self.wait()
            return "R", 2
        if answer is None:
            return "N", 0
        self.packet = bytearray()
        return "A", answer

    def hear(self, packet):
        if packet[0] != 0x80:
            return 0x51
        if len(packet) == 1:
            return None
        n = packet[1]
        if n == 0:
            return 0x53
        if n > 19:
            return 0x54
        if len(packet) < 2 + n + 2:
            return None
        payload, stored = packet[2:2 + n], packet[2 + n:]
        if ccitt(payload) != word(*stored):
            return 0x52
        return self.obey(payload)

    def obey(self, payload):
        self.job = HOST_COMMAND
        command, data = payload[0], payload[3:]
        offset = word(*payload[1:3]) - self.base if len(payload) >= 3 else None
        if command == 0x12:
            if offset is None or not 0 <= offset < self.length or offset % SEGMENT != 0:
                return INVALID_PARAMS
            self.memory.erase(1 + offset // SEGMENT)
            return 0
        if command == 0x15:
            for i in range(self.k):
                self.memory.erase(1 + i)
            return 0
        if command == 0x10:
            if offset is None or not data or offset < 0 or offset + len(data) > self.length:
                return INVALID_PARAMS
            for i, byte in enumerate(data):
                self.memory.write(self.download + offset + i, byte)
            return 0
        if command == 0x19:
            return VERSION
        if command == 0x1C:
            self.phase = WAITING
            if not startable(self.area(self.download)):
                return INVALID_PARAMS
            self.memory.write(0, APPROVED)
            return 0
        return INCORRECT_COMMAND


class Input:
    def __init__(self, data):
        self.data, self.at = data, 0

    def take(self, count):
        taken = self.data[self.at:self.at + count]
        if len(taken) < count:
            raise Malformed
        self.at += count
        return taken

    def number(self, count):
        return int.from_bytes(self.take(count), "little")


def demand(fine):
    if not fine:
        raise Malformed


def play(controller, event):
    tag, *rest = event
    demand(tag <= 1)
    if tag == 0:
        pin, low, high, status = rest
        demand(pin <= 1)
        return controller.restart(pin == 1, word(low, high), status)
    demand(rest[1:] == [0, 0, 0])
    return controller.receive(rest[0])


def run(data):
    source, number, lines = Input(data), 0, []

    def tell(letter, value):
        lines.append("%d %s %02X\n" % (number, letter, value))

    try:
        demand(source.number(1) == 3)
        k, b, kind = source.take(3)
        demand(kind <= 1)
        count = source.number(2)
        demand(count <= 64)
        cuts = [(source.number(4), source.number(2)) for _ in range(count)]
        if not (1 <= k <= 48 and 1 <= b <= 8):
            tell("R", 1)
            return "".join(lines)
        controller = Controller(k, b, kind == 1, cuts)
        for number in range(1, source.number(2) + 1):
            tell(*play(controller, source.take(5)))
    except Malformed:
        tell("R", 7)
    return "".join(lines)


if __name__ == "__main__":
    sys.stdout.write(run(sys.stdin.buffer.read()))
