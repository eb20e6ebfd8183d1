#!/usr/bin/env python3
"""What the program `vectors` must print, worked out by a model of its own: nothing here is taken from the Rattle code.

    python3 tools/expected_vectors.py | diff - crates/vectors/stdout
"""
import binascii


def ccitt(data):
    return binascii.crc_hqx(data, 0xFFFF)


def crc8(data):
    register = 0
    for byte in data:
        register ^= byte
        for _ in range(8):
            register = (register << 1 ^ 0x07) & 0xFF if register & 0x80 else register << 1
    return register


SUMS = [
    ("no bytes", b"", 1),
    ("the byte 0x00", b"\x00", 1),
    ("the byte 0xFF", b"\xff", 1),
    ("the letter A", b"A", 1),
    ("the digits 1 to 9", b"123456789", 1),
    ("the command 0x15", b"\x15", 1),
    ("the command 0x1C", b"\x1c", 1),
    ("the command 0x19", b"\x19", 1),
    ("a pangram", b"The quick brown fox jumps over the lazy dog", 1),
    ("the letter A, 256 times", b"A", 256),
    ("an erased segment", b"\xff", 512),
    ("a cleared segment", b"\x00", 512),
    ("the digits 1 to 9, 1000 times", b"123456789", 1000),
    ("an erased area of 48 segments", b"\xff", 24576),
    ("all bit patterns of a nibble, 65536 bytes", bytes(17 * i for i in range(16)), 4096),
]


class Memory:
    def __init__(self, kind, length, fill, cuts):
        self.bytes = bytearray([fill]) * length
        self.kind, self.cuts, self.finished, self.on = kind, list(cuts), 0, True
        self.size = 512 * min(105, length // 512)

    def read(self, place):
        return self.bytes[place] if place < self.size else 0xFF

    def change(self, place, count, finish, tear):
        if place + count > self.size:
            return "refused with 3, past the end"
        if not self.on:
            return "refused with 2, supply lost at %d" % place
        if self.cuts and self.finished == self.cuts[0][0]:
            tear(self.cuts.pop(0)[1])
            self.finished, self.on = 0, False
            return "refused with 2, supply lost at %d" % place
        finish()
        self.finished += 1
        return "finished"

    def write(self, place, byte):
        def finish():
            self.bytes[place] = self.bytes[place] & byte if self.kind == "flash" else byte

        def tear(pattern):
            if self.kind == "flash":
                self.bytes[place] &= byte | pattern & 0xFF

        return self.change(place, 1, finish, tear)

    def erase(self, segment):
        place = 512 * segment

        def finish():
            self.bytes[place:place + 512] = b"\xff" * 512

        def tear(pattern):
            if self.kind == "flash":
                for q in range(place, place + 512):
                    self.bytes[q] |= pattern & 0xFF
            else:
                self.bytes[place:place + pattern % 512] = b"\xff" * (pattern % 512)

        return self.change(place, 512, finish, tear)


W, E, R, S = "write", "erase", "read", "restore"
LAST = 2 ** 64 - 1
SCENARIOS = [
    ("no cut", 1024, 0xFF, [], [(W, 3, 0x0F), (W, 3, 0xF3), (E, 0), (W, 3, 0xF3), (W, 1023, 0x80), (E, 1)]),
    ("no segment", 511, 0xFF, [(0, 0)], [(W, 0, 0x00), (E, 0), (R, 0)]),
    ("one segment and bytes beyond", 600, 0x00, [], [(E, 0), (W, 511, 0x55), (W, 512, 0x55), (E, 1), (R, 511), (R, 512)]),
    ("105 segments", 105 * 512, 0x33, [], [(E, 104), (W, 53759, 0x12), (W, 53760, 0x12), (E, 105), (R, 53759)]),
    ("more than 105 segments", 106 * 512, 0x33, [], [(E, 105), (W, 53760, 0x12), (E, 104), (R, 53760)]),
    ("places near the largest number", 512, 0xFF, [(0, 0)], [(W, LAST, 0x00), (E, LAST), (E, 2 ** 55), (R, LAST), (W, 0, 0x00)]),
    ("a write torn at once", 512, 0xFF, [(0, 0x0110)], [(W, 3, 0x07), (W, 3, 0x07), (E, 0), (W, 512, 0x00), (S,), (W, 3, 0x07)]),
    ("an erase torn after one change", 600, 0x05, [(1, 0x0112)], [(W, 0, 0x04), (E, 0), (R, 0), (R, 273), (R, 274), (S,)]),
    ("an erase torn and made again", 512, 0x05, [(0, 0xFFFF)], [(E, 0), (R, 510), (R, 511), (S,), (E, 0)]),
    ("cuts in a row", 512, 0xF0, [(0, 0xFF), (0, 0x00), (1, 0x0201)],
     [(W, 0, 0x10), (S,), (W, 1, 0x10), (S,), (W, 2, 0x10), (E, 0), (S,), (W, 4, 0x01)]),
    ("the supply returns while it is on", 512, 0xFF, [(1, 0x01)], [(S,), (W, 0, 0x00), (S,), (W, 1, 0x00), (S,), (S,), (W, 1, 0x00)]),
]


def sums():
    for name, unit, times in SUMS:
        data = unit * times
        print("%s: CRC-CCITT 0x%04X, CRC-8 0x%02X: agrees" % (name, ccitt(data), crc8(data)))
    print("%d agree, 0 differ" % len(SUMS))


def changes():
    for name, length, fill, cuts, ops in SCENARIOS:
        for kind in ("flash", "FRAM"):
            memory = Memory(kind, length, fill, cuts)
            print("%s, %s\n  size %d" % (name, kind, memory.size))
            for op in ops:
                if op[0] == W:
                    end = memory.write(op[1], op[2])
                    print("  write 0x%02X at %d: %s, reads 0x%02X" % (op[2], op[1], end, memory.read(op[1])))
                elif op[0] == E:
                    end = memory.erase(op[1])
                    print("  erase segment %d: %s, reads 0x%02X" % (op[1], end, memory.read(min(512 * op[1], LAST))))
                elif op[0] == R:
                    print("  read %d: 0x%02X" % (op[1], memory.read(op[1])))
                else:
                    memory.on = True
                    print("  the supply returns")
            print("  all bytes have the CRC-CCITT sum 0x%04X" % ccitt(bytes(memory.bytes)))


IMAGES = [("no bytes", b""), ("one byte", b"\x61"), ("two bytes", b"\x61\x62"), ("three bytes", b"\x61\x62\x63"),
          ("an erased segment", b"\xff" * 512), ("a segment with an entry", b"\xff" * 510 + b"\x00\xe0")]
SHORT = "none, the image is too short"


def report(image):
    entry = None if len(image) < 2 else image[-2] + 256 * image[-1]

    def verdict(accepted):
        if entry is None:
            return "no, the image is too short for an entry"
        if entry == 0xFFFF:
            return "no, the entry is erased"
        return "yes" if accepted else "no, the stored sum is wrong"

    by_ccitt = len(image) >= 2 and ccitt(image[2:]) == image[0] + 256 * image[1]
    by_crc8 = len(image) >= 1 and crc8(image[1:]) == image[0]
    print("length in bytes: %d" % len(image))
    print("CRC-CCITT sum of all bytes after the first two: " + (SHORT if len(image) < 2 else "0x%04X" % ccitt(image[2:])))
    print("stored CRC-CCITT sum, the first two bytes: " + (SHORT if len(image) < 2 else "0x%04X" % (image[0] + 256 * image[1])))
    print("CRC-8 sum of all bytes after the first: " + (SHORT if len(image) < 1 else "0x%02X" % crc8(image[1:])))
    print("stored CRC-8 sum, the first byte: " + (SHORT if len(image) < 1 else "0x%02X" % image[0]))
    print("entry, the last two bytes: " + (SHORT if entry is None else "0x%04X" % entry))
    print("may be started, checked by CRC-CCITT: " + verdict(by_ccitt))
    print("may be started, checked by CRC-8: " + verdict(by_crc8))
    print("may be started, by its entry only: " + verdict(True))


def images():
    for name, image in IMAGES:
        print("an image of " + name)
        report(image)
        if len(image) < 2:
            print("an image of fewer than two bytes cannot hold a CRC-CCITT sum; it is left as it came")
        else:
            total = ccitt(image[2:])
            image = bytes([total % 256, total // 256]) + image[2:]
            print("sealed with the CRC-CCITT sum 0x%04X" % total)
        report(image)


if __name__ == "__main__":
    sums()
    changes()
    images()
