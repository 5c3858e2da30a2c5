"""The rows of waterfall.sh: PROGRAM FRAMES."""

import math
import random
import subprocess
import sys

POWER = {"qpsk": 2, "16qam": 10, "64qam": 42}
RATES = ("1/2", "2/3", "3/4", "5/6", "7/8")
# A C/N in dB at which packets come right, for each rate; found by trying.
START = {"qpsk": (5, 6.5, 7.5, 8.5, 9.5), "16qam": (11, 13, 14, 15.5, 16), "64qam": (16.5, 18.5, 19.5, 21, 22)}
BITS = {"qpsk": 2, "16qam": 4, "64qam": 6}
SLOTS = 1056
BROADCAST = 204
PACKET = 188
SYMBOL = 1 + 13 * 96 * 2
DELAY = 2


def run(program, words, given):
    return subprocess.run([program, *words], input=given, stdout=subprocess.PIPE, check=True).stdout


def packets(chance, count):
    return b"".join(b"\x47" + bytes([chance.randrange(128)]) + chance.randbytes(PACKET - 2) for _ in range(count))


def noisy(chance, cells, deviation):
    """The cells with noise on each axis; the bytes of the TMCC bits stay."""
    gauss, floor = chance.gauss, math.floor
    out = bytearray()
    for start in range(0, len(cells), SYMBOL):
        out.append(cells[start])
        axes = memoryview(cells)[start + 1 : start + SYMBOL].cast("b")
        out += bytes(max(-128, min(127, floor(axis + gauss(0, deviation)))) & 255 for axis in axes)
    return bytes(out)


def counted(sent, received):
    """How many packets of the layer were received in their place, and how many of them are marked and wrong."""
    late = DELAY * SLOTS * BROADCAST
    count = marked = wrong = 0
    for at in range(0, len(sent) - late, BROADCAST):
        if sent[at + PACKET + 1] >> 4 == 1:
            count += 1
            if received[late + at + 1] & 0x80:
                marked += 1
            elif sent[at : at + PACKET] != received[late + at : late + at + PACKET]:
                wrong += 1
    return count, marked, wrong


def curve(program, frames, modulation, rate, start):
    setting = f"A:13:{modulation}:{rate}:0"
    chance = random.Random(setting)
    over, under = map(int, rate.split("/"))
    count = 13 * 96 * BITS[modulation] * over // (8 * under) * frames
    sent = run(program, ["remux", "1", "1/32", setting, "A=-"], packets(chance, count))
    cells = run(program, ["code", "1", "1/32", setting, "IN=-"], sent)
    ratio, all_marked = start, False
    while not all_marked:
        deviation = math.sqrt(POWER[modulation] / 2 / 10 ** (ratio / 10))
        received = run(program, ["receive", "1", "1/32", "IN=-"], noisy(chance, cells, deviation))
        count, marked, wrong = counted(sent, received)
        print(f"{modulation:5} {rate} {deviation:9.3f} {ratio:5.1f} {count:7d} {marked:7d} {wrong:5d}", flush=True)
        all_marked = marked == count
        ratio -= 0.5


def main():
    program, frames = sys.argv[1], int(sys.argv[2])
    print("# mod rate deviation C/N packets marked wrong")
    for modulation, starts in START.items():
        for rate, start in zip(RATES, starts):
            curve(program, frames, modulation, rate, start)


main()
