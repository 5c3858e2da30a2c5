"""The runs of fuzz.sh: PROGRAM FOLDER RUNS SEED FIRST. Each run makes words and an input, runs the program, and judges it."""

import collections
import os
import random
import re
import subprocess
import sys

LINES = {
    1: r"usage: word (?P<word>\d+)",
    2: r"no sync byte: input (A|B|C|IN) packet \d+",
    3: r"truncated: input (A|B|C|IN) over [1-9]\d*",
    4: r"frame head misplaced: frame (?P<frame>\d+) slot \d+",
    5: r"no frame head",
    6: r"wrong count: frame (?P<frame>\d+) layer [ABC] found \d+",
    7: r"tmcc: frame (?P<frame>\d+) (sync|segment type|parity|system|layer [ABC]|segments \d+)",
    8: r"unannounced setting: frame (?P<frame>\d+)",
    9: r"no partial reception: frame (?P<frame>\d+)",
    10: r"cannot open: (A|B|C|IN)",
    11: r"read fault: (A|B|C|IN)",
    15: r"bad frame head: frame (?P<frame>\d+) byte [0-5]",
}
# The statuses that each command may end with here: nothing fails outside, and no input is long.
STATUSES = {
    b"remux": {0, 1, 2, 3, 10, 11},
    b"code": {0, 1, 2, 3, 4, 5, 6, 10, 11},
    b"receive": {0, 1, 3, 7, 8, 9, 10, 11, 15},
    b"show bts": {0, 1, 2, 3, 4, 5, 10, 11},
    b"show cells": {0, 1, 3, 7, 10, 11, 15},
    b"sample": {0, 1},
    b"no command": {1},
}
SETTING = r"A:\d+:\w+:\d/\d:\d+(:partial)?(,B:\d+:\w+:\d/\d:\d+(,C:\d+:\w+:\d/\d:\d+)?)?"
SHOWN = {
    b"show bts": r"frame (\d+) (even|odd) countdown \d+ A \d+ B \d+ C \d+ none \d+",
    b"show cells": rf"frame (\d+) (even|odd) countdown \d+ now {SETTING} next ({SETTING}|-)( restored [0-8])?",
}
GUARDS = {b"1/4": 4, b"1/8": 8, b"1/16": 16, b"1/32": 32}
ONE = b"A:13:qpsk:1/2:0"
TWO = b"A:1:qpsk:2/3:0:partial,B:12:16qam:3/4:0"
THREE = b"A:1:qpsk:1/2:0:partial,B:4:16qam:2/3:4,C:8:64qam:5/6:0"
# Each plan with the packets of its layers.
PLANS = [
    ([b"1", b"1/32", ONE], [300]),
    ([b"1", b"1/32", TWO], [20, 700]),
    ([b"1", b"1/4", THREE], [15, 150, 1000]),
    ([b"1", b"1/32", ONE, b"@3", b"A:13:qpsk:3/4:0"], [400]),
    ([b"1", b"1/16", TWO, b"@3", b"A:1:qpsk:1/2:4:partial,B:12:64qam:7/8:0"], [20, 700]),
    ([b"1", b"1/32", ONE, b"@3", b"2", b"1/8", b"A:13:qpsk:1/2:0"], [300]),
]
SYMBOLS = 204
PACKET = 188
BROADCAST = 204
HEAD = b"ISC2"
CHECKED = 82
GENERATOR = sum(1 << power for power in (82, 77, 76, 71, 67, 66, 56, 52, 48, 40, 36, 34, 24, 22, 18, 10, 4, 0))

Stream = collections.namedtuple("Stream", "kind words bytes ends")


def symbol_bytes(mode):
    return 1 + 26 * (96 << mode - 1)


def cells_bytes(mode):
    return SYMBOLS * symbol_bytes(mode)


def packets_bytes(mode, guard):
    return BROADCAST * (1024 << mode - 1) * (guard + 1) // guard


def plan_of(words):
    """The switches of a plan's words: first frames, modes and guard intervals."""
    mode, guard = int(words[0]), GUARDS[words[1]]
    switches = [(0, mode, guard)]
    for at, word in enumerate(words):
        if word.startswith(b"@"):
            if words[at + 1] in (b"1", b"2", b"3"):
                mode, guard = int(words[at + 1]), GUARDS[words[at + 2]]
            switches.append((int(word[1:]), mode, guard))
    return switches


def planned_sizes(words, size_of):
    switches = plan_of(words)
    frame = 0
    while True:
        _, mode, guard = [switch for switch in switches if switch[0] <= frame][-1]
        yield size_of(mode, guard)
        frame += 1


def headed_sizes(cells):
    """The bytes of the packets that are received of each frame that has a head, and of the frame itself."""
    at = 0
    while cells[at : at + 4] == HEAD and at + 6 <= len(cells) and cells[at + 4] in (1, 2, 3) and cells[at + 5] in (4, 8, 16, 32):
        frame = 8 + cells_bytes(cells[at + 4])
        yield packets_bytes(cells[at + 4], cells[at + 5]), frame
        at += frame


def written_sizes(command, words, given):
    """The bytes of each frame that a command writes, by its accepted words and its input."""
    if command == b"remux":
        return planned_sizes(words[1:], packets_bytes)
    if command == b"code":
        head = 8 if words[-1] == b"v2" else 0
        return planned_sizes(words[1:], lambda mode, _: head + cells_bytes(mode))
    if words[1].startswith(b"IN="):
        return (packets for packets, _ in headed_sizes(given))
    return planned_sizes(words[1:3], packets_bytes)


def ends_of(sizes, total):
    """Where frames of these sizes end, as far as they are whole, and how many bytes stand over."""
    ends, at = [], 0
    for size in sizes:
        if at + size > total:
            break
        at += size
        ends.append(at)
    return ends, total - at


def command_of(words):
    if words and words[0] == b"show":
        return b"show " + words[1] if len(words) > 1 and words[1] in (b"bts", b"cells") else b"no command"
    return words[0] if words and words[0] in STATUSES else b"no command"


class Runner:
    def __init__(self, program, folder):
        self.program, self.folder = program, folder
        self.right = {}

    def run(self, words, given):
        ended = subprocess.run([self.program.encode(), *words], input=given, capture_output=True, timeout=120)
        return ended.returncode, ended.stdout, ended.stderr

    def right_product(self, words, clean):
        key = (tuple(words), clean)
        if key not in self.right:
            self.right[key] = self.run(words, clean)[1]
        return self.right[key]


def line_fault(status, words, told):
    """What is wrong with standard error, and what its line names."""
    if status == 0:
        return ("a line with status 0" if told else None), {}
    line = re.fullmatch(f"isdbt: {status} {LINES[status]}\n", told.decode("latin-1"))
    if not line:
        return f"the line {told!r}", {}
    if status == 1 and int(line["word"]) > len(words):
        return "a word that there isn't", {}
    return None, line.groupdict()


def shown_fault(command, written):
    """What is wrong with written lines, and how many there are."""
    text = written.decode("latin-1")
    lines = text.split("\n")
    if lines.pop() != "":
        return "an unfinished line", 0
    for number, line in enumerate(lines):
        shown = re.fullmatch(SHOWN[command], line)
        if not shown or int(shown[1]) != number:
            return f"the line {line!r} at {number}", 0
    return None, len(lines)


def count_fault(command, words, given, status, written):
    """What is wrong with how much was written, and how many frames or lines it is; None where they are not counted."""
    if status in (1, 5, 10):
        return ("bytes are written" if written else None), 0
    if command.startswith(b"show"):
        return shown_fault(command, written)
    if command == b"sample":
        return (None if written.count(b"\n") == 3 else "not three lines"), None
    if b"partial" in words:
        return ("an unfinished packet" if len(written) % PACKET else None), None
    ends, over = ends_of(written_sizes(command, words, given), len(written))
    return (f"{over} bytes behind whole frames" if over else None), len(ends)


def judge(words, given, status, written, told):
    """What is wrong with an answer, by itself."""
    command = command_of(words)
    if status not in STATUSES[command]:
        return f"status {status}, {told!r}"
    fault, named = line_fault(status, words, told)
    if fault:
        return fault
    fault, count = count_fault(command, words, given, status, written)
    if not fault and "frame" in named and count is not None and int(named["frame"]) != count:
        fault = f"frame {named['frame']} is refused behind {count} frames"
    return fault


def common(first, second):
    """How many bytes two lists have in common, from their start."""
    low, high = 0, min(len(first), len(second))
    while low < high:
        middle = (low + high + 1) // 2
        if first[low:middle] == second[low:middle]:
            low = middle
        else:
            high = middle - 1
    return low


def compare(runner, words, stream, given, written):
    """What is wrong with the frames before the first changed byte of a stream."""
    command = command_of(words)
    right = runner.right_product(words, stream.bytes)
    shared = common(stream.bytes, given)
    same = sum(end <= shared for end in stream.ends)
    if command.startswith(b"show"):
        lines = right.splitlines(True)[:same]
        right = b"".join(lines)
    elif b"partial" not in words:
        ends, _ = ends_of(written_sizes(command, words, stream.bytes), len(right))
        right = right[: ends[min(same, len(ends)) - 1]] if same and ends else b""
    else:
        return None
    return None if written.startswith(right) else f"the first {same} frames are not the right ones"


# Spoiling.


def flip_bytes(chance, data, stream):
    for _ in range(chance.choice((1, 1, 3, 20, 400))):
        if data:
            data[chance.randrange(len(data))] = chance.randrange(256)


def unit_of(stream):
    return {"ts": PACKET, "bts": BROADCAST, "cells": symbol_bytes(1)}[stream.kind]


def spoil_starts(chance, data, stream):
    """The first bytes of packets or symbols."""
    unit = unit_of(stream)
    for _ in range(chance.choice((1, 2, 10))):
        at = chance.randrange(0, len(data) + 1, unit)
        if at < len(data):
            data[at] = chance.choice((0, 1, 0x46, 0x47, chance.randrange(256)))


def spoil_information(chance, data, stream):
    """The ISDB-T information of some slots, the first slot of a frame with good chance."""
    starts = [0, *stream.ends[:-1]]
    for _ in range(chance.choice((1, 2, 10))):
        packet = chance.choice(starts) if chance.random() < 0.5 else chance.randrange(0, len(data) + 1, BROADCAST)
        at = packet + PACKET + chance.randrange(3)
        if at < len(data):
            data[at] ^= 1 << chance.randrange(8)


def clear_heads(chance, data, stream):
    """The frame head flag of each packet, from some packet on or of all."""
    for at in range(PACKET + BROADCAST * chance.choice((0, 0, 1)), len(data), BROADCAST):
        data[at] &= ~2


def spoil_head(chance, data, stream):
    at = chance.choice([0, *stream.ends[:-1]]) + chance.randrange(8)
    if at < len(data):
        data[at] = chance.choice((1, 2, 3, 4, 8, 16, 32, *HEAD, chance.randrange(256)))


def word_places(chance, stream):
    """Where the TMCC bits of a frame stand."""
    starts = [0, *stream.ends[:-1]]
    frame = chance.randrange(len(starts))
    head = 8 if stream.words == [] else 0
    mode = {cells_bytes(mode): mode for mode in (1, 2, 3)}[stream.ends[frame] - starts[frame] - head]
    return [starts[frame] + head + symbol * symbol_bytes(mode) for symbol in range(SYMBOLS)]


def turn_bits(chance, data, stream):
    """Some bits of a TMCC word."""
    low = chance.choice((0, 20))
    for place in chance.sample(word_places(chance, stream)[low:], chance.choice((1, 2, 8, 9, 12, 40))):
        if place < len(data):
            data[place] ^= 1


def parity_of(information):
    rest = information << CHECKED
    for power in range(183, CHECKED - 1, -1):
        if rest >> power & 1:
            rest ^= GENERATOR << power - CHECKED
    return rest


def change_word(chance, data, stream):
    """Other information in a TMCC word, with its parity. Bits 0 and 1 of it are the system, 2 to 5 the countdown, 7 the flag."""
    places = word_places(chance, stream)[20:]
    changes = 0
    for _ in range(chance.choice((1, 1, 2, 5))):
        bit = chance.choice((0, 1, 7, chance.randrange(2, 6), chance.randrange(8, 47), chance.randrange(102)))
        changes |= 1 << 101 - bit
    turned = changes << CHECKED | parity_of(changes)
    for bit, place in enumerate(places):
        if place < len(data):
            data[place] ^= turned >> 183 - bit & 1


def cut_short(chance, data, stream):
    unit = unit_of(stream)
    end = chance.choice((chance.randrange(len(data) + 1), chance.randrange(0, len(data) + 1, unit), chance.choice(stream.ends)))
    del data[max(0, end + chance.choice((0, 0, 1, -1))) :]


def some_part(chance, data, stream):
    """A frame, some packets or symbols, or some bytes."""
    starts = [0, *stream.ends[:-1]]
    if chance.random() < 0.5:
        frame = chance.randrange(len(starts))
        return starts[frame], stream.ends[frame]
    unit = chance.choice((1, unit_of(stream)))
    at = chance.randrange(0, len(data) + 1, unit)
    return at, at + unit * chance.choice((1, 2, 7))


def cut_out(chance, data, stream):
    start, end = some_part(chance, data, stream)
    del data[start:end]


def repeat(chance, data, stream):
    start, end = some_part(chance, data, stream)
    data[end:end] = data[start:end]


def move(chance, data, stream):
    start, end = some_part(chance, data, stream)
    part = data[start:end]
    del data[start:end]
    at = chance.choice([0, *stream.ends])
    data[at:at] = part


def insert_noise(chance, data, stream):
    at = chance.choice((0, len(data), chance.randrange(len(data) + 1)))
    data[at:at] = chance.randbytes(chance.choice((1, 8, 188, 204, 3000)))


def burst(chance, data, stream):
    at, length = chance.randrange(len(data) + 1), chance.choice((100, 5000, 200000))
    length = min(length, len(data) - at)
    data[at : at + length] = chance.randbytes(length)


COMMON = [flip_bytes, spoil_starts, cut_short, cut_out, repeat, move, insert_noise, burst]
SPOILINGS = {
    "ts": COMMON,
    "bts": COMMON + [spoil_information] * 4 + [clear_heads],
    "cells": COMMON + [turn_bits, change_word] * 3,
    "headed": COMMON + [turn_bits, change_word, spoil_head] * 3,
}


def spoil(chance, stream):
    data = bytearray(stream.bytes)
    kind = "headed" if stream.kind == "cells" and not stream.words else stream.kind
    for _ in range(chance.choice((0, 1, 1, 1, 2, 3))):
        chance.choice(SPOILINGS[kind])(chance, data, stream)
    return bytes(data)


# Words.

VOCABULARY = (
    b"remux code receive show sample bts cells v2 partial fix 1 2 3 0 4 01 65535 65536 1/2 1/4 1/8 1/16 1/32 1/64 @0 @1 @2 @07 @16777216 @ "
    b"A=- B=- C=- IN=- IN= A=. IN=. IN=/nowhere/at/all - = A:13:qpsk:1/2:0 A:13:qpsk:1/2:1 A:13:qpsk:1/2:16 A:12:qpsk:1/2:0 A:0:qpsk:1/2:0 "
    b"A:13:8psk:1/2:0 A:13:64qam:7/8:4 A:13:64qam:7/9:4 A:13:qpsk:1/2:0:partial A:1:qpsk:2/3:0:partial,B:12:16qam:3/4:0 "
    b"A:1:qpsk:1/2:0,B:4:16qam:2/3:0,C:8:64qam:5/6:0 A:1:qpsk:1/2:0,C:12:16qam:2/3:0 A:1:qpsk:1/2:0,B:12:16qam:2/3:0,"
).split() + [b"", b"\xff\xfe", b" "]


def change_characters(chance, word):
    if not word or word.startswith(b"@"):
        return b"@" + str(chance.choice((0, 1, 2, 5, 9, 16777216))).encode()
    at = chance.randrange(len(word))
    put = chance.choice((b"", b"0", b"1", b"3", b":", b",", b"/", b"=", b"-", b"x", b"\x80", word[at : at + 1] * 2))
    return word[:at] + put + word[at + chance.choice((0, 1)) :]


def spoil_words(chance, words):
    words = list(words)
    for _ in range(chance.choice((0, 1, 1, 1, 2, 2, 3))):
        at = chance.randrange(len(words) + 1)
        how = chance.randrange(6)
        if how == 0:
            del words[at : at + 1]
        elif how == 1:
            words.insert(at, chance.choice(VOCABULARY))
        elif how == 2 and words:
            words.insert(at, chance.choice(words))
        elif at < len(words) and how == 3:
            words[at] = chance.choice(VOCABULARY)
        elif at < len(words):
            words[at] = change_characters(chance, words[at])
    return words


# The streams, and the runs over them.


def packets(chance, count):
    return b"".join(b"\x47" + bytes([chance.randrange(128)]) + chance.randbytes(PACKET - 2) for _ in range(count))


def make_streams(runner):
    """Of each plan its packets, broadcast packets and cells. The words of a stream are those that say how it is read."""
    chance = random.Random(0)
    streams = []
    for words, counts in PLANS:
        layers = []
        for layer, count in zip("ABC", counts):
            data = packets(chance, count)
            name = os.path.join(runner.folder, f"{len(streams)}{layer}").encode()
            with open(name, "wb") as file:
                file.write(data)
            layers.append((layer.encode(), name, Stream("ts", words, data, list(range(PACKET, len(data) + 1, PACKET)))))
        streams.append(layers)
        sent = made(runner, [b"remux", *words, *(layer + b"=" + name for layer, name, _ in layers)], b"")
        streams.append(Stream("bts", words, sent, ends_of(planned_sizes(words, packets_bytes), len(sent))[0]))
        if all(mode == int(words[0]) for _, mode, _ in plan_of(words)):
            cells = made(runner, [b"code", *words, b"IN=-"], sent)
            streams.append(Stream("cells", words, cells, ends_of(planned_sizes(words, lambda mode, _: cells_bytes(mode)), len(cells))[0]))
        cells = made(runner, [b"code", *words, b"IN=-", b"v2"], sent)
        streams.append(Stream("cells", [], cells, ends_of((frame for _, frame in headed_sizes(cells)), len(cells))[0]))
    return streams


def made(runner, words, given):
    status, written, told = runner.run(words, given)
    if status:
        sys.exit(f"the streams can't be made: {words} {told}")
    return written


def remux_run(chance, layers):
    """The words and the input of a run of remux, in which one layer's packets are spoiled."""
    spoiled, names = chance.choice(layers), []
    for layer, name, _ in layers:
        names.append(layer + b"=" + (b"-" if layer == spoiled[0] else name))
    return [b"remux", *spoiled[2].words, *names], spoil(chance, spoiled[2])


def reading_words(chance, stream):
    """The words of a command that reads a stream."""
    told = stream.words[:2]
    if stream.kind == "bts":
        version = [b"v2"] if plan_of(stream.words)[-1][1] != int(stream.words[0]) or chance.random() < 0.5 else []
        return chance.choice(([b"code", *stream.words, b"IN=-", *version], [b"show", b"bts", *told, b"IN=-"]))
    fix = chance.choice(([], [b"fix"]))
    part = chance.choice(([], [], [b"partial"]))
    return chance.choice(([b"receive", *told, b"IN=-", *part, *fix], [b"show", b"cells", *told, b"IN=-", *fix]))


def one_run(runner, streams, chance):
    """The words, status and fault of a run."""
    stream = chance.choice(streams) if chance.random() < 0.99 else None
    if stream is None:
        words, given = [b"sample", str(chance.randrange(65536)).encode()], b""
    elif isinstance(stream, list):
        words, given = remux_run(chance, stream)
        stream = None
    else:
        words, given = reading_words(chance, stream), spoil(chance, stream)
    if chance.random() < 0.4:
        spoiled = spoil_words(chance, words)
        if spoiled != words:
            words, stream = spoiled, None
            given = given if chance.random() < 0.2 else b""
    status, written, told = runner.run(words, given)
    fault = judge(words, given, status, written, told)
    if not fault and stream:
        fault = compare(runner, words, stream, given, written)
    return words, status, fault


def report(counts):
    for command in STATUSES:
        ended = sorted((status, count) for (name, status), count in counts.items() if name == command)
        if ended:
            print(f"{command.decode()}: " + ", ".join(f"status {status}: {count}" for status, count in ended))


def main():
    program, folder = sys.argv[1:3]
    runs, seed, first = map(int, sys.argv[3:])
    runner = Runner(program, folder)
    streams = make_streams(runner)
    counts, wrong = collections.Counter(), 0
    for number in range(first, first + runs):
        words, status, fault = one_run(runner, streams, random.Random(f"{seed} {number}"))
        counts[command_of(words), status] += 1
        if fault:
            wrong += 1
            print(f"run {number}: {fault}: {b' '.join(words)!r}", flush=True)
    report(counts)
    print(f"runs {first} to {first + runs - 1} of seed {seed}: {wrong} answered otherwise")
    sys.exit(1 if wrong else 0)


main()
