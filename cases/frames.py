"""Runs 'sh frames.sh' on cards that are made here, and compares its lines and exit status with those worked out here.

    python3 frames.py

What must be said of a card follows from how it was made: a line for its stream header, one for each of its frames, one
for their length, and model.py's number for what comes after them. The last line is 'frames: N passed, M failed'.
"""
import os
import random
import subprocess
import sys
import tempfile
import time

import model
from build import constant, frame, header, metadata, stream_header, stream_info, verbatim

HERE = os.path.dirname(os.path.abspath(__file__))
COMMAND = ["sh", os.path.join(HERE, "..", "frames.sh")]
WINDOW = 1 << 21
CAUSES = {
    2: "cut short",
    3: "no sync code",
    4: "a reserved or forbidden value",
    5: "a bad frame or sample number",
    6: "the header's CRC-8 differs",
    8: "a part of the format that is not read",
    9: "sizes that contradict each other",
    10: "the frame's CRC-16 differs",
}
ROOM = [0] * (8 * 65535)


HEADER_CAUSES = {
    2: "cut short",
    4: "a forbidden block type",
    9: "the first block is no STREAMINFO of 34 bytes with at least 4 bits a sample",
}


# ---- frames: bytes, first sample, channels, bits, block size, rate


class Frame:
    def __init__(self, data, channels, bits, size, first=0, rate=None):
        self.data, self.channels, self.bits, self.size, self.first, self.rate = data, channels, bits, size, first, rate


TABLE = [model.crc(bytes([b]), 16, 0x8005) for b in range(256)]


def crc16(data):
    r = 0
    for b in data:
        r = r << 8 & 0xFFFF ^ TABLE[r >> 8 ^ b]
    return r


def summed(data):
    """The data and its CRC-16, computed with a table: build.py is too slow for frames of megabytes."""
    return data + crc16(data).to_bytes(2, "big")


def filler(length, rng):
    """A frame of `length` bytes: 8 bits, one channel, verbatim. Its blocking is variable, as that of the other frames
    of many sizes here, so that it may stand in any stream."""
    size = length - 11
    data = summed(header(size=size, code=7, bits=8, variable=1) + b"\x02" + rng.randbytes(size))
    assert len(data) == length
    return Frame(data, 1, 8, size)


def largest(rng):
    """Eight channels of 65,535 samples of 24 bits, verbatim."""
    subframes = b"".join(b"\x02" + rng.randbytes(3 * 65535) for _ in range(8))
    return Frame(summed(header(size=65535, code=7, channels=7, bits=24, variable=1) + subframes), 8, 24, 65535)


def long_frame(length):
    """A frame of `length` bytes with 21 long runs of zeros: 24 bits, one channel, fixed order 0, Rice parameter 0."""
    head = header(size=21, bits=24, variable=1)
    bits = 8 * (length - len(head) - 2)
    ones, place = [], 8 + 2 + 4 + 4
    for i in range(21):
        place = place + 800000 if i < 20 else bits - 1
        ones.append(place)
        place += 1
    body = 8 << bits - 7
    for place in ones:
        body |= 1 << bits - 1 - place
    assert ones == sorted(ones)
    data = summed(head + body.to_bytes(bits // 8, "big"))
    assert len(data) == length
    return Frame(data, 1, 24, 21)


def card_frames():
    """The frames of card.bin, as the model reads them: two channels of 256 samples of 16 bits."""
    data, out = open(os.path.join(HERE, "card.bin"), "rb").read(), []
    block = model.stream_block(data)
    while data:
        report = model.read(data, [0] * 512, block)[0]
        assert report[0] == 0, report
        out.append(Frame(data[: report[1]], *report[3:6], first=report[2], rate=report[6]))
        data = data[report[1] :]
    return out


# ---- what must be said


def header_line(info, end):
    return (
        f"stream header to byte {end}: rate {info.rate}, channels {info.channels}, bits {info.bits}, samples {info.samples}, "
        f"blocks {info.blocks[0]} to {info.blocks[1]}, frames {info.frames[0]} to {info.frames[1]} bytes, MD5 {info.md5.hex()}"
    )


def length_line(frames, info):
    """The length in samples of a channel, and in seconds if a rate is known: the stream header's, or a frame's."""
    length = sum(f.size for f in frames)
    rates = [info.rate] if info and info.rate else [f.rate for f in frames if f.rate is not None]
    rate = rates[0] if rates else 0
    line = f"length: {length} samples of a channel, " + (f"{length // rate}.{length * 1000 // rate % 1000:03} seconds at {rate} hertz" if rate else "rate unknown")
    if info and info.samples == 0:
        line += "; STREAMINFO does not say how many"
    elif info:
        line += f"; STREAMINFO says {info.samples}, which {'agrees' if info.samples == length else 'differs'}"
    return line


def expected(frames, tail=b"", cut=False, head=b""):
    """The lines and the status for a card of these frames, with `tail` or an incomplete frame after them, and after a
    stream header, if there is one."""
    lines, at, info, stream = [], len(head), None, None
    if head:
        info = model.stream_header(head)[2]
        stream = info.bits, info.rate
        lines.append(header_line(info, at))
    for f in frames:
        rate = "unknown" if f.rate is None else f.rate
        lines.append(f"frame at byte {at}, length {len(f.data)}, first sample {f.first}, channels {f.channels}, bits {f.bits}, rate {rate}, block size {f.size}")
        at += len(f.data)
    if frames or head:
        lines.append(length_line(frames, info))
    start = f"frames {len(frames)}, samples {sum(f.channels * f.size for f in frames)};"
    block = model.stream_block(frames[0].data if frames else tail)
    number = 2 if cut else model.read(tail, ROOM, block, stream)[0][0]
    if number != 1:
        return lines + [f"stopped: {start} at byte {at}: {number}, {CAUSES[number]}"], 1
    if frames:
        return lines + [f"ended: {start} the card ends after a frame, at byte {at}"], 0
    return lines + [f"empty: {start} the card {f'ends after its stream header, at byte {at}' if head else 'has no bytes'}"], 1


def headless(data):
    """The same for a stream header that is refused."""
    number = model.stream_header(data)[0]
    return [f"stopped: frames 0, samples 0; in the stream header at byte 0: {number}, {HEADER_CAUSES[number]}"], 1


def limited(frames):
    lines, _ = expected(frames)
    at = sum(len(f.data) for f in frames)
    last = lines[-1].split(";")[0].split(" ", 1)[1]
    return lines[:-1] + [f"limit: {last}; what stands at byte {at} is longer than this program's window of {WINDOW} bytes"], 2


def joined(frames, tail=b""):
    return b"".join(f.data for f in frames) + tail


def repeated(frames, length, rng):
    """These frames over and over, and a last one that makes the card `length` bytes long."""
    out, at = [], 0
    while length - at > 60000:
        out.append(frames[len(out) % len(frames)])
        at += len(out[-1].data)
    return out + [filler(length - at, rng)]


# ---- cards


def cards():
    rng = random.Random(12)
    small = card_frames()
    six = Frame(frame(header(size=64, channels=5, bits=20, variable=1), [verbatim([rng.randrange(-(1 << 19), 1 << 19) for _ in range(64)], 20) for _ in range(6)]), 6, 20, 64)
    big = largest(rng)
    odd = [small[0], six, filler(9001, rng), small[3], filler(65546, rng), small[1]]
    whole = small * 3
    yield "empty", b"", expected([])
    yield "card.bin", joined(small), expected(small)
    yield "six channels", joined([six]), expected([six])
    yield "the largest block", joined([big]), expected([big])
    yield "the largest block twice", joined([small[0], big, big]), expected([small[0], big, big])
    for length in (32767, 32768, 32769, 47741, WINDOW - 1, WINDOW, WINDOW + 1, 2 * WINDOW, 5 * WINDOW + 77):
        frames = repeated(odd, length, rng)
        yield f"{length} bytes", joined(frames), expected(frames)
        yield f"{length} bytes, the last one gone", joined(frames)[:-1], expected(frames[:-1], cut=True)
    for length in (32768, WINDOW, 3 * WINDOW):
        # The first block has the size of those that follow, so that their first samples are those of card.bin.
        frames = small[:1] + repeated(odd[1:] + odd[:1], length - len(small[0].data), rng)
        yield f"a frame after {length} bytes", joined(frames + small), expected(frames + small)
        yield f"a byte after {length} bytes", joined(frames, b"\xff"), expected(frames, b"\xff")
        yield f"garbage after {length} bytes", joined(frames, b"\x00\x01"), expected(frames, b"\x00\x01")
    for n in (1, 2, 3, 7, 438, 2823):
        at, i = 0, 0
        while at + len(small[i].data) <= n:
            at, i = at + len(small[i].data), i + 1
        yield f"card.bin cut to {n} bytes", joined(small)[:n], expected(small[:i], joined(small)[at:n])
    wrong = {
        "no sync code": b"fLaX and more",
        "a reserved value": bytes.fromhex("fff800"),
        "a bad number": bytes.fromhex("fff8600880"),
        "the header's sum": header(wrong=1) + bytes(40),
        "32 bits": bytes.fromhex("fff8100e"),
        "a bad shape": header() + bytes([0x14]) + bytes(40),
        "the frame's sum": frame(header(), [constant(5, 16)], wrong=1) + bytes(40),
    }
    for name, tail in wrong.items():
        yield f"{name} at the start", tail, expected([], tail)
        yield f"{name} after frames", joined(whole, tail), expected(whole, tail)
    yield from nights(rng)
    yield from long_ones(small)
    yield from streams(small)


def piece(size, number, first, rng):
    """A frame of a stream with fixed blocking: 8 bits, one channel, verbatim."""
    return Frame(summed(header(size=size, bits=8, number=number) + b"\x02" + rng.randbytes(size)), 1, 8, size, first)


def nights(rng):
    """Streams with fixed blocking: the size of their blocks is that of the first frame, also where the window starts at
    a smaller block."""
    for name, size, rest, count in [("a night", 300, 300, 5), ("a night longer than the window", 4096, 2048, 1300)]:
        night = [piece(rest if k else size, k, size * k, rng) for k in range(count)]
        short = piece(17, count, size * count, rng)
        yield f"{name}, a short last block", joined(night + [short]), expected(night + [short])
        after = [short, piece(size, count + 1, size * (count + 1), rng)]
        yield f"{name}, a short block before the last", joined(night + after), expected(night + after)
        larger = piece(size + 1, count, 0, rng).data
        yield f"{name}, a larger block", joined(night, larger), expected(night, larger)
    early = [piece(17, 0, 0, rng)]
    yield "a short first block", joined(early, night[0].data), expected(early, night[0].data)
    named = Frame(summed(header(size=4096, bits=8, variable=1, number=5) + b"\x02" + rng.randbytes(4096)), 1, 8, 4096, 5)
    after = [named, piece(17, 3, 3 * 4096, rng)]
    yield "a first block with a sample's number", joined(after), expected(after)


def long_ones(small):
    """Frames as long as the window, and longer."""
    yield "a frame as long as the window", joined([long_frame(WINDOW)]), expected([long_frame(WINDOW)])
    after = [small[0], long_frame(WINDOW), small[1]]
    yield "frames around one as long as the window", joined(after), expected(after)
    longer = long_frame(WINDOW + 1).data
    yield "a frame longer than the window", longer, limited([])
    yield "a frame longer than the window, after others", joined(small, longer), limited(small)
    yield "the same, cut to the window", longer[:WINDOW], expected([], cut=True)
    yield "the same, after others and cut to the window", joined(small, longer[:WINDOW]), expected(small, cut=True)
    yield "zeros after a header, to the window's end", header(size=16) + bytes([0x10, 0]) + bytes(3 * WINDOW), limited([])


# ---- stream headers


def sized(kind, length, last=0):
    """A metadata block of so many bytes."""
    return metadata(kind, bytes(length), last)


def streams(small):
    """Stream headers of all lengths, before frames that need nothing of them."""
    info = dict(blocks=(256, 256), frames=(436, 521), rate=48000, channels=2, bits=16, samples=1536, md5=bytes(range(0xF0, 0x100)))
    full = b"fLaC" + metadata(0, stream_info(**info))
    heads = {
        "of 42 bytes": stream_header(**info),
        "with padding": full + sized(1, 8192, 1),
        "with blocks of all sizes": full + sized(4, 0) + sized(1, 8192) + sized(6, 70000) + sized(126, 0) + sized(2, 1, 1),
        "with many blocks of 0 bytes": full + sized(3, 0) * 3000 + sized(3, 0, 1),
        "to the window's end": full + sized(1, WINDOW - 4 - 38 - 4, 1),
        "to the byte before the window's end": full + sized(1, WINDOW - 4 - 38 - 5, 1),
        "past the window's end": full + sized(1, WINDOW - 4 - 38 - 3, 1),
        "with a head across the window's end": full + sized(1, WINDOW - 4 - 38 - 6) + sized(1, 5, 1),
        "with a block of 3 MiB": full + sized(6, 3 << 20, 1),
        "with two of the longest blocks": full + sized(6, (1 << 24) - 1) + sized(6, (1 << 24) - 1) + sized(1, 0, 1),
        "with a second STREAMINFO": full + metadata(0, stream_info(bits=24), 1),
    }
    for name, head in heads.items():
        yield f"a stream header {name}", head + joined(small), expected(small, head=head)
    head = heads["of 42 bytes"]
    yield "a stream header and no frame", head, expected([], head=head)
    yield "a stream header and a byte", head + b"\xff", expected([], b"\xff", head=head)
    yield "a stream header and no sync code", head + b"fLaC", expected([], b"fLaC", head=head)
    yield "a stream header and a frame cut short", head + joined(small)[:-1], expected(small[:-1], small[-1].data[:-1], head=head)
    long = small * 1500
    yield "a stream header and frames longer than the window", head + joined(long), expected(long, head=head)
    padded = heads["with padding"]
    for n in range(60):
        short = padded[:n]
        yield f"a stream header cut to {n} bytes", short, headless(short) if n >= 4 else expected([], short)
    yield "a long stream header cut short", heads["with a block of 3 MiB"][:-1], headless(heads["with a block of 3 MiB"][:-1])
    yield "fLaC after a frame", joined(small[:1], b"fLaC"), expected(small[:1], b"fLaC")
    yield from refused_headers(full, small)
    yield from told(small, info)


def refused_headers(full, small):
    first = stream_info(channels=2)
    for name, data in {
        "a forbidden first block": b"fLaC" + metadata(127, first, 1),
        "a forbidden last block": full + metadata(127, b"", 1),
        "a forbidden block between others": full + sized(1, 100) + metadata(127, b"ab") + sized(1, 100, 1),
        "a forbidden block of which one byte is there": full + b"\xff",
        "a forbidden block after 3 MiB": full + sized(6, 3 << 20) + metadata(127, b"", 1),
        "padding first": b"fLaC" + sized(1, 34) + metadata(0, first, 1),
        "STREAMINFO of 33 bytes": b"fLaC" + metadata(0, first[:33], 1),
        "STREAMINFO of 35 bytes": b"fLaC" + metadata(0, first + b"\x00", 1),
        "STREAMINFO of no bytes": b"fLaC" + metadata(0, b"", 1),
        "3 bits": b"fLaC" + metadata(0, stream_info(bits=3), 1),
        "1 bit": b"fLaC" + metadata(0, stream_info(bits=1), 1),
    }.items():
        yield f"a stream header, {name}", data, headless(data)
        yield f"a stream header, {name}, before frames", data + joined(small), headless(data + joined(small))


def leaving(bits, code, rate, size=64, number=0):
    """A frame with `bits`, whose header leaves them to the stream, and the rate too if its code is 0."""
    data = frame(header(size=size, bits=0, rate=code, number=number), [constant(number - 3, bits)])
    return Frame(data, 1, bits, size, first=size * number, rate=rate)


def told(small, info):
    """What frames leave to the stream header, and what it says of their length."""
    for bits in (8, 13, 24):
        frames = [leaving(bits, 0, 32000), leaving(bits, 9, 44100, number=1), leaving(bits, 12, 44000, number=2)]
        head = stream_header(bits=bits, rate=32000, samples=192)
        yield f"{bits} bits of the stream header", head + joined(frames), expected(frames, head=head)
        yield f"{bits} bits of no stream header", joined(frames), expected([], joined(frames))
    for bits in (25, 32):
        head, data = stream_header(bits=bits, rate=32000), leaving(bits, 0, 32000).data
        yield f"{bits} bits of the stream header", head + data, expected([], data, head=head)
    other = stream_header(bits=24, channels=2)
    yield "bits that are not the stream header's", other + joined(small), expected([], joined(small), head=other)
    for name, words in {"agrees": {}, "differs": {"samples": 1537}, "is unknown": {"samples": 0}, "is the largest": {"samples": (1 << 36) - 1}}.items():
        head = stream_header(**{**info, **words})
        yield f"a length that {name}", head + joined(small), expected(small, head=head)
    for rate in (0, 1, 7, 44100, 0xFFFFF):
        frames = [leaving(16, 0, rate)]
        head = stream_header(rate=rate, samples=64)
        yield f"a rate of {rate}", head + joined(frames), expected(frames, head=head)
    own = [leaving(16, 0, 0), leaving(16, 10, 48000, number=1)]
    yield "a rate of 0 and a frame's own", stream_header(rate=0) + joined(own), expected(own, head=stream_header(rate=0))


# ---- the runs


def run(words, feed=None, pause=0.0):
    """The lines and the status; `feed` goes to standard input piece by piece."""
    p = subprocess.Popen(COMMAND + words, stdin=subprocess.PIPE if feed is not None else subprocess.DEVNULL, stdout=subprocess.PIPE, stderr=subprocess.PIPE)
    if feed is not None and pause:
        for piece in feed:
            p.stdin.write(piece)
            p.stdin.flush()
            time.sleep(pause)
        out, err = p.communicate()
    else:
        out, err = p.communicate(b"".join(feed) if feed is not None else None)
    return (out.decode().splitlines(), p.returncode), err.decode()


class Tally:
    passed = failed = 0

    def hold(self, name, got, wanted):
        if got == wanted:
            self.passed += 1
            return
        self.failed += 1
        print(f"frames, {name}: {len(got[0])} lines, the last one {got[0][-1:]}, status {got[1]}; and not {len(wanted[0])}, {wanted[0][-1:]}, {wanted[1]}")


def pieces(data, rng, most):
    at = 0
    while at < len(data):
        n = rng.randrange(1, most)
        yield data[at : at + n]
        at += n


def pipes(tally, small, longer):
    """Standard input: in one piece, in many, and with pauses between them."""
    rng, data = random.Random(7), joined(small)
    long = small * 1500
    tally.hold("a pipe", run(["-"], [joined(long)])[0], expected(long))
    tally.hold("a pipe with nothing in it", run(["-"], [])[0], expected([]))
    tally.hold("a pipe with pauses", run(["-"], pieces(data, rng, 100), 0.01)[0], expected(small))
    tally.hold("a pipe with pauses, cut short", run(["-"], pieces(data[:-1], rng, 100), 0.01)[0], expected(small[:-1], small[-1].data[:-1]))
    head = stream_header((1, bytes(300)), (6, bytes(100000)), channels=2)
    tally.hold("a stream header by pieces", run(["-"], pieces(head[:500] + b"", rng, 40), 0.01)[0], headless(head[:500]))
    tally.hold("a stream header and frames by pieces", run(["-"], pieces(head + data, rng, 5000), 0.01)[0], expected(small, head=head))
    tally.hold("a mark by pieces", run(["-"], [b"f", b"La"], 0.05)[0], expected([], b"fLa"))
    tally.hold("a pipe with a frame longer than the window", run(["-"], [longer])[0], limited([]))


def words(tally, folder, small):
    """How the script is called, and cards that cannot be read."""
    card = os.path.join(folder, "a card's name, with blanks")
    open(card, "wb").write(joined(small))
    tally.hold("a name with blanks", run([card])[0], expected(small))
    tally.hold("no name", run([])[0], expected(small))
    unread = "unread: frames 0, samples 0; the card could not be read after byte 0: error"
    tally.hold("a read that fails", run(["/proc/self/mem"])[0], ([f"{unread} 5"], 2))
    for name, given, status, word in [
        ("help", ["-h"], 0, ""),
        ("two names", [card, card], 2, "usage: "),
        ("an option", ["-x"], 2, "usage: "),
        ("an empty name", [""], 2, "frames.sh: the file's name is empty"),
        ("a missing file", [card + "x"], 2, f"frames.sh: there is no file '{card}x'"),
        ("a directory", [folder], 2, f"frames.sh: '{folder}' is a directory"),
    ]:
        (lines, got), err = run(given)
        tally.hold(name, (["usage: "] if lines and lines[0].startswith("usage: ") else lines, got), (["usage: "] if status == 0 else [], status))
        tally.hold(name + ", in words", ([err[: len(word)]], 0), ([word], 0))
    program = ["sh", os.path.join(HERE, "..", "run.sh"), "frame_list"]
    nothing = "unread: frames 0, samples 0;"
    for name, given, line in [
        ("a directory", [folder], f"{unread} 21, it is a directory"),
        ("a missing file", [card + "x"], f"{nothing} the card could not be opened: error 2, there is no such file"),
        ("two names", [card, card], f"{nothing} more than one card is named"),
        ("an unknown argument", ["-x"], f"{nothing} unknown argument; --help lists those that there are"),
        ("a longer one", ["--helpx"], f"{nothing} unknown argument; --help lists those that there are"),
        ("help", ["--help"], "usage: frame_list [FILE | - | --help]"),
        ("an empty name", [""], f"{nothing} the card could not be opened: error 2, there is no such file"),
    ]:
        lines = subprocess.run(program + given, stdout=subprocess.PIPE, stdin=subprocess.DEVNULL).stdout.decode().splitlines()
        tally.hold(f"the program, {name}", (lines[:1], 0), ([line], 0))
    lines = subprocess.run(program + ["-"], stdout=subprocess.PIPE, input=joined(small)).stdout.decode().splitlines()
    tally.hold("the program, standard input", (lines, 0), (expected(small)[0], 0))


def main():
    tally, small = Tally(), card_frames()
    assert crc16(b"123456789") == model.crc(b"123456789", 16, 0x8005)
    with tempfile.TemporaryDirectory() as folder:
        path = os.path.join(folder, "card")
        for name, data, wanted in cards():
            with open(path, "wb") as f:
                f.write(data)
            tally.hold(name, run([path])[0], wanted)
        pipes(tally, small, long_frame(WINDOW + 1).data)
        words(tally, folder, small)
    tried = tally.passed + tally.failed
    counts = dict(line.split() for line in open(os.path.join(HERE, "COUNTS")) if not line.startswith("#"))
    if counts.get("frames") != str(tried):
        tally.failed += 1
        print(f"frames: {tried} cards, and cases/COUNTS says {counts.get('frames')}")
    print(f"frames: {tally.passed} passed, {tally.failed} failed")
    return 0 if tally.failed == 0 and tally.passed > 0 else 1


if __name__ == "__main__":
    sys.exit(main())
