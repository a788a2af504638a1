"""Writes the stored cases: card.bin, and the lists runner.txt, read_probe.txt, stream_probe.txt and write_probe.txt,
where each line is a case's name, its input and its output in hex.

    python3 cases/make.py

The outputs come from writer.py, and from model.py, which was compared with claxon 0.4.3 on random frames and damaged
copies of them (read as frames of a stream whose blocks have their own size, which is what claxon takes), and on escaped
partitions, which claxon refuses, with `flac` (oracle/escaped.sh). COUNTS says how many cases a list has, and is changed
by hand.
"""
import hashlib
import os
import random
import re

import build
import model
import writer
from build import Bits, constant, fixed, frame, header, lpc, metadata, start, stream_header, stream_info, verbatim

WHOLE = bytes.fromhex("fff869180000bf0358fd03128baa9a")
RFC3 = bytes.fromhex("fff868020017e944004f6f313d1047d227cb6d090831452bdc2822228057a3")
D2 = [
    bytes.fromhex("fff86998000f9912086701623d1442998f5df70d6fe00c17caeb21000ee7a77a24a1590c1217b603097b784faa9a33d285e070ad5b1b4851b4010d99d2cd1a68f1e6b810"),
    bytes.fromhex("fff869180102a402c382c40bc14a03ee48dd03b67c1330"),
]
FLAC = bytes.fromhex("fff86598000f7114ffb9ffe90064ecec24023ade64d929789a923d8c005002740437055c80d00c0323a5d1091f5847a475452c0a")


def mono(**k):
    return header(**{**dict(size=1), **k})


def tone(n, amp, step, rng):
    import math

    return [int(amp * math.sin(i * step)) + rng.randint(-3, 3) for i in range(n)]


def refused():
    """Inputs that fail each check in turn, with the check sums right up to there."""
    h, h4 = mono(), header(size=4, bits=8)
    one = lambda head, bits: head + bits.bytes()
    yield "empty", b""
    yield "one-byte", b"\xff"
    yield "not-sync", b"\xf8\xff"
    yield "reserved-sync", b"\xff\xfa"
    for name, text in [("size-code-0", "fff800"), ("rate-code-15", "fff81f"), ("channels-11", "fff810b8"), ("channels-before-bits", "fff810be"), ("bits-before-zero-bit", "fff8100f"), ("bits-code-3", "fff81006"), ("bits-code-7", "fff8100e"), ("zero-bit", "fff81009")]:
        yield name, bytes.fromhex(text)
    for name, text in [("number-80", "80"), ("number-ff", "ff"), ("number-c2-00", "c200"), ("number-cut", "c2"), ("limit", "fe828080808080"), ("limit-not-yet", "fe8280808080")]:
        yield name, bytes.fromhex("fff86008" + text)
    yield "size-65535", bytes.fromhex("fff8700800ffff")
    yield "header-sum", mono(wrong=1)
    yield "stream-bits", mono(bits=0)
    yield "stream-bits-and-sum", mono(bits=0, wrong=1)
    yield "no-room", frame(header(size=8193), [constant(1, 16)])
    yield "header-alone", h
    yield "subframe-zero-bit", h + b"\x80"
    for kind in (2, 7, 13, 31):
        yield f"type-{kind}", one(h, Bits().put(0, 1).put(kind, 6).put(0, 1))
    yield "all-wasted", one(h, start(1, 16))
    yield "side-wastes-one-more", frame(header(size=1, channels=8), [constant(3, 16), start(0, 16).put(1, 1)])
    yield "wasted-32", one(h, start(1, 32))
    yield "wasted-unended", h + b"\x03" + bytes(40)
    yield "fixed-over-size", one(h, start(10))
    yield "lpc-over-size", one(h4, start(31 + 5))
    yield "precision-15", one(h4, start(32).put(1, 8).put(15, 4))
    yield "negative-shift", one(h4, start(32).put(1, 8).put(3, 4).put(16, 5))
    yield "method-2", one(h4, start(8).put(2, 2).put(15, 4))
    yield "method-3", one(h4, start(8).put(3, 2).put(0, 4))
    yield "no-multiple", one(header(size=3, bits=8), start(8).put(0, 2).put(1, 4))
    yield "warm-up-over-partition", one(h4, start(10).put(1, 8).put(2, 8).put(0, 2).put(2, 4))
    yield "frame-sum", frame(h, [constant(5, 16)], wrong=1)
    yield "largest-block", frame(header(size=65535), [constant(-5, 16)])
    yield "largest-block-eight-channels", frame(header(size=65535, channels=7, bits=24), [constant(c, 24) for c in range(8)])


def accepted(rng):
    yield "whole-case", WHOLE
    yield "flac-side-right", FLAC
    yield "trailing", WHOLE + b"\x00\x01"
    yield "trailing-sync", FLAC + b"\xff\xf8"
    yield "row-of-three", FLAC + WHOLE + frame(mono(number=1), [constant(-5, 16)])
    yield "row-then-damaged", WHOLE + frame(mono(), [constant(1, 16)], wrong=2) + WHOLE
    for bits in (8, 12, 16, 20, 24):
        top = 1 << bits - 1
        for code in range(11):
            n = 5
            count = code + 1 if code < 8 else 2
            widths = [bits] * count if code < 8 else [bits + (code == 9), bits + (code != 9)]
            subs = [verbatim([rng.randrange(-(1 << w - 1), 1 << w - 1) if code < 8 else rng.randrange(-top // 2, top // 2) for _ in range(n)], w) for w in widths]
            yield f"channels-{code}-bits-{bits}", frame(header(size=n, channels=code, bits=bits, number=code), subs)
    yield "wraps-in-sides", frame(header(size=2, channels=10, bits=24), [fixed([8000000, -8000000], 24, 0, method=1, parameters=[22]), fixed([16777215, -16777216], 25, 0, method=1, parameters=[22])])
    for order in range(5):
        xs = tone(32, 900, 0.3, rng)
        yield f"fixed-{order}", frame(header(size=32), [fixed(xs, 16, order, order=2, parameters=[8, 9, 7, 8])])
        yield f"fixed-{order}-five-bit", frame(header(size=32), [fixed(xs, 16, order, method=1, order=1, parameters=[8, 20])])
    for order in (1, 2, 3, 7, 8, 11, 12, 13, 20, 31, 32):
        xs = tone(48, 3000, 0.2, rng)
        cs = [rng.randrange(-300, 300) for _ in range(order)]
        yield f"lpc-{order}", frame(header(size=48), [lpc(xs, 16, cs, 9, 10, parameters=[13])])
    for wasted in (1, 7, 15):
        yield f"wasted-{wasted}", frame(header(size=4), [verbatim([1 >> max(0, wasted - 14), -1, 0, -1], 16, wasted)])
    for rate in range(15):
        yield f"rate-{rate}", frame(mono(rate=rate), [constant(rate, 16)])
    for size, code in [(1, 7), (192, None), (256, None), (256, 6), (576, None), (1152, None), (4608, None), (4096, None), (8192, None), (300, 7)]:
        yield f"size-{size}-code-{code or 'fixed'}", frame(header(size=size, code=code), [constant(-7, 16)])
    for v, length in [(0, 7), (127, 2), (2147483647, None), (2147483647, 7), (1 << 35, None)]:
        yield f"number-{v}-{length or 'shortest'}", frame(mono(number=v, length=length, variable=int(v > 2147483647)), [constant(1, 16)])
    yield "warm-up-as-long", frame(header(size=2, bits=8), [fixed([100, -100], 8, 2)])
    yield "padding-ones", frame(mono(bits=12), [constant(5, 12)], pad=1)
    yield "quotient-dropped", frame(mono(), [Bits().add(start(8)).put(1, 2).put(0, 4).put(30, 5).unary(4).put(6314, 30)])
    yield "residual-least", frame(mono(), [Bits().add(start(8)).put(1, 2).put(0, 4).put(30, 5).unary(3).put((1 << 30) - 1, 30)])
    yield "beyond-the-bits", frame(header(size=2, bits=8), [fixed([127, 128], 8, 1)])


def claxon_sides():
    """The data of claxon's verify_decode_left_side, _right_side and _mid_side as frames of 8 bits, with its results."""
    left, right = [2, 5, 83, 113, 127, -63, -45, -15], [-5, -33, -59, -125, 127, 89, 7, 3]
    side, mid = [7, 38, 142, 238, 0, -152, -52, -18], [-2, -14, 12, -6, 127, 13, -19, -6]
    for name, code, first, second in [("left", 8, left, side), ("right", 9, side, right), ("mid", 10, mid, side)]:
        widths = [8 + (code == 9), 8 + (code != 9)]
        data = frame(header(size=8, bits=8, channels=code), [verbatim(first, widths[0]), verbatim(second, widths[1])])
        assert model.read(data, [0] * 16)[1] == left + right
        yield f"claxon-{name}-side", data


def escaped_by_width(width, method):
    """A frame of 16 samples of 24 bits in two partitions. The residuals of the first are escaped, and among them are
    the smallest and the largest number of the width; those of the second are Rice codes. Over 24 bits, a linear
    predictor makes such residuals of samples that fit."""
    rest = [5, -6, 0, 7, -1, 2, -3, 4]
    least, most = -(1 << width >> 1), (1 << width >> 1) - 1
    head = header(size=16, bits=24, number=width)
    options = dict(method=method, order=1, parameters=[9], widths={0: width})
    if width == 0:
        return frame(head, [fixed([3 * i - 20 for i in range(8)] + rest, 24, 2, **options)])
    if width <= 24:
        return frame(head, [fixed([least, most, -1, 0, most, least, most >> 1, least >> 1] + rest, 24, 0, **options)])
    p = width - 22
    xs = [(1 << 21) + (1 << 21 - p), -(1 << 21) - 1, 1 << p, 0, -1, 1, 0, -2] + rest
    assert build.predicted(xs, [-(1 << p)], 0)[:2] == [most, least]
    return frame(head, [lpc(xs, 24, [-(1 << p)], 0, 15, **options)])


def escaped_in_all(method):
    """Two channels, in whose partitions escaped ones and Rice codes take turns, with and without wasted bits."""
    ramp = [3 * i - 20 for i in range(16)]
    left = fixed([x + x * x // 7 for x in ramp], 16, 1, method=method, order=2, parameters=[3], widths={0: 9, 2: 11})
    right = fixed(ramp, 16, 2, wasted=3, method=method, order=3, parameters=[1], widths={1: 0, 4: 1, 5: 2, 7: 31})
    return frame(header(size=16, channels=1), [left, right])


def escaped_head(method, bits):
    """A frame whose only partition is escaped, and the number of its bytes up to the byte that ends after so many bits
    of the partition's head: the parameter and the width."""
    wasted = -(14 + bits) % 8
    xs = [1, -1, 3, -4, 0, 2, -2, 1, 1, 0, -3, 2, 3, -4, 1, -1]
    head = header(size=16)
    data = frame(head, [fixed(xs, 16, 0, wasted=wasted, method=method, widths={0: 3})])
    return data, len(head) + (14 + wasted + bits) // 8


def escaped():
    """Partitions whose residuals are stored as they are: every width with its extremes, in both methods; all ones among
    Rice codes; first partitions without residuals; and each cut inside of a partition's head."""
    for method in (0, 1):
        for width in range(32):
            yield f"escaped-method-{method}-width-{width}", escaped_by_width(width, method)
        yield f"escaped-mixed-{method}", escaped_in_all(method)
        for width in (0, 1, 17, 31):
            xs = [5, -7, 100, 3, 9, 8, -80, 2, 0, 0, 1, 60, -3, 4, 4, 4]
            data = frame(header(size=16), [fixed(xs, 16, 4, method=method, order=2, parameters=[6], widths={0: width})])
            yield f"escaped-none-{method}-width-{width}", data
        for bits in range(4 + method + 5 + 1):
            data, cut = escaped_head(method, bits)
            yield f"escaped-head-{method}-{bits}", data
            yield f"escaped-head-{method}-{bits}-cut", data[:cut]
    # Without the width of its partition, which has no residuals, the last two bytes would be the CRC-16.
    none = header(size=2, bits=8) + start(10, 2).put(1, 6).put(2, 6).put(0, 6).put(15, 4).bytes()
    yield "escaped-none-cut", none + model.crc(none, 16, 0x8005).to_bytes(2, "big")


def differences(program):
    """The inputs of docs/DIFFERENCES.md, on which claxon, the RFC and this reader differ: those for this program, with the
    stream's block size and its bits, as far as the words after an input give them. Without such words it is for
    `runner`."""
    form = re.compile("`([0-9A-F]+)`(?:, the stream's block ([0-9]+))?(?:, the stream's bits ([0-9]+))?(?: \\(`([a-z_]+)`\\))?")
    for line in open("../docs/DIFFERENCES.md"):
        cells = [cell.strip() for cell in line.split("|")]
        if len(cells) > 3 and re.match("`[0-9A-F]+`", cells[2]):
            text, block, bits, named = form.fullmatch(cells[2]).groups()
            name = "difference-" + cells[1].replace(" ", "-").replace(",", "").replace("'", "")
            if (named or "runner") == program:
                yield name, bytes.fromhex(text), block and int(block), bits and (1, int(bits), 44100)


def sound(frames):
    """The samples of these frames as a stream's MD5 takes them: interleaved, in whole bytes."""
    out = b""
    for data in frames:
        r, xs = model.read(data, [0] * 64)
        assert r[:2] == (0, len(data))
        out += b"".join(model.little(xs[c * r[5] + t], r[4] // 8) for t in range(r[5]) for c in range(r[3]))
    return out


def published():
    """The frames of RFC 9639's appendix D. Their samples have the MD5 that their streams give."""
    assert hashlib.md5(sound([WHOLE])).hexdigest() == "3e84b41807dc690307586a3dad1a2e0f"
    assert hashlib.md5(sound(D2)).hexdigest() == "d5b0564975e98b8d8b930422757b8103"
    assert hashlib.md5(sound([RFC3])).hexdigest() == "f8f9e396f5cbcfc6dc807f9977906b32"
    # The blocks of the stream in D.2 have 16 samples, and the second and last one has three.
    assert model.read(D2[1], [0] * 6, 16)[0][2:6] == (16, 2, 16, 3)
    yield "rfc9639-d1", WHOLE
    yield "rfc9639-d2", D2[0] + D2[1]
    yield "rfc9639-d2-first", D2[0]
    yield "rfc9639-d2-second", D2[1]
    yield "rfc9639-d3", RFC3


def frame_in_sound():
    """A frame whose sound contains RFC 9639's first frame, check sums and all, at byte 107. Its first 161 bytes are a
    frame cut short: a program that searches on instead of waiting finds the frame that is not one."""
    xs = [i * i % 251 - 125 for i in range(191)]
    xs[99:114] = [model.signed(8, b) for b in WHOLE]
    data = frame(header(size=191, bits=8), [verbatim(xs, 8)])
    cut = data[:161]
    assert len(data) == 201 and data == writer.frame(xs, **settings(0, 8, 191))
    answers = [model.read(cut[at:], [0] * 191)[0][0] for at in range(108)]
    assert answers == [2] + [3] * 106 + [0]
    yield "frame-in-sound", data
    yield "frame-in-sound-cut", cut
    yield "frame-in-sound-hunted", cut[107:]


def of_length(length):
    """A frame of `length` bytes, one sample: most bytes are a unary run."""
    data = frame(mono(), [start(8).put(0, 2).put(0, 4).put(0, 4).unary(8 * (length - 9) - 19)])
    assert len(data) == length
    return data


def row_of(length):
    """Frames in a row, `length` bytes in all but few samples."""
    row = FLAC + D2[0]
    for k in range(6):
        xs = [(-1) ** i * (1000 + 17 * i + k) for i in range(16)]
        row += frame(header(size=16, bits=24, number=k), [fixed(xs, 24, 0, parameters=[0])])
    return row + of_length(length - len(row))


def limits():
    """Inputs of about 32 KiB, which is as much as `runner` reads: a last frame that ends one byte before that, exactly
    there and one byte later; and the first two with one more byte."""
    for length in (32767, 32768, 32769):
        yield f"bytes-{length}", row_of(length)
    for length in (32767, 32768):
        yield f"bytes-{length}-and-one", row_of(length) + b"\xff"


def plain(size, number, variable=0, wrong=0, **k):
    """A frame of one channel, all of whose samples are equal."""
    return frame(header(size=size, number=number, variable=variable, **k), [constant(number % 1000 - 500, 16)], wrong=wrong)


def streams():
    """Frames in a row, read with the block size in the first one's header. Under fixed blocking it counts for the first
    sample numbers, and a larger block is refused 9."""
    night = [plain(16, number) for number in range(3)]
    row = lambda *frames: b"".join(frames)
    yield "stream-short-last", row(*night, plain(5, 3))
    yield "stream-short-last-of-one", row(*night, plain(1, 3))
    yield "stream-short-second", row(night[0], plain(3, 1))
    yield "stream-short-in-the-middle", row(*night[:2], plain(5, 2), plain(16, 3))
    yield "stream-larger", row(*night[:2], plain(17, 2), plain(16, 3))
    yield "stream-larger-cut", row(*night[:2], header(size=17, number=2))
    yield "stream-larger-header-sum", row(*night[:2], header(size=17, number=2, wrong=1))
    yield "stream-larger-without-bits", row(*night[:2], header(size=17, number=2, bits=0))
    yield "stream-larger-and-no-room", row(*night[:2], plain(8193, 2))
    yield "stream-larger-variable-and-no-room", row(*night[:2], plain(8193, 32, 1))
    sizes = [(16, 0), (16, 16), (17, 32), (5, 49), (300, 54), (16, 354)]
    yield "stream-larger-variable", row(*(plain(size, number, 1) for size, number in sizes))
    yield "stream-fixed-then-variable", row(night[0], plain(17, 16, 1), plain(16, 3), plain(17, 4))
    yield "stream-variable-then-fixed", row(plain(16, 100, 1), plain(16, 7), plain(5, 8), plain(16, 200, 1), plain(17, 9))
    yield "stream-short-first", row(plain(5, 0), plain(16, 1))
    yield "stream-short-first-variable", row(plain(5, 0, 1), plain(16, 5, 1), plain(5, 2), plain(16, 1))
    yield "stream-not-from-the-start", row(plain(16, 1000), plain(16, 1001), plain(7, 1002))
    yield "stream-largest-numbers", row(plain(300, 2147483646), plain(1, 2147483647))
    yield "stream-refused-at-first-frame-sum", row(plain(16, 0, wrong=1), plain(16, 1))
    yield "stream-refused-at-first-room", row(plain(8193, 0), plain(16, 1))
    yield "stream-refused-at-first-bits", row(plain(16, 0, bits=0), plain(16, 1))
    yield "stream-refused-at-first-subframe", row(header(size=16) + b"\x80", plain(16, 1))
    yield "stream-refused-at-first-header", row(header(size=16, wrong=1), plain(16, 1))
    yield "stream-refused-at-first-sync", row(b"\x00\x00", plain(16, 1))
    yield "stream-refused-at-second", row(plain(16, 0), plain(16, 1, wrong=1), plain(16, 2))


def cuts(name, data):
    for n in range(len(data)):
        yield f"cut-{name}-{n}", data[:n]


def runner_cases():
    rng = random.Random(9639)
    yield from refused()
    yield from accepted(rng)
    yield from claxon_sides()
    yield from escaped()
    yield from ((name, data) for name, data, *_ in differences("runner"))
    yield from cuts("whole", WHOLE)
    yield from cuts("flac", FLAC)
    yield from written()
    yield from published()
    yield from frame_in_sound()
    yield from streams()
    yield from limits()


def probe(room, fill, block=None, given=None, stream=(0, 0, 0), strict=0, wide=(0, 0)):
    """The head of `read_probe`'s input. A block of None is not given. `given` sets the flag whatever the block is. The
    stream's record is a flag, the bits and the rate. The strict setting and the second buffer belong to requests to
    come."""
    flag = int(block is not None) if given is None else given
    fields = [(room, 4), (fill, 4), (flag, 1), (block or 0, 4), (stream[0], 1), (stream[1], 1), (stream[2], 4), (strict, 1), (wide[0], 4), (wide[1], 8)]
    return b"".join(model.little(v, n) for v, n in fields)


def probe_buffers():
    """Every row of the table of what the buffer holds. The stream's blocks have the size in the input's own header, and
    are unknown where there is none: so that each input has the answer that it has by itself."""
    own = lambda room, fill, data: probe(room, fill, model.stream_block(data)) + data
    for name, data in refused():
        yield name, own(6, -77, data)
    for name, data in [("frame", WHOLE), ("frame-sum", WHOLE[:-1] + b"\x00"), ("cut", WHOLE[:-1]), ("flac", FLAC)]:
        for room in (0, 1, 2, 3, 31, 32, 33):
            yield f"{name}-room-{room}", own(room, 7, data)
    for room in (23, 24, 25):
        yield f"escaped-room-{room}", own(room, 7, RFC3)
    # RFC 9639's escaped partition starts at bit 134; its head has nine bits.
    for n in range(16, 19):
        yield f"escaped-cut-{n}", own(25, 7, RFC3[:n])
    yield "fill-least", own(3, -(1 << 31), WHOLE)
    yield from ((f"cut-{n}", own(3, 9, WHOLE[:n])) for n in range(len(WHOLE)))


def probe_blocks():
    """Sizes of the stream's blocks, for a frame of four samples: none that a stream can have, smaller than the frame's,
    the same, larger, and unknown."""
    four = {f"{'variable' if variable else 'fixed'}-{number}": plain(4, number, variable) for variable in (0, 1) for number in (0, 5)}
    for size in (0, 1, 3, 4, 5, 65535, 65536, (1 << 32) - 1, None):
        for name, data in four.items():
            yield f"block-{'unknown' if size is None else size}-{name}", probe(6, -77, size) + data
    # The flag says that no size is given, so the size is passed over.
    for size in (3, 65536, (1 << 32) - 1):
        yield f"block-not-given-{size}", probe(6, -77, size, given=0) + four["fixed-5"]
    for number, size, variable in [((1 << 31) - 1, 65535, 0), ((1 << 31) - 1, 1, 0), ((1 << 31) - 1, None, 0), ((1 << 36) - 1, 1, 1), ((1 << 36) - 1, None, 1)]:
        yield f"block-{size or 'unknown'}-number-{number}", probe(2, 0, size) + plain(1, number, variable)
    for size in (65534, 65535):
        yield f"block-{size}-largest", probe(3, 7, size) + plain(65535, 1)
    for name, data, size, stream in differences("read_probe"):
        yield name, probe(33, 7, size, stream=stream or (0, 0, 0)) + data


def probe_block_order():
    """Which check comes first where several would refuse: a size that no stream has, then the header with its CRC-8, bits
    code 0, the larger block, the room, and what comes after."""
    bad = plain(4, 5, wrong=1)
    for size in (0, 65536, (1 << 32) - 1):
        yield f"block-{size}-empty", probe(3, 7, size)
    for size, data, name in [(0, b"\x00\x00", "not-sync"), (65536, header(size=4, wrong=1), "header-sum"), (0, bad, "frame-sum"), (65536, header(size=4, bits=0), "stream-bits")]:
        yield f"block-{size}-{name}", probe(3, 7, size) + data
    for room in (0, 2, 3, 4, 5):
        yield f"larger-room-{room}", probe(room, 7, 3) + plain(4, 5)
        yield f"larger-variable-room-{room}", probe(room, 7, 3) + plain(4, 5, 1)
        yield f"same-room-{room}", probe(room, 7, 4) + plain(4, 5)
        yield f"unknown-room-{room}", probe(room, 7) + plain(4, 5)
    larger = lambda data: probe(6, 7, 3) + data
    yield "larger-stream-bits", larger(header(size=4, bits=0))
    yield "larger-header-sum", larger(header(size=4, wrong=1))
    yield "larger-stream-bits-header-sum", larger(header(size=4, bits=0, wrong=1))
    yield "larger-bits-code-7", larger(header(size=4, depth=7))
    yield "larger-header-cut", larger(header(size=4)[:-1])
    yield "larger-header-alone", larger(header(size=4))
    yield "larger-subframe-zero-bit", larger(header(size=4) + b"\x80")
    yield "larger-frame-sum", larger(bad)
    yield "same-header-alone", probe(6, 7, 4) + header(size=4)
    yield "same-frame-sum", probe(6, 7, 4) + bad
    yield "same-eight-channels", probe(40, 7, 4) + frame(header(size=4, channels=7), [constant(c, 16) for c in range(8)])


def of_bits(bits, own, number=0, channels=0, rate=0, wrong=0, **k):
    """A frame of four samples of so many bits. Its header has these bits of its own (`own`), or leaves them to the stream
    (0); bits without a code can only be left to it."""
    top = 1 << bits - 1
    widths = [bits] * (channels + 1) if channels < 8 else [bits + (channels == 9), bits + (channels != 9)]
    xs = [-top, top - 1, 0, -1]
    head = header(size=4, bits=own, number=number, channels=channels, rate=rate, **k)
    return frame(head, [verbatim(xs, w) if w == bits else constant(1, w) for w in widths], wrong=wrong)


def probe_records():
    """The stream's record: bits that the header leaves to it, own bits that are its own or others, records that no
    stream has, and that the rate counts for nothing."""
    given = lambda bits, rate=44100, room=9, block=4: probe(room, -77, block, stream=(1, bits, rate))
    for bits in range(0, 35):
        data = of_bits(min(max(bits, 1), 24), 0)
        yield f"record-{bits}-left", given(bits) + data
        yield f"record-{bits}-empty", given(bits)
    for bits in (64, 128, 255):
        yield f"record-{bits}-own", given(bits) + of_bits(16, 16)
        yield f"record-{bits}-empty", given(bits)
    for own in (8, 12, 16, 20, 24):
        for bits in (0, 3, 4, 8, 12, 16, 20, 24, 25, 32, 33):
            yield f"record-{bits}-own-{own}", given(bits) + of_bits(own, own)
        yield f"record-none-own-{own}", probe(9, -77, 4) + of_bits(own, own)
    for bits in (4, 7, 13, 24):
        for channels in range(1, 11):
            yield f"record-{bits}-channels-{channels}", given(bits, room=4 * 8) + of_bits(bits, 0, channels=channels)
        xs = [3, -4, 1, 2, -1, 0, 0, 3]
        yield f"record-{bits}-fixed", given(bits, block=8) + frame(header(size=8, bits=0), [fixed(xs, bits, 2)])
        yield f"record-{bits}-lpc", given(bits, block=8) + frame(header(size=8, bits=0), [lpc(xs, bits, [2, -1], 1, 5)])
        yield f"record-{bits}-wasted", given(bits, block=8) + frame(header(size=8, bits=0), [verbatim([0, 1, -1] * 2 + [0, 0], bits, bits - 2)])
        yield f"record-{bits}-all-wasted", given(bits, block=8) + frame(header(size=8, bits=0), [start(1, bits)])
    # The rate sways nothing: not the stream's, nor the frame's own.
    for rate in (0, 1, 44100, (1 << 20) - 1, (1 << 32) - 1):
        yield f"record-rate-{rate}", given(16, rate) + of_bits(16, 0)
    for rate in range(15):
        yield f"record-rate-code-{rate}", given(16, 8000) + of_bits(16, 16, rate=rate)
    # Not given: the record is passed over.
    for bits in (0, 8, 33):
        yield f"record-not-given-{bits}", probe(9, -77, 4, stream=(0, bits, 1)) + of_bits(16, 16)
        yield f"record-not-given-{bits}-left", probe(9, -77, 4, stream=(0, bits, 1)) + of_bits(16, 0)


def probe_record_order():
    """Which check comes first where several would refuse: settings that no stream has; the header with its CRC-8; bits
    code 0 (8); own bits (9); the larger block (9); the room (7); and what comes after."""
    given = lambda bits, room, block: probe(room, 7, block, stream=(1, bits, 1))
    both = {"block-0-record-3": (3, 6, 0), "block-4-record-33": (33, 6, 4), "block-65536-record-16": (16, 6, 65536)}
    for name, settings in both.items():
        for what, data in [("empty", b""), ("not-sync", b"\x00\x00"), ("header-sum", header(size=4, wrong=1)), ("frame", of_bits(16, 16))]:
            yield f"{name}-{what}", given(*settings) + data
    for name, bits in [("other", 24), ("same", 16), ("over-24", 25)]:
        for own in (16, 0):
            for room in (0, 3, 4):
                for block in (3, 4):
                    yield f"{name}-own-{own}-room-{room}-block-{block}", given(bits, room, block) + of_bits(16, own)
    other = lambda data: given(24, 6, 4) + data
    yield "other-header-sum", other(header(size=4, wrong=1))
    yield "other-bits-code-3", other(header(size=4, depth=3))
    yield "other-bits-code-7", other(header(size=4, depth=7))
    yield "other-header-cut", other(header(size=4)[:-1])
    yield "other-header-alone", other(header(size=4))
    yield "other-subframe-zero-bit", other(header(size=4) + b"\x80")
    yield "other-frame-sum", other(of_bits(16, 16, wrong=1))
    yield "same-record-frame-sum", given(16, 6, 4) + of_bits(16, 16, wrong=1)
    yield "same-record-cut", given(16, 6, 4) + of_bits(16, 0)[:-1]
    yield "left-header-alone", given(16, 6, 4) + header(size=4, bits=0)
    yield "record-32-code-7", given(32, 6, 4) + header(size=4, depth=7)


def probe_layout():
    """What the program itself refuses, by 11 alone; what it passes over; a head that is cut; and its longest input."""
    yield "no-input", b""
    yield "room-alone", probe(2, 0)[:4]
    for room in (65537, (1 << 32) - 1):
        yield f"room-{room}", probe(room, 1, 1) + WHOLE
        yield f"wide-room-{room}", probe(3, 1, 1, wide=(room, 0)) + WHOLE
    for flag in (2, 3, 128, 255):
        yield f"block-given-{flag}", probe(3, 1, 1, given=flag) + WHOLE
    yield "block-given-2-empty", probe(0, 0, given=2)
    for n in (0, 1, 2, 17, 300):
        yield f"wide-room-{n}", probe(3, 7, 1, wide=(n, -5)) + WHOLE
    yield "wide-room-refused", probe(3, 7, 1, wide=(3, 1 << 62)) + WHOLE[:-1]
    yield "wide-room-block-0", probe(3, 7, 0, wide=(2, 1)) + WHOLE
    yield "wide-room-without-room", probe(0, 7, 1, wide=(2, 1)) + WHOLE
    for flag in (2, 3, 128, 255):
        yield f"stream-given-{flag}", probe(3, 1, 1, stream=(flag, 16, 44100)) + WHOLE
    yield "stream-given-2-empty", probe(0, 0, stream=(2, 0, 0))
    yield "later-fields-odd", probe(3, 7, 1, strict=9, wide=(1, -1)) + WHOLE
    yield "later-fields-set", probe(3, 7, 1, stream=(1, 16, 44100), strict=1) + WHOLE
    whole = probe(3, -0x7E7D7C7C, 0x0201, stream=(1, 16, 44100), strict=1, wide=(2, 0x1112131415161718))
    for n in range(len(whole) + 1):
        yield f"head-{n}", whole[:n]
    for n in (1, 2):
        yield f"head-of-room-257-{n}", probe(257, 0)[:n]
    # Of a longer frame the last byte is left unread.
    for length in (65536, 65537):
        yield f"bytes-{length}", probe(2, 7, 1) + of_length(length)


def probe_cases():
    yield from probe_buffers()
    yield from probe_blocks()
    yield from probe_block_order()
    yield from probe_records()
    yield from probe_record_order()
    yield from probe_layout()


def rfc_streams():
    """The stream headers of RFC 9639's appendix D, each with its first frame after it."""
    d1 = "664c6143 80000022 10001000 00000f00 000f0ac4 42f00000 0001 3e84b41807dc690307586a3dad1a2e0f"
    d2 = "664c6143 00000022 00100010 00001700 00440ac4 42f00000 0013 d5b0564975e98b8d8b930422757b8103"
    d2 += "03000012 0000000000000000 0000000000000000 0010"
    d2 += "0400003a 20000000 7265666572656e6365206c6962464c4143 20312e332e33203230313930383034 01000000 0e000000 5449544c453dd7a9d79cd795d79d"
    d2 += "81000006 000000000000"
    d3 = "664c6143 80000022 10001000 00001f00 001f07d0 00700000 0018 f8f9e396f5cbcfc6dc807f9977906b32"
    for name, text, data in [("d1", d1, WHOLE), ("d2", d2, D2[0]), ("d3", d3, RFC3)]:
        head = bytes.fromhex(text.replace(" ", ""))
        number, consumed, info = model.stream_header(head + data)
        assert (number, consumed) == (0, len(head)) and info.md5.hex() in text
        # The frame after the header has the stream's bits.
        assert model.read(data, [0] * 64, None, (info.bits, info.rate))[0][:2] == (0, len(data))
        yield f"rfc9639-{name}", head + data


def stream_fields():
    """Each field at its ends, by itself; and those that claxon refuses and this reader does not."""
    ends = {
        "blocks": [(0, 0), (15, 15), (16, 16), (65535, 65535), (4096, 256), (1, 65535)],
        "frames": [(0, 0), (1, (1 << 24) - 1), ((1 << 24) - 1, 1), ((1 << 24) - 1, (1 << 24) - 1)],
        "rate": [0, 1, 44100, 655350, 655351, (1 << 20) - 1],
        "channels": range(1, 9),
        "bits": range(1, 33),
        "samples": [0, 1, (1 << 32) - 1, 1 << 32, (1 << 36) - 1],
        "md5": [bytes(16), bytes(range(1, 17)), b"\xff" * 16],
    }
    for field, values in ends.items():
        for i, value in enumerate(values):
            name = value if isinstance(value, int) else i
            yield f"stream-{field}-{name}", stream_header(**{field: value}) + WHOLE


def stream_blocks():
    """The metadata blocks: their types, lengths and last flags, each refusal at the byte that decides it, and inputs that
    end within or after a block."""
    mark = b"fLaC"
    info = stream_info(blocks=(4096, 4096), rate=96000, channels=2, bits=24, samples=12345)
    first, alone = metadata(0, info), metadata(0, info, 1)
    yield "stream-empty", b""
    yield "stream-no-mark", WHOLE
    for n in range(1, 4):
        yield f"stream-wrong-mark-cut-{n}", b"XXXX"[:n]
    for i in range(4):
        wrong = bytearray(mark)
        wrong[i] ^= 0x20
        yield f"stream-wrong-mark-{i}", bytes(wrong) + alone
        yield f"stream-wrong-mark-{i}-alone", bytes(wrong)
    for kind in (0, 1, 2, 3, 4, 5, 6, 7, 63, 64, 126, 127):
        for last in (0, 1):
            yield f"stream-first-{kind}-{last}", mark + metadata(kind, info, last)
            yield f"stream-first-{kind}-{last}-type-alone", mark + metadata(kind, info, last)[:1]
            yield f"stream-later-{kind}-{last}", mark + first + metadata(kind, b"abc", last) + metadata(1, b"", 1)
            yield f"stream-later-{kind}-{last}-type-alone", mark + first + metadata(kind, b"", last)[:1]
    for length in (0, 1, 33, 34, 35, 256 + 34, 65536 + 34, (1 << 24) - 1):
        yield f"stream-first-length-{length}", mark + metadata(0, info, 1, length)
        yield f"stream-first-length-{length}-alone", mark + metadata(0, b"", 1, length)
        yield f"stream-second-info-{length}", mark + first + metadata(0, info[:2], 0, length) + alone
    # Bits below 4 are refused at their five bits, of which four are in the byte after the first; before the samples.
    three = mark + metadata(0, stream_info(bits=3), 1)
    for n in (20, 21, 22, 23, 42):
        yield f"stream-bits-3-cut-{n}", three[:n]
    yield "stream-second-info-of-bits-3", mark + first + metadata(0, stream_info(bits=3), 1)
    for length in (0, 1, 5, 255, 256, 3000):
        for short in (0, 1):
            if short <= length:
                contents = bytes(i % 251 for i in range(length))
                data = mark + first + metadata(3, contents, 0) + metadata(1, contents, 1)
                yield f"stream-skipped-{length}-{short}", data[: len(data) - short][:65600]
                yield f"stream-not-last-{length}-{short}", (mark + first + metadata(3, contents))[: 46 + length - short]
    yield "stream-longest-block-cut", mark + first + metadata(6, bytes(100), 1, (1 << 24) - 1)
    yield "stream-many-blocks", mark + first + metadata(1, b"") * 5000 + metadata(1, b"", 1) + WHOLE
    yield "stream-many-blocks-no-last", mark + first + metadata(1, b"") * 5000
    yield "stream-many-blocks-127", mark + first + metadata(1, b"") * 5000 + b"\x7f"
    # The longest input: a header of 65,536 bytes, and one byte more, which is left unread.
    for over in (0, 1):
        yield f"stream-bytes-{65536 + over}", mark + first + metadata(1, bytes(65536 - 46 - 4 + over), 1)


def stream_cuts():
    """A header with every kind of block that `flac` writes, cut at each byte."""
    tags = b"\x05\x00\x00\x00claxo" + bytes(4)
    data = stream_header((3, bytes(18)), (4, tags), (1, bytes(9)), (5, b"cue"), (6, b"picture"), (2, b"app!data"), rate=192000, bits=20, channels=8, samples=1 << 33)
    assert model.stream_header(data)[:2] == (0, len(data))
    yield from (("stream-" + name, part) for name, part in cuts("whole", data))
    yield "stream-whole", data
    yield "stream-whole-and-frame", data + WHOLE


def stream_probe_cases():
    yield from rfc_streams()
    yield from stream_fields()
    yield from stream_blocks()
    yield from stream_cuts()
    yield from ((name, data) for name, data, *_ in differences("stream_probe"))


def settings(code, bits, size, blocking=0, number=0):
    return dict(code=code, bits=bits, blocking=blocking, number=number, size=size)


def blocks():
    """Samples and settings that the writer accepts: every channel code, every width, block sizes at the codes' limits,
    every form of number, and samples for which each kind of subframe is the shortest."""
    rng = random.Random(11)
    shapes = [lambda n, top: [0] * n, lambda n, top: [top - 1] * n, lambda n, top: [rng.randint(-top, top - 1) for _ in range(n)], lambda n, top: [max(-top, min(top - 1, x)) for x in tone(n, top * 0.7, 0.21, rng)], lambda n, top: [max(-top, min(top - 1, 3 * i * i - 7 * i)) for i in range(n)], lambda n, top: [-top if i % 2 else top - 1 for i in range(n)]]
    for code in range(11):
        for bits in (8, 12, 16, 20, 24):
            size, parts = rng.choice([1, 2, 5, 16, 31]), []
            for _ in range(code + 1 if code < 8 else 2):
                parts += rng.choice(shapes)(size, 1 << bits - 1)
            yield f"code-{code}-bits-{bits}", parts, settings(code, bits, size, rng.randint(0, 1), rng.randint(0, 2**31 - 1))
    for k, shape in enumerate(shapes):
        for size in (1, 2, 3, 4, 5, 6, 64):
            yield f"shape-{k}-size-{size}", shape(size, 128), settings(0, 8, size)
    for size in (191, 192, 193, 255, 256, 257, 512, 576, 1024, 1152, 2048, 2304, 4096, 4097):
        yield f"size-{size}", [(i * 37) % 5 - 2 for i in range(size)], settings(0, 8, size)
    for bits in (7, 11, 16, 21, 26, 31, 36):
        for number in (2**bits - 1, 2**bits % 2**36):
            yield f"number-{number}", [1, -1, 0], settings(0, 12, 3, 1, number)
    yield "largest-frame-number", [9], settings(0, 24, 1, 0, 2**31 - 1)
    for k in range(15):
        yield f"parameter-{k}", [(-1) ** i * rng.randint(0, 3 << k) // 2 for i in range(24)], settings(0, 24, 24)
    yield "first-wins-a-tie", [1, 1, 2, 2, 3, 3, 4, 4], settings(0, 8, 8)


def packed(samples, code, bits, blocking, number, size, room, fill=0xA5):
    head = bytes([code, bits, blocking]) + number.to_bytes(8, "little") + size.to_bytes(4, "little") + room.to_bytes(4, "little")
    return head + bytes([fill]) + b"".join(x.to_bytes(4, "little", signed=True) for x in samples)


def written():
    """The frames of the blocks, for `runner`."""
    for name, samples, s in blocks():
        yield "written-" + name, writer.frame(samples, **s)


def write_probe_cases():
    for name, samples, s in blocks():
        yield name, packed(samples, room=len(writer.frame(samples, **s)) + 3, **s)
    ok = dict(code=1, bits=16, blocking=0, number=7, size=2)
    four = [3, -4, 500, -32768]
    exact = len(writer.frame(four, **ok))
    for room in (0, 1, exact - 1, exact, exact + 1, 32768):
        yield f"room-{room}", packed(four, room=room, **ok)
    yield "room-32769", packed(four, room=32769, **ok)
    wrong = [("code", 11), ("code", 255), ("bits", 0), ("bits", 15), ("bits", 32), ("bits", 255), ("blocking", 2), ("blocking", 255), ("number", 2**31), ("number", 2**64 - 1), ("size", 0), ("size", 1), ("size", 3), ("size", 65536), ("size", 2**32 - 1)]
    for field, value in wrong:
        yield f"wrong-{field}-{value}", packed(four, room=exact, **{**ok, field: value})
    yield "wrong-number-variable", packed(four, room=exact, **{**ok, "blocking": 1, "number": 2**36})
    for extra in ([], four[:3], four + [0]):
        yield f"count-{len(extra)}", packed(extra, room=exact, **ok)
    for bits in (8, 12, 16, 20, 24):
        for x in (-(1 << bits - 1), (1 << bits - 1) - 1, -(1 << bits - 1) - 1, 1 << bits - 1, -(1 << 31), (1 << 31) - 1):
            yield f"range-{bits}-{x}", packed([0, x], code=0, bits=bits, blocking=0, number=0, size=2, room=32)
    yield "setting-before-sample", packed([1 << 20] * 4, room=exact, **{**ok, "bits": 9})
    yield "sample-before-room", packed([1 << 20] * 4, room=0, **ok)
    yield "no-input", b""
    yield "head-alone", packed([], room=4, **ok)
    yield "three-bytes-over", packed(four, room=exact, **ok) + b"abc"


def write(name, cases, program):
    rows = [f"{case} {data.hex() or '-'} {program(data).hex() or '-'}\n" for case, data in cases]
    assert all(len(row) < 200000 for row in rows)
    assert len({row.split(" ")[0] for row in rows}) == len(rows)
    with open(name, "w") as out:
        out.writelines(rows)
    print(name, len(rows))


def card():
    """A small card: a night of three callers, each stored in another way."""
    rng = random.Random(7)
    out = b""
    for k in range(6):
        n = 256
        left = tone(n, 2000 - 300 * k, 0.05 * (k + 1), rng)
        right = [x // 2 + rng.randint(-2, 2) for x in left]
        mid = [(a + b) >> 1 for a, b in zip(left, right)]
        side = [a - b for a, b in zip(left, right)]
        head = header(size=n, channels=[1, 8, 9, 10][k % 4], number=k, rate=9)
        pair = [(left, right, 16, 16), (left, side, 16, 17), (side, right, 17, 16), (mid, side, 16, 17)][k % 4]
        out += frame(head, [fixed(pair[0], pair[2], 2, order=2, parameters=[4, 5, 4, 5]), fixed(pair[1], pair[3], 1 + k % 3, parameters=[6])])
    return out


if __name__ == "__main__":
    os.chdir(os.path.dirname(os.path.abspath(__file__)))
    write("runner.txt", runner_cases(), model.runner)
    write("read_probe.txt", probe_cases(), model.read_probe)
    write("stream_probe.txt", stream_probe_cases(), model.stream_probe)
    write("write_probe.txt", write_probe_cases(), writer.write_probe)
    with open("card.bin", "wb") as out:
        out.write(card())
