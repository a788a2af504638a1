"""Builds frames of any kind, with legal and most illegal subframes, and with correct check sums."""
from model import FIXED, crc, low32, signed


class Bits:
    def __init__(self):
        self.b = []

    def put(self, v, n):
        self.b += [v >> i & 1 for i in range(n - 1, -1, -1)]
        return self

    def unary(self, z):
        self.b += [0] * z + [1]
        return self

    def add(self, other):
        self.b += other.b
        return self

    def bytes(self, pad=0):
        b = self.b + [pad] * (-len(self.b) % 8)
        return bytes(int("".join(map(str, b[i : i + 8])), 2) for i in range(0, len(b), 8))


def coded(v, length=None):
    """A number in its shortest form, or in a longer one."""
    if v < 0x80 and length in (None, 1):
        return bytes([v])
    for n in range(2, 8):
        if v < 1 << (5 * n + 1 if n < 7 else 36) and (length is None or n == length):
            tail = [0x80 | v >> 6 * i & 63 for i in range(n - 2, -1, -1)]
            return bytes([(0xFF << (8 - n) & 0xFF) | v >> 6 * (n - 1)] + tail)
    raise ValueError(v)


def header(size=1, code=None, rate=0, channels=0, bits=16, variable=0, number=0, length=None, reserved=0, sync=0x7FFC, wrong=0, raw=None, depth=None):
    """`code` 6 or 7 stores the size; None takes the size's own code if there is one."""
    fixed = {192: 1, 576: 2, 1152: 3, 2304: 4, 4608: 5, 256: 8, 512: 9, 1024: 10, 2048: 11, 4096: 12, 8192: 13, 16384: 14, 32768: 15}
    if code is None:
        code = fixed.get(size, 6 if size <= 256 else 7)
    depth = {0: 0, 8: 1, 12: 2, 16: 4, 20: 5, 24: 6}[bits] if depth is None else depth
    h = Bits().put(sync, 15).put(variable, 1).put(code, 4).put(rate, 4).put(channels, 4).put(depth, 3).put(reserved, 1).bytes()
    h += coded(number, length) if raw is None else raw
    h += bytes([size - 1]) if code == 6 else (size - 1).to_bytes(2, "big") if code == 7 else b""
    h += {12: b"\x2c", 13: b"\xac\x44", 14: b"\x11\x3a"}.get(rate, b"")
    return h + bytes([crc(h, 8, 0x07) ^ wrong])


def stream_info(blocks=(16, 16), frames=(0, 0), rate=44100, channels=1, bits=16, samples=0, md5=bytes(16)):
    """The 34 bytes of a STREAMINFO."""
    s = Bits().put(blocks[0], 16).put(blocks[1], 16).put(frames[0], 24).put(frames[1], 24)
    return s.put(rate, 20).put(channels - 1, 3).put(bits - 1, 5).put(samples, 36).bytes() + md5


def metadata(kind, contents, last=0, length=None):
    """A metadata block, with its own length or another one."""
    size = len(contents) if length is None else length
    return Bits().put(last, 1).put(kind, 7).put(size, 24).bytes() + contents


def stream_header(*later, **k):
    """A stream header: STREAMINFO with these fields, and later blocks (kind, contents), the last of which says so."""
    blocks = [(0, stream_info(**k)), *later]
    return b"fLaC" + b"".join(metadata(kind, contents, int(i == len(blocks) - 1)) for i, (kind, contents) in enumerate(blocks))


def start(kind, wasted=0):
    s = Bits().put(0, 1).put(kind, 6).put(1 if wasted else 0, 1)
    return s.unary(wasted - 1) if wasted else s


def mask(x, w):
    return x % (1 << w)


def constant(x, w, wasted=0):
    return start(0, wasted).put(mask(x, w - wasted), w - wasted)


def verbatim(xs, w, wasted=0):
    s = start(1, wasted)
    for x in xs:
        s.put(mask(x, w - wasted), w - wasted)
    return s


def residual(rs, n, warm, method=0, order=0, parameters=None, extra=0, widths={}):
    """Each quotient is increased by `extra` times 2^(32 - parameter), which the reader drops. The partitions in `widths`
    are escaped, and store their residuals in so many bits."""
    s = Bits().put(method, 2).put(order, 4)
    size, at = n >> order, 0
    for i in range(1 << order):
        count = size - warm if i == 0 else size
        if i in widths:
            s.put((16 << method) - 1, 4 + method).put(widths[i], 5)
            for r in rs[at : at + count]:
                assert r == signed(widths[i], mask(r, widths[i]))
                s.put(mask(r, widths[i]), widths[i])
            at += count
            continue
        k = (parameters or [2])[i % len(parameters or [2])]
        s.put(k, 4 + method)
        for r in rs[at : at + count]:
            f = 2 * r if r >= 0 else -2 * r - 1
            s.unary((f >> k) + (extra << (32 - k) if extra else 0)).put(f & (1 << k) - 1, k)
        at += count
    return s


def predicted(xs, cs, shift):
    """The residual of samples under a predictor."""
    out = []
    for i in range(len(cs), len(xs)):
        total = sum(c * x for c, x in zip(cs, reversed(xs[:i])))
        out.append(low32(xs[i] - (total >> shift)))
    return out


def fixed(xs, w, degree, wasted=0, **k):
    s = start(8 + degree, wasted)
    for x in xs[:degree]:
        s.put(mask(x, w - wasted), w - wasted)
    return s.add(residual(predicted(xs, FIXED[degree], 0), len(xs), degree, **k))


def lpc(xs, w, cs, shift, precision, wasted=0, **k):
    s = start(31 + len(cs), wasted)
    for x in xs[: len(cs)]:
        s.put(mask(x, w - wasted), w - wasted)
    s.put(precision - 1, 4).put(shift, 5)
    for c in cs:
        s.put(mask(c, precision), precision)
    return s.add(residual(predicted(xs, cs, shift), len(xs), len(cs), **k))


def frame(head, subs, pad=0, wrong=0):
    s = Bits()
    for sub in subs:
        s.add(sub)
    d = head + s.bytes(pad)
    return d + (crc(d, 16, 0x8005) ^ wrong).to_bytes(2, "big")
