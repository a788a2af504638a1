"""The writer of the scope paper in plain Python: what one write answers, and what the output holds afterwards.

It shares nothing with the definition or the code. make.py uses it.
"""
from build import Bits, header, mask, start
from model import FIXED, crc

LIMIT = {0: 2147483647, 1: 2**36 - 1}


def fold(r):
    return 2 * r if r >= 0 else -2 * r - 1


def misses(order, xs):
    """The residual of a fixed predictor: how far each sample after the warm-up is from the prediction."""
    return [xs[i] - sum(c * xs[i - 1 - j] for j, c in enumerate(FIXED[order])) for i in range(order, len(xs))]


def verbatim(s, xs, w):
    for x in xs:
        s.put(mask(x, w), w)
    return s


def subframe(xs, w):
    """The subframe with the fewest bits, and the first of several."""
    ways = [(8 + w, 0)] if len(set(xs)) == 1 else []
    ways.append((8 + w * len(xs), 1))
    for order in range(min(5, len(xs))):
        folded = [fold(r) for r in misses(order, xs)]
        ways += [(18 + w * order + sum((f >> k) + 1 + k for f in folded), 8 + order, k) for k in range(15)]
    best = min(ways, key=lambda way: way[0])
    if best[1] < 2:
        s = verbatim(start(best[1]), xs[:1] if best[1] == 0 else xs, w)
    else:
        order, k = best[1] - 8, best[2]
        s = verbatim(start(8 + order), xs[:order], w).put(0, 2).put(0, 4).put(k, 4)
        for r in misses(order, xs):
            s.unary(fold(r) >> k).put(fold(r) % 2**k, k)
    assert len(s.b) == best[0]
    return s


def lanes(samples, code, bits, size):
    parts = [samples[i : i + size] for i in range(0, len(samples), size)]
    if code < 8:
        return [(p, bits) for p in parts]
    left, right = parts
    side = ([a - b for a, b in zip(left, right)], bits + 1)
    mid = ([(a + b) // 2 for a, b in zip(left, right)], bits)
    return [[(left, bits), side], [side, (right, bits)], [mid, side]][code - 8]


def frame(samples, code, bits, blocking, number, size):
    s = Bits()
    for xs, w in lanes(samples, code, bits, size):
        s.add(subframe(xs, w))
    data = header(size=size, channels=code, bits=bits, variable=blocking, number=number) + s.bytes()
    return data + crc(data, 16, 0x8005).to_bytes(2, "big")


def write(samples, code, bits, blocking, number, size, output):
    """The answer's number, the length, and the output afterwards."""
    channels = code + 1 if code < 8 else 2
    if code > 10 or bits not in (8, 12, 16, 20, 24) or blocking not in LIMIT or not 1 <= size <= 65535 or number > LIMIT[blocking] or len(samples) != channels * size:
        return 11, 0, output
    if any(not -(1 << bits - 1) <= x < 1 << bits - 1 for x in samples):
        return 12, 0, output
    data = frame(samples, code, bits, blocking, number, size)
    if len(data) > len(output):
        return 13, 0, output
    return 0, len(data), data + output[len(data) :]


def write_probe(data):
    """What the program `write_probe` writes."""
    head = data[:20] + bytes(20 - len(data[:20]))
    number, size, room = (int.from_bytes(head[a:b], "little") for a, b in [(3, 11), (11, 15), (15, 19)])
    if room > 32768:
        return bytes([11, 0, 0, 0, 0])
    body = data[20 : 20 + 65536]
    samples = [int.from_bytes(body[i : i + 4], "little", signed=True) for i in range(0, len(body) // 4 * 4, 4)]
    r = write(samples, head[0], head[1], head[2], number, size, bytes([head[19]]) * room)
    return bytes([r[0]]) + r[1].to_bytes(4, "little") + r[2]
