"""The reader of the scope paper in plain Python: what one read answers, and what the buffer holds afterwards.

It shares nothing with the definition or the code, so that the stored cases do not merely repeat them. make.py uses it.
"""


class Stop(Exception):
    def __init__(self, number):
        self.number = number


class Input:
    def __init__(self, data):
        self.data, self.at = data, 0

    def bits(self, n):
        v = 0
        for _ in range(n):
            if self.at >= 8 * len(self.data):
                raise Stop(2)
            v = v * 2 + (self.data[self.at // 8] >> (7 - self.at % 8) & 1)
            self.at += 1
        return v

    def zeros(self):
        z = 0
        while self.bits(1) == 0:
            z += 1
        return z


def require(fact, number):
    if not fact:
        raise Stop(number)


def crc(data, width, poly):
    r = 0
    for b in data:
        for i in range(7, -1, -1):
            top = (r >> (width - 1) ^ b >> i) & 1
            r = (r << 1) % (1 << width) ^ (poly if top else 0)
    return r


def signed(w, v):
    return v if v * 2 < 1 << w else v - (1 << w)


def low32(z):
    return signed(32, z % (1 << 32))


def number(s):
    b = s.bits(8)
    if b < 0x80:
        return b
    ones = 8 - (b ^ 0xFF).bit_length()
    require(2 <= ones <= 7, 5)
    v = b % (1 << (7 - ones))
    for _ in range(ones - 1):
        c = s.bits(8)
        require(c // 64 == 2, 5)
        v = v * 64 + c % 64
    return v


# Rate code 0: the header leaves the rate to the stream.
RATES = [None, 88200, 176400, 192000, 8000, 16000, 22050, 24000, 32000, 44100, 48000, 96000]


def header(s):
    sync = s.bits(16)
    require(sync // 2 == 0x7FFC, 3)
    size = s.bits(4)
    require(size != 0, 4)
    rate = s.bits(4)
    require(rate != 15, 4)
    channels = s.bits(4)
    require(channels <= 10, 4)
    depth = s.bits(3)
    require(depth != 3, 4)
    require(depth != 7, 8)
    require(s.bits(1) == 0, 4)
    n = number(s)
    require(sync % 2 == 1 or n <= 2147483647, 5)
    if size == 1:
        block = 192
    elif size <= 5:
        block = 144 << size
    elif size == 6:
        block = s.bits(8) + 1
    elif size == 7:
        block = s.bits(16) + 1
        require(block <= 65535, 4)
    else:
        block = 1 << size
    stored = s.bits({12: 8, 13: 16, 14: 16}.get(rate, 0))
    before = s.data[: s.at // 8]
    require(s.bits(8) == crc(before, 8, 0x07), 6)
    bits = [0, 8, 12, 0, 16, 20, 24][depth]
    hertz = RATES[rate] if rate < 12 else stored * {12: 1000, 13: 1, 14: 10}[rate]
    return channels, bits, block, sync % 2 == 1, n, hertz


def stream_block(data):
    """The block size in the header that starts these bytes, whatever its blocking; None if there is no header."""
    try:
        return header(Input(data))[2]
    except Stop:
        return None


def residual(s, warm, n):
    method = s.bits(2)
    require(method < 2, 4)
    order = s.bits(4)
    require(n % (1 << order) == 0, 9)
    size = n >> order
    require(warm <= size, 9)
    out = []
    for i in range(1 << order):
        k = s.bits(4 + method)
        count = size - warm if i == 0 else size
        if k == (16 << method) - 1:
            width = s.bits(5)
            out += [signed(width, s.bits(width)) for _ in range(count)]
            continue
        for _ in range(count):
            q = s.zeros()
            f = ((q << k) + s.bits(k)) % (1 << 32)
            out.append(f // 2 if f % 2 == 0 else -1 - f // 2)
    return out


FIXED = [[], [1], [2, -1], [3, -3, 1], [4, -6, 4, -1]]


def predict(cs, shift, warm, rs):
    out = list(warm)
    for r in rs:
        total = sum(c * x for c, x in zip(cs, reversed(out)))
        out.append(low32((total >> shift) + r))
    return out


def subframe(s, width, n):
    require(s.bits(1) == 0, 4)
    kind = s.bits(6)
    require(kind < 2 or 8 <= kind <= 12 or kind >= 32, 4)
    wasted = 0
    if s.bits(1):
        wasted = s.zeros() + 1
    require(wasted <= 31 and wasted < width, 9)
    w = width - wasted
    order = kind - 8 if 8 <= kind <= 12 else kind - 31 if kind >= 32 else 0
    require(order <= n, 9)
    sample = lambda b: signed(b, s.bits(b))
    if kind == 0:
        xs = [sample(w)] * n
    elif kind == 1:
        xs = [sample(w) for _ in range(n)]
    else:
        warm = [sample(w) for _ in range(order)]
        cs, shift = None, 0
        if kind >= 32:
            precision = s.bits(4)
            require(precision < 15, 4)
            shift = s.bits(5)
            require(shift < 16, 8)
            cs = [sample(precision + 1) for _ in range(order)]
        xs = predict(FIXED[order] if cs is None else cs, shift, warm, residual(s, order, n))
    return [low32(x << wasted) for x in xs]


def join(code, n, xs):
    a, b = xs[:n], xs[n:]
    if code == 8:
        return a + [low32(l - d) for l, d in zip(a, b)]
    if code == 9:
        return [low32(d + r) for d, r in zip(a, b)] + b
    if code == 10:
        m = [low32(2 * x) | (d & 1) for x, d in zip(a, b)]
        return [low32(x + d) >> 1 for x, d in zip(m, b)] + [low32(x - d) >> 1 for x, d in zip(m, b)]
    return xs


def first_sample(variable, n, block):
    """None: the number counts blocks, and their size is unknown."""
    if variable:
        return n
    return None if block is None else block * n


def read(data, buffer, block=None, stream=None):
    """(number, consumed, first, channels, bits, block size, rate), and the buffer afterwards. `block` is the size of the
    stream's blocks and `stream` its record, the bits and the rate; None means that it is unknown. The first sample's
    number and the rate are None where they are unknown, and after a refusal."""
    s, zeroed = Input(data), 0
    try:
        require(block is None or 1 <= block <= 65535, 11)
        require(stream is None or 4 <= stream[0] <= 32, 11)
        # Only then, so that bad settings are refused on empty input too.
        require(len(data) > 0, 1)
        code, bits, size, variable, n, rate = header(s)
        channels = code + 1 if code < 8 else 2
        if stream is not None:
            bits = bits or stream[0]
            rate = stream[1] if rate is None else rate
        require(1 <= bits <= 24, 8)
        require(stream is None or bits == stream[0], 9)
        require(variable or block is None or size <= block, 9)
        require(channels * size <= len(buffer), 7)
        at = s.at
        s.bits(1)
        s.at, zeroed = at, channels * size
        widths = [bits] * channels if code < 8 else [bits + (code == 9), bits + (code != 9)]
        xs = [x for w in widths for x in subframe(s, w, size)]
        s.bits(-s.at % 8)
        before = data[: s.at // 8]
        require(s.bits(16) == crc(before, 16, 0x8005), 10)
        samples = join(code, size, xs)
        return (0, s.at // 8, first_sample(variable, n, block), channels, bits, size, rate), samples + buffer[zeroed:]
    except Stop as stop:
        return (stop.number, 0, None, 0, 0, 0, None), [0] * zeroed + buffer[zeroed:]


class Info:
    """What a stream header says."""

    def __init__(self, s):
        self.blocks = s.bits(16), s.bits(16)
        self.frames = s.bits(24), s.bits(24)
        self.rate, self.channels = s.bits(20), s.bits(3) + 1
        self.bits = s.bits(5) + 1
        require(self.bits >= 4, 9)
        self.samples, self.md5 = s.bits(36), bytes(s.bits(8) for _ in range(16))


def skip(s, n):
    require(s.at + 8 * n <= 8 * len(s.data), 2)
    s.at += 8 * n


def stream_header(data):
    """(number, consumed, what the header says), and (number, 0, None) for a refusal."""
    s, info = Input(data), None
    try:
        require(s.bits(32) == int.from_bytes(b"fLaC", "big"), 3)
        last = 0
        while not last:
            last, kind = s.bits(1), s.bits(7)
            require(kind != 127, 4)
            require(info is not None or kind == 0, 9)
            length = s.bits(24)
            require(info is not None or length == 34, 9)
            if info is None:
                info = Info(s)
            else:
                skip(s, length)
        return 0, s.at // 8, info
    except Stop as stop:
        return stop.number, 0, None


def little(v, n):
    return (v % (1 << (8 * n))).to_bytes(n, "little")


def shape(r):
    return little(r[3], 1) + little(r[4], 1) + little(r[5], 2)


def runner(data):
    """What the program `runner` writes. It reads all frames with the block size of the first one's header."""
    data, out, buffer = data[:32768], [], [0] * 8192
    block = stream_block(data)
    while True:
        r, buffer = read(data, buffer, block)
        if r[0]:
            return b"".join(out) + bytes([3, r[0]])
        # A first frame that is accepted has a header, so a size is known from there on.
        assert r[2] is not None
        out.append(b"\x01" + little(r[1], 4) + little(r[2], 8) + shape(r))
        out += [b"\x02" + little(x, 4) for x in buffer[: r[3] * r[5]]]
        data = data[r[1] :]


PROBE_LIMIT = 65536


class Head:
    """The numbers before the bytes of a probe's input. Bytes that are not there count as zeros."""

    def __init__(self, data):
        self.data, self.at = data, 0

    def number(self, n):
        part = self.data[self.at : self.at + n]
        self.at += n
        return int.from_bytes(part, "little")


def read_probe(data):
    """What the program `read_probe` writes."""
    head = Head(data)
    room, fill = head.number(4), signed(32, head.number(4))
    given, block = head.number(1), head.number(4)
    stream_given, bits, rate = head.number(1), head.number(1), head.number(4)
    # The strict setting, which is passed over.
    head.number(1)
    wide_room = head.number(4)
    # What the second buffer holds, passed over too.
    head.number(8)
    if room > PROBE_LIMIT or given > 1 or stream_given > 1 or wide_room > PROBE_LIMIT:
        return b"\x0b"
    r, buffer = read(data[head.at :][:PROBE_LIMIT], [fill] * room, block if given else None, (bits, rate) if stream_given else None)
    out = little(r[0], 1) + little(r[1], 4) + little(int(r[2] is not None), 1) + little(r[2] or 0, 8) + shape(r)
    # Eight parts of eight bytes: where the bits went.
    out += bytes(8 * 8)
    return out + b"".join(little(x, 4) for x in buffer) + bytes(8 * wide_room)


def stream_probe(data):
    """What the program `stream_probe` writes."""
    number, consumed, info = stream_header(data[:PROBE_LIMIT])
    if number:
        return little(number, 1) + bytes(4 + 4 + 8 + 4 + 2 + 8 + 16)
    out = little(0, 1) + little(consumed, 4) + b"".join(little(v, 2) for v in info.blocks) + b"".join(little(v, 4) for v in info.frames)
    return out + little(info.rate, 4) + little(info.channels, 1) + little(info.bits, 1) + little(info.samples, 8) + info.md5
