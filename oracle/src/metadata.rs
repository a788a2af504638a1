//! Metadata blocks, drawn at random and made for a purpose.
use common::draw::Draw;

pub const MARK: &[u8] = b"fLaC";

/// A block's head: the last flag, the type and the length.
fn head(last: bool, kind: u8, length: usize) -> [u8; 4] {
    let [_, a, b, c] = (length as u32).to_be_bytes();
    [u8::from(last) << 7 | kind, a, b, c]
}

fn block(last: bool, kind: u8, contents: &[u8]) -> Vec<u8> {
    [&head(last, kind, contents.len()), contents].concat()
}

/// The 34 bytes of a STREAMINFO. Most have fields that claxon takes.
fn info(draw: &mut Draw) -> Vec<u8> {
    let size = draw.from(16, 65535) as u16;
    let largest = draw.from(u32::from(size), 65535) as u16;
    let odd = draw.once_in(6);
    let blocks = if odd { [draw.bits(16) as u16, draw.bits(16) as u16] } else { [size, largest] };
    let frames = match draw.below(3) {
        0 => [0, 0],
        1 => [draw.bits(23) as u32, 0xFF_FFFF],
        _ => [draw.bits(24) as u32, draw.bits(24) as u32],
    };
    let rate = match draw.below(8) {
        0 => draw.pick(&[0, 1, 655350, 655351, 0xF_FFFF]),
        _ => draw.from(1, 655350),
    };
    let depth = if draw.once_in(4) { draw.below(5) } else { draw.below(32) };
    let shape = u64::from(rate) << 44 | draw.bits(3) << 41 | u64::from(depth) << 36 | draw.bits(36);
    let mut bytes = Vec::new();
    blocks.iter().for_each(|size| bytes.extend(size.to_be_bytes()));
    frames.iter().for_each(|size| bytes.extend(&size.to_be_bytes()[1..]));
    bytes.extend(shape.to_be_bytes());
    bytes.extend((0..16).map(|_| draw.bits(8) as u8));
    bytes
}

/// A STREAMINFO block.
pub fn info_block(draw: &mut Draw, last: bool) -> Vec<u8> {
    block(last, 0, &info(draw))
}

/// Tags, well formed or nearly so.
fn tags(draw: &mut Draw) -> Vec<u8> {
    let entries: Vec<&[u8]> =
        (0..draw.below(4)).map(|_| draw.pick(&[&b"A=owl"[..], b"NIGHT=", b"no sign", b"", b"\x01=x"])).collect();
    let mut bytes = 3u32.to_le_bytes().to_vec();
    bytes.extend(b"bat");
    bytes.extend((entries.len() as u32 + u32::from(draw.once_in(8))).to_le_bytes());
    for entry in entries {
        bytes.extend((entry.len() as u32).to_le_bytes());
        bytes.extend(entry);
    }
    if draw.once_in(6) {
        bytes.truncate(draw.below(bytes.len() as u32) as usize);
    }
    bytes
}

/// A later block of any kind.
fn later(draw: &mut Draw, last: bool) -> Vec<u8> {
    let kind = match draw.below(12) {
        0 => 0,
        1 => draw.from(7, 126) as u8,
        2 if draw.once_in(3) => 127,
        _ => draw.from(1, 6) as u8,
    };
    let contents = match kind {
        0 if draw.once_in(2) => info(draw),
        4 => tags(draw),
        _ => (0..draw.below(12)).map(|_| draw.bits(8) as u8).collect(),
    };
    block(last, kind, &contents)
}

/// A stream header with up to four later blocks. One in six is wrong in its mark or its first block.
pub fn made(draw: &mut Draw) -> Vec<u8> {
    let count = draw.below(5);
    let mut bytes = MARK.to_vec();
    bytes.extend(info_block(draw, count == 0));
    for i in 0..count {
        let last = i + 1 == count && !draw.once_in(8);
        bytes.extend(later(draw, last));
    }
    match draw.below(18) {
        0 => bytes[draw.below(4) as usize] ^= 1 << draw.below(8),
        1 => bytes[4] = draw.bits(8) as u8,
        2 => bytes[draw.from(5, 7) as usize] = draw.bits(8) as u8,
        _ => {}
    }
    bytes
}

/// Headers with long blocks: what claxon holds in memory has a limit, and what it skips has none.
pub fn blocks(mut with: impl FnMut(&[u8])) {
    let mut draw = Draw::new(1, "long blocks");
    for (kind, length) in
        [(1, 0xFF_FFFF), (6, 0xFF_FFFF), (3, 1 << 20), (2, (10 << 20) + 1), (4, (10 << 20) + 1), (2, 3), (2, 4)]
    {
        let mut bytes = MARK.to_vec();
        bytes.extend(info_block(&mut draw, false));
        bytes.extend(head(true, kind, length));
        bytes.resize(bytes.len() + length, 0);
        with(&bytes);
        with(&bytes[..bytes.len() - 1]);
        // The same block as the first one.
        let first = [MARK, &bytes[42..]].concat();
        with(&first);
    }
}
