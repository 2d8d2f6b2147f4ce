//! Saved bytes with one thing changed.
use crate::car::pick;
use crate::saved::{place, LAST_FIELD};
use crate::seeds::{low, wide, WIDE};
use reinfors_core::SplitMix64;

/// One time in three the seed's fields, else anything.
pub fn spoilt(g: &mut SplitMix64, bytes: Vec<u8>) -> Vec<u8> {
    if g.next_u64() % 3 == 0 {
        other_seed(g, &bytes)
    } else {
        anywhere(g, bytes)
    }
}

/// The map, a field's bit and its first byte, or a byte of a field.
fn anywhere(g: &mut SplitMix64, mut bytes: Vec<u8>) -> Vec<u8> {
    let k = g.next_u64() as usize % (LAST_FIELD + 1);
    let at = place(&bytes, k);
    let value = pick(g, &[0, 1, 8, 0x7f, 0x80, 0xff, g.clone().next_u64() as u8]);
    let (first, end) = (at.min(bytes.len() - 1), place(&bytes, k + 1).max(at + 1).min(bytes.len()));
    match g.next_u64() % 8 {
        0 => bytes.truncate(at),
        1 => bytes.insert(at, value),
        2 => bytes[k / 8] ^= 1 << (g.next_u64() % 8),
        3 => drop(bytes.remove(first)),
        4 => bytes[first] = value,
        5 => bytes[end - 1] = value,
        6 => {
            bytes[0] |= 0x20;
            bytes.insert(place(&bytes, 5), value);
        }
        _ => bytes[g.next_u64() as usize % (end - first) + first] = value,
    }
    bytes
}

/// The same run with other fields for its seed: both, a small seed in the last field, that field cut off or longer, the bit after it; and
/// as they should be, at the edge.
fn other_seed(g: &mut SplitMix64, bytes: &[u8]) -> Vec<u8> {
    let between = &bytes[place(bytes, 1)..place(bytes, LAST_FIELD)];
    let (narrow, small) = ((low(g) as u32).to_le_bytes(), pick(g, &[0, 1, WIDE - 1, low(&mut g.clone())]));
    let above = pick(g, &[WIDE, wide(&mut g.clone())]).to_le_bytes();
    let (bits, first, last): (u16, &[u8], Vec<u8>) = match g.next_u64() % 8 {
        0 => (0x401, &narrow, above.to_vec()),
        1 | 2 => (0x400, &[], small.to_le_bytes().to_vec()),
        3 => (0x400, &[], above[..g.next_u64() as usize % 8].to_vec()),
        4 => (0x400, &[], [&above[..], &[1]].concat()),
        5 => (0xc00, &[], above.to_vec()),
        6 => (0x001, &narrow, Vec::new()),
        _ => (0x400, &[], above.to_vec()),
    };
    let map = u16::from_le_bytes([bytes[0], bytes[1]]) & !0x401 | bits;
    [&map.to_le_bytes()[..], first, between, &last].concat()
}
