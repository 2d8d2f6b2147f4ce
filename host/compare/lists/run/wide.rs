//! Saves and restores of seeds of 2^32 or more: the bytes that order 3 of document 02 asks for, what is refused beside them, and runs.
use super::kept::there_and_back;
use super::saves::{example, full, least, FULL, ORIGIN, OUTPUT};
use super::*;
use crate::saved::ROOM;
use crate::seeds::WIDE;

/// Short forms, and seeds on both sides of 2^32.
fn short_forms(r: &mut Replay) {
    r.course(&[ORIGIN]);
    example(r, &State { seed: WIDE, ..least() }, "0406 01000000 0100 0000000001000000");
    let all = State { n: 2, limit: 1_000_000, tick: 1_000_000, lap: true, ended: true, fallback: true, ..State::zero() };
    example(r, &State { seed: WIDE + 7, ..all }, "2c06 40420f00 40420f00 07 0200 0700000001000000");
    example(r, &State { seed: WIDE - 1, ..least() }, "0502 ffffffff 01000000 0100");
    example(r, &State { seed: 7, ..least() }, "0502 07000000 01000000 0100");
    example(r, &State { seed: 1 << 63, ..least() }, "0406 01000000 0100 0000000000000080");
    example(r, &State { seed: 0x0102_0304_0506_0708, ..least() }, "0406 01000000 0100 0807060504030201");
    example(r, &State { seed: u64::MAX, ..least() }, "0406 01000000 0100 ffffffffffffffff");
}

/// Bytes that are refused by 11: both seeds, a smaller one or zeros in the last field, the bit after it, that field cut off or longer.
const REFUSED: [&str; 12] = [
    "0506 01000000 01000000 0100 0100000001000000",
    "0506 01000000 01000000 0100 0100000000000000",
    "0506 00000000 01000000 0100 0100000001000000",
    "0506 01000000 01000000 0100 0000000000000000",
    "0406 01000000 0100 ffffffff00000000",
    "0406 01000000 0100 0100000000000000",
    "0406 01000000 0100 0000000000000000",
    "040a 01000000 0100 0000000001000000",
    "040e 01000000 0100 0000000001000000",
    "0406 01000000 0100 00000000010000",
    "0406 01000000 0100 0000000001000000 00",
    "0400 01000000 0000000001000000",
];

fn refused_bytes(r: &mut Replay) {
    for text in REFUSED {
        assert_eq!(r.restore_digits(text, 1), 11, "{text}");
    }
    for text in ["0406 01000000 0100 0000000001000000", "0406 01000000 0100 ffffffffffffffff"] {
        assert_eq!(r.restore_digits(text, 1), 0, "{text}");
    }
}

/// Outputs about the length asked for, with every field standing: a wide seed's form fills it, a small one's leaves four bytes as they
/// were. The last field cut off at each of its bytes.
fn rooms(r: &mut Replay) {
    let n = r.course(&seed(3));
    for (seed, length) in [(0xfedc_ba98_7654_3210, ROOM), (0x7654_3210, FULL)] {
        r.put_state(&State { seed, ..full(n) });
        assert_eq!(r.save(FULL), Err(2));
        assert_eq!(r.save(ROOM - 1), Err(2));
        for room in [ROOM, ROOM + 1, OUTPUT] {
            assert_eq!(r.save(room).map(|form| form.len()), Ok(length));
        }
        let bytes = r.save_shown(ROOM, true).unwrap();
        assert_eq!(r.restore(&bytes, LONG, n), 0);
        for k in length - 9..length {
            assert_eq!(r.restore(&bytes[..k], LONG, n), 11);
        }
        assert_eq!(r.restore(&[&bytes[..], &[0]].concat(), LONG, n), 11);
    }
}

pub fn records(r: &mut Replay, g: &mut SplitMix64) {
    short_forms(r);
    refused_bytes(r);
    rooms(r);
    there_and_back(r, g, &[WIDE + 7, u64::MAX]);
}
