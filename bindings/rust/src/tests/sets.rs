//! Sets of bits, and open_hows made of them.

use crate::*;
use std::fmt::{Binary, LowerHex, Octal, UpperHex};

/// Tests for both sets, by their own names.
macro_rules! a_set_is_as_usual {
    ($module:ident, $Set:ident, $prefix:literal) => {
        mod $module {
            use super::*;

            const EMPTY: $Set = $Set::empty();
            const FIRST: $Set = $Set::NAMED[0].1;
            const TWO: $Set = FIRST.union($Set::NAMED[1].1);

            #[test]
            fn bits_have_names() {
                for &(name, bit) in $Set::NAMED {
                    assert_eq!($Set::from_name(name), Some(bit));
                    assert_eq!($Set::from_name(name.strip_prefix($prefix).unwrap()), Some(bit));
                    assert_eq!((bit.to_string().as_str(), bit.bits().count_ones()), (name, 1));
                }
                assert_eq!($Set::from_name(""), None);
                assert_eq!($Set::from_name("O_BELOW"), None);
                assert_eq!(TWO.iter_names().collect::<Vec<_>>(), $Set::NAMED[..2]);
            }

            #[test]
            fn operators_are_those_of_sets() {
                let all: $Set = $Set::NAMED.iter().map(|&(_, bit)| bit).collect();
                assert_eq!($Set::all(), all);
                for &(_, bit) in $Set::NAMED {
                    assert_eq!(bit & !bit, EMPTY);
                    assert_eq!(bit | !bit, all);
                    assert_eq!((TWO | bit) - bit, TWO & !bit);
                    assert_eq!(TWO ^ bit, (TWO | bit) - (TWO & bit));
                    assert_eq!(TWO.contains(bit), TWO.intersects(bit));
                }
                let mut changed = EMPTY;
                changed.extend([TWO]);
                changed &= all;
                changed ^= FIRST;
                changed |= TWO;
                changed -= FIRST;
                assert_eq!(changed, $Set::NAMED[1].1);
                assert!($Set::default().is_empty() && !TWO.is_empty());
            }

            #[test]
            fn any_bits_are_written_and_read() {
                for bit in 0..64 {
                    let set = $Set::from_bits_retain(1 << bit) | TWO;
                    let known = $Set::all().contains(set);
                    assert_eq!($Set::from_bits(set.bits()), known.then_some(set));
                    assert_eq!($Set::from_bits_truncate(set.bits()), set & $Set::all());
                    assert_eq!(set.to_string().parse(), Ok(set));
                    assert_eq!(format!("{set:?}"), format!("{}({set})", stringify!($Set)));
                    assert_eq!(numbers(set), numbers(set.bits()));
                }
                let empty = (EMPTY.to_string(), "0".parse(), " ".parse());
                assert_eq!(empty, ("0".into(), Ok(EMPTY), Ok(EMPTY)));
                for wrong in ["O_BELOW", "|", "0x", "0x+1", "1", "0x1_0", "0x10000000000000000"] {
                    let error = wrong.parse::<$Set>().unwrap_err();
                    assert!(error.to_string().contains($Set::NAMED[0].0), "{wrong}");
                }
            }
        }
    };
}

a_set_is_as_usual!(flags, Flags, "O_");
a_set_is_as_usual!(resolve, Resolve, "RESOLVE_");

fn numbers(set: impl LowerHex + UpperHex + Octal + Binary) -> String {
    format!("{set:#x} {set:X} {set:o} {set:b}")
}

#[test]
fn sets_and_hows_are_constants() {
    const FLAGS: Flags = Flags::PATH.union(Flags::CLOEXEC);
    const HOW: OpenHow = OpenHow::new().flags(FLAGS).resolve(Resolve::from_bits_retain(u64::MAX));
    const BYTES: [u8; OpenHow::LEN] = HOW.to_bytes();
    assert_eq!(
        BYTES,
        [0, 0, 0x28, 0, 0, 0, 0, 0, 0, 0, 0, 0, 0, 0, 0, 0, 255, 255, 255, 255, 255, 255, 255, 255]
    );
    assert_eq!(OpenHow::from(FLAGS), OpenHow::new().flags(Flags::PATH).flags(FLAGS));
    assert_eq!(OpenHow::from(Resolve::BENEATH), OpenHow::default().resolve(Resolve::BENEATH));
    assert_eq!(" NO_XDEV|RESOLVE_BENEATH | 0x20".parse::<Resolve>().unwrap().bits(), 1 + 8 + 32);
}
