//! Calls and their answers.

mod builds;
mod causes;
mod descriptors;
mod errors;
mod handles;
mod lookups;
#[cfg(feature = "std")]
mod manifests;
#[cfg(feature = "std")]
mod part;
mod paths;
mod sets;
mod tables;

use crate::bench_tree::{IMAGE, TABLE};
use crate::*;

const LAB: Handle = Handle::new(0, 1);

#[test]
fn the_bench_tree_answers_as_its_table_says() {
    let table = Table::new(IMAGE).unwrap();
    for row in TABLE {
        assert_eq!(resolve(IMAGE, row.handle, row.path, row.how), row.answer, "{row:?}");
        assert_eq!(table.resolve(row.handle, row.path, row.how), row.answer, "{row:?}");
    }
}

#[test]
fn the_smallest_image_is_accepted() {
    let mut image = b"TOC1\x01\0\x01\0\0\0\0\0\0\0\0\0\x28\0\0\0\x01\0".to_vec();
    image.resize(40, 0);
    let table = Table::new(&image).unwrap();
    let found = table.resolve(table.root(), "/..", OpenHow::new());
    assert_eq!(found.map(|found| found.place), Ok(Place { mount: 0, node: 0 }));
    assert_eq!((table.nodes().len(), table.mounts().len(), table.entries().len()), (1, 1, 0));
}

#[test]
fn refused_tables_say_where() {
    let broken = |at: usize, byte: u8| {
        let mut image = IMAGE.to_vec();
        image[at] = byte;
        check(&image).unwrap_err()
    };
    let (nodes, mounts, entries) = (20, 20 + 12 * 12, 20 + 12 * 12 + 2 * 8);
    let rows = [
        (broken(0, 0), "rule 2 broken: no signature, or its zero field is not zero"),
        (broken(4, 0), "rule 3 broken: the header's counts or lengths are wrong"),
        (broken(nodes + 12 * 3, 9), "rule 4 broken by node 3"),
        (broken(nodes + 12 * 8 + 8, 2), "rule 4 broken by node 12"),
        (broken(entries + 8 * 5 + 6, 12), "rule 5 broken by entry 5"),
        (broken(mounts + 8, 9), "rule 6 broken by mount 1"),
        (broken(nodes + 12 * 10 + 4, 2), "rule 7 broken by node 10, a magic link"),
    ];
    for (broken, text) in rows {
        assert_eq!(broken.to_string(), text);
    }
    assert_eq!(check(b""), Err(Broken { rule: 1, record: 0 }));
    assert_eq!(
        check(&[0; 65_537]).unwrap_err().to_string(),
        "rule 1 broken: the image is not 20 to 65,536 bytes long"
    );
    let refusal = resolve(b"", LAB, "cal", OpenHow::new()).unwrap_err();
    assert_eq!(refusal.to_string(), "EUCLEAN (117); 0 components, 0 links");
}

#[test]
fn unknown_bits_are_named() {
    let refusal = |how: OpenHow| resolve(IMAGE, LAB, "cal", how).unwrap_err();
    for bit in 0..64 {
        let flags = Flags::from_bits_retain(1 << bit | 1 << 63);
        if !Flags::NAMED.iter().any(|(_, named)| flags.contains(*named)) {
            let refusal = refusal(flags.into());
            assert_eq!(refusal.errno, Errno::EINVAL);
            assert_eq!(refusal.unknown_bit(), Some(UnknownBit::Flags(bit)));
        }
    }
    for bit in 5..64 {
        let refusal = refusal(Resolve::from_bits_retain(1 << bit | 1 << 63 | 1).into());
        assert_eq!(refusal.unknown_bit(), Some(UnknownBit::Resolve(bit)));
    }
    let refusal = refusal(Resolve::from_bits_retain(1 << 5).into());
    let text = "EINVAL (22), unknown resolve bit 5; 0 components, 0 links";
    assert_eq!(refusal.to_string(), text);
}

#[test]
fn raw_open_hows_may_have_any_length() {
    let errno = |how: &[u8]| resolve_raw(IMAGE, LAB, "cal", how).err().map(|r| r.errno);
    let zeros = [0; 4_097];
    for (len, expected) in [
        (0, Some(Errno::EINVAL)),
        (23, Some(Errno::EINVAL)),
        (24, None),
        (4_096, None),
        (4_097, Some(Errno::E2BIG)),
    ] {
        assert_eq!(errno(&zeros[..len]), expected, "{len}");
    }
    let mut mode = [0; 24];
    mode[8] = 1;
    assert_eq!(errno(&mode), Some(Errno::EINVAL));
    let both = Resolve::BENEATH | Resolve::IN_ROOT;
    assert_eq!(resolve(IMAGE, LAB, "cal", both).unwrap_err().errno, Errno::EINVAL);
}

#[test]
fn bad_paths_are_refused() {
    for (path, expected) in [
        (&b""[..], Some(Errno::ENOENT)),
        (b"cal\0", Some(Errno::EINVAL)),
        (b"\xff\xfe", Some(Errno::ENOENT)),
        (&[b'/'; 4_095], None),
        (&[b'/'; 4_096], Some(Errno::ENAMETOOLONG)),
        (&[b'n'; 255], Some(Errno::ENOENT)),
        (&[b'n'; 256], Some(Errno::ENAMETOOLONG)),
    ] {
        let answer = resolve(IMAGE, LAB, path, OpenHow::new());
        let errno = answer.err().map(|refusal| refusal.errno);
        assert_eq!(errno, expected, "{}", path.escape_ascii());
    }
}

#[test]
fn the_header_has_this_version() {
    let header = include_str!("../../../include/ventolaire.h");
    let defined = |name: &str| {
        let define = format!("#define VENTOLAIRE_VERSION_{name} ");
        header.lines().find_map(|line| line.strip_prefix(&define)).unwrap()
    };
    let version = ["MAJOR", "MINOR", "PATCH"].map(defined).join(".");
    assert_eq!(version, env!("CARGO_PKG_VERSION"));
}

/// Whatever the bytes are, there is an answer.
#[test]
fn any_input_is_answered() {
    let mut state = 1_u32;
    let mut random = |below: usize| {
        state = state.wrapping_mul(1_664_525).wrapping_add(1_013_904_223);
        (state >> 8) as usize % below
    };
    for _ in 0..20_000 {
        let mut image = IMAGE.to_vec();
        for _ in 0..random(4) {
            image[random(IMAGE.len())] = random(256) as u8;
        }
        let mut path = TABLE[random(TABLE.len())].path.as_bytes().to_vec();
        for _ in 0..random(3) {
            path.push(random(256) as u8);
        }
        let how: Vec<u8> = (0..random(40)).map(|_| (random(2) * random(32)) as u8).collect();
        let (mount, node, mark) = (random(3) as u64, random(13) as u64, random(4) == 0);
        let handle = Handle { mount, node, mark };
        let accepted = check(&image).is_ok();
        let path = path.as_slice();
        let answer = resolve_raw(&image, handle, path, &how);
        match Table::new(&image) {
            Ok(table) => {
                assert_eq!(table.resolve_raw(handle, path, &how), answer);
                assert!(!format!("{:?} {:?}", table.nodes(), table.mounts()).is_empty());
            }
            Err(broken) => assert_eq!(Err(broken.into()), answer),
        }
        match answer {
            Ok(found) => assert!(accepted && found.components <= 83_968 && found.links <= 40),
            Err(refusal) => {
                assert_eq!(refusal.errno == Errno::EUCLEAN, !accepted);
                assert!(!refusal.to_string().contains("unknown errno"));
            }
        }
    }
}
