//! The measured cases answer as they expect, the figures are written as said, and
//! no bytes do harm. The rules are tried by the list of worked cases (`worked`).

use crate::growth::{self, GROWTHS};
use crate::measure::Measured;
use crate::plain::{self, Handle};
use crate::side::{resolved, EUCLEAN};
use crate::sweep::{self, LENGTHS, SWEEPS};
use crate::tables::{cases, Call};
use crate::{chart, grouped};
use data::{how, BENCH_TREE};

#[test]
fn cases_answer_as_expected() {
    // What these are about takes no more than they have.
    let small = ["check-bench", "hostile-one-point-alone", "hostile-magic", "hostile-magic-outer"];
    for case in cases() {
        let input = (case.build)();
        let is_full = 60_000..=65_536;
        if matches!(input.call, Call::Check) && !small.contains(&case.name) {
            assert!(is_full.contains(&input.image.len()), "{}: {}", case.name, input.image.len());
        }
        Measured::new(case.name, input).unwrap();
    }
}

#[test]
fn swept_cases_answer_as_expected() {
    for sweep in SWEEPS {
        for len in LENGTHS {
            let case = format!("{}:{len}", sweep.name);
            Measured::new(&case, sweep::input(&case).unwrap()).unwrap();
        }
    }
    assert!(sweep::input("sweep-names:0").is_none());
    assert!(sweep::input("sweep-names").is_none());
}

#[test]
fn digits_are_grouped() {
    let numbers = [0.0, 999.4, 999.6, 12_345.0, 1_234_567.0];
    assert_eq!(numbers.map(grouped), ["0", "999", "1,000", "12,345", "1,234,567"]);
}

#[test]
fn growing_cases_answer_as_expected() {
    for growth in GROWTHS {
        for size in growth.sizes {
            let case = format!("{}:{size}", growth.name);
            Measured::new(&case, growth::input(&case).unwrap()).unwrap();
        }
    }
    assert!(growth::input("walk-mounts:0").is_none());
    assert!(growth::input("walk-mounts").is_none());
}

#[test]
fn the_chart_has_a_panel_for_each_growth() {
    let points = [(0, 10.0, Some(12.0)), (40, 1_000.0, Some(900.0))];
    let points = points.map(|(size, plain, proved)| growth::Point { size, plain, proved }).into();
    let svg = chart::draw(&[], 1.0, &[growth::Series { name: "links", points }]);
    assert_eq!(svg.matches("<polyline").count(), 2);
    assert_eq!(svg.matches("<circle").count(), 4);
    assert!(svg.contains(">links<") && svg.contains(">40<") && !svg.contains("NaN"));
}

#[test]
fn the_chart_has_a_bar_for_each_ratio() {
    let svg = chart::draw(&[("one", 0.5), ("two", 4.0)], 2.0_f64.sqrt(), &[]);
    // The background and two bars.
    assert_eq!(svg.matches("<rect").count(), 3);
    assert!(svg.contains(">one<") && svg.contains(">4.00<"));
    // The long one is cut off.
    assert_eq!(svg.matches("<path").count(), 1);
    assert!(svg.starts_with("<svg ") && svg.ends_with("</svg>\n"));
}

/// No image and no call makes the code panic, and what the check accepts the
/// resolver can walk.
#[test]
fn changed_images_do_no_harm() {
    let mut state = 1_u32;
    let mut random = |below: usize| {
        state = state.wrapping_mul(1_664_525).wrapping_add(1_013_904_223);
        (state >> 8) as usize % below
    };
    let paths =
        ["cal/tare", "pool/../cal/up/lab", "cal/fd/..", "/lab/cal/loop", "cal/t", "cal/abs"];
    for _ in 0..20_000 {
        let mut image = BENCH_TREE.to_vec();
        for _ in 0..=random(3) {
            image[random(BENCH_TREE.len())] = random(16) as u8;
        }
        for path in paths {
            let node = random(13) as u64;
            let handle = Handle { mount: random(3) as u64, node, mark: random(2) == 1 };
            let how = how(0, random(32) as u64);
            let answer = resolved(plain::resolve(&image, handle, path.as_bytes(), &how));
            assert_eq!(answer[0] == EUCLEAN, plain::check(&image).is_err());
        }
    }
}
