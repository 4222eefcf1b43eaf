//! Document 02, "None and All are not inks", sentence by sentence.

mod common;

use common::*;
use reference::block::{Body, Record, DEVICE_CMYK, DEVICE_GRAY};
use reference::cie::Answer;
use reference::colour::{evaluate, Colour, Reply};
use reference::generate::{random_component, random_page, Rng};
use reference::listing::list;
use reference::numbers::{float_of, limit, ONE};
use reference::page::{name_at, spaces, validate};
use reference::recipe::recipe_of;
use reference::records::named;
use reference::runner::run;

const NINE: Reply = Err((9, 0));

/// A Separation of this name over DeviceCMYK.
fn over_cmyk(number: u16, name: &[u8]) -> Record {
    let gold = separation(number, DEVICE_CMYK, 2, [1, 2, 3, 4], [5, 6, 7, 8]);
    named(gold, name)
}

/// An Indexed over block 2, and there the Separation of this name.
fn indexed_over(name: &[u8]) -> Vec<u8> {
    page(&[
        record(0, Body::Indexed { base: 2, hival: 2 }),
        palette(1, &[0, 51, 255]),
        over_cmyk(2, name),
    ])
}

#[test]
fn the_name_decides_exactly() {
    let near: [&[u8]; 14] = [
        b"none", b"Non", b"Nones", b"NONE", b"nONE", b"None ", b" None", b"all", b"Al", b"Alls",
        b"ALL", b"All ", b"AllNone", b"N",
    ];
    for name in near {
        let made = page(&[over_cmyk(0, name)]);
        assert_eq!(name_at(&made, 0), Some(name));
        let answer = Answer::Cmyk([5, 6, 7, 8].map(float_of));
        assert_eq!(evaluate(&made, 0, &[ONE]), kept(answer));
        assert_eq!(recipe_of(&made, 0).unwrap().len(), 29);
    }
    assert_eq!(
        evaluate(&page(&[over_cmyk(0, b"None")]), 0, &[ONE]),
        kept(Answer::NoMark)
    );
    assert_eq!(
        evaluate(&page(&[over_cmyk(0, b"All")]), 0, &[ONE]),
        kept(Answer::EveryInk(1.0))
    );
    // A name belongs to a Separation alone.
    let gray = page(&[record(0, cal_gray(ONE))]);
    assert_eq!(name_at(&gray, 0), None);
    assert_eq!(name_at(&gray, u32::from(DEVICE_GRAY)), None);
}

#[test]
fn every_ink_has_the_limited_tint() {
    let all = page(&[over_cmyk(0, b"All")]);
    let none = page(&[over_cmyk(0, b"None")]);
    for (v, float, moved) in [
        (i32::MIN, 0.0, true),
        (-1, 0.0, true),
        (0, 0.0, false),
        (250_000, 0.25, false),
        (ONE, 1.0, false),
        (ONE + 1, 1.0, true),
        (i32::MAX, 1.0, true),
    ] {
        let answer = Answer::EveryInk(float);
        assert_eq!(evaluate(&all, 0, &[v]), Ok(Colour { answer, moved }));
        // None limits nothing.
        assert_eq!(evaluate(&none, 0, &[v]), kept(Answer::NoMark));
    }
    for count in [0, 2, 3, 4, 5] {
        assert_eq!(evaluate(&all, 0, &vec![0; count]), NINE);
        assert_eq!(evaluate(&none, 0, &vec![0; count]), NINE);
    }
}

#[test]
fn recipes_and_listing() {
    let words = |name: &[u8], number| recipe_of(&indexed_over(name), number).unwrap();
    assert_eq!(words(b"None", 2), [1, 10]);
    assert_eq!(words(b"All", 2), [1, 1, 0, 0, ONE, 11]);
    assert_eq!(words(b"None", 0), [1, 2, 1, 2, 0, 200_000, ONE, 10]);
    assert_eq!(
        words(b"All", 0),
        [1, 2, 1, 2, 0, 200_000, ONE, 1, 0, 0, ONE, 11]
    );
    assert_eq!(
        list(&indexed_over(b"None")),
        "blocks 3\n0 Indexed 1 8\n2 Separation 1 2\n"
    );
    assert_eq!(
        list(&indexed_over(b"All")),
        "blocks 3\n0 Indexed 1 12\n2 Separation 1 6\n"
    );
    // An Indexed over either limits its index.
    let (none, all) = (indexed_over(b"None"), indexed_over(b"All"));
    for (v, float, moved) in [
        (-ONE, 0.0, true),
        (ONE, 0.2, false),
        (1_500_000, 1.0, false),
        (9 * ONE, 1.0, true),
    ] {
        let answer = Answer::EveryInk(float);
        assert_eq!(evaluate(&all, 0, &[v]), Ok(Colour { answer, moved }));
        let answer = Answer::NoMark;
        assert_eq!(evaluate(&none, 0, &[v]), Ok(Colour { answer, moved }));
    }
}

#[test]
fn records_are_judged_as_before() {
    let made = |name: &[u8], alternate, c1| {
        let gold = separation(0, alternate, 1, [0; 4], c1);
        page(&[named(gold, name)])
    };
    for name in [&b"None"[..], b"All", b"Gold"] {
        assert_eq!(validate(&made(name, DEVICE_GRAY, [9, 0, 0, 0])), Ok(1));
        assert_eq!(
            validate(&made(name, DEVICE_GRAY, [9, 1, 0, 0])),
            Err((7, 0))
        );
        assert_eq!(validate(&made(name, 0, [0; 4])), Err((6, 0)));
        assert_eq!(validate(&made(name, 1, [0; 4])), Err((6, 0)));
        let no_exponent = page_with(&[over_cmyk(0, name)], 0, |block| block[6] = 0);
        assert_eq!(validate(&no_exponent), Err((7, 0)), "no program");
        let much = page_with(&[over_cmyk(0, name)], 0, |block| block[6] = 5);
        assert_eq!(validate(&much), Err((5, 0)));
    }
}

#[test]
fn both_occur_on_random_pages() {
    let mut rng = Rng::new(17);
    let (mut none, mut all, mut others) = (0, 0, 0);
    for _ in 0..300 {
        let page = random_page(&mut rng);
        for (number, _) in spaces(&page) {
            let v = random_component(&mut rng);
            let reply = match name_at(&page, number) {
                Some(b"None") => {
                    none += 1;
                    kept(Answer::NoMark)
                }
                Some(b"All") => {
                    all += 1;
                    let answer = Answer::EveryInk(float_of(limit(v, 0, ONE)));
                    let moved = !(0..=ONE).contains(&v);
                    Ok(Colour { answer, moved })
                }
                name => {
                    others += u32::from(name.is_some());
                    continue;
                }
            };
            assert_eq!(evaluate(&page, number, &[v]), reply);
            assert_eq!(run(&recipe_of(&page, number).unwrap(), &[v]), reply);
        }
    }
    assert!(
        none > 100 && all > 100 && others > 400,
        "{none} {all} {others}"
    );
}
