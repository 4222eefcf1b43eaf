//! The notes beside a refusal: facts that are read off the page.

mod common;

use common::{desk, root};
use reference::block::{Record, DEVICE_CMYK, DEVICE_GRAY};
use reference::numbers::ONE;
use reference::records::{
    cal_gray, cal_rgb, changed, indexed, indexed_run, lab, page, palette, program_run, separation,
};

/// What is told of a page.
fn told(page: &[u8]) -> String {
    let ran = desk(&["check", "-"], page);
    assert_eq!(ran.status, 1);
    ran.errors
}

/// A page whose records are laid as they are, refused or not.
fn laid(records: &[Record]) -> Vec<u8> {
    page(records)
}

#[test]
fn a_length_is_told() {
    assert!(told(&[0; 600]).contains("note: it has 600 bytes: 1 block and 88 bytes over\n"));
    assert!(told(b"").contains("note: it has 0 bytes: 0 blocks and 0 bytes over\n"));
    let long = vec![0; 200 * 512];
    assert!(told(&long).contains("note: it has more than 65,536 bytes\n"));
}

#[test]
fn a_form_is_told() {
    let gray = laid(&[cal_gray(0, ONE)]);
    let kind = changed(gray.clone(), 0, |block| block[0] = 99);
    let words = "note: kind 99, which is not known; own number 0, at block 0\n";
    assert!(told(&kind).contains(words), "{}", told(&kind));
    let number = changed(gray.clone(), 0, |block| block[3] = 7);
    assert!(told(&number).contains("kind 1 (CalGray); own number 7, at block 0\n"));
    let spare = changed(gray, 0, |block| block[300] = 17);
    assert!(told(&spare).contains("note: byte 300 of the block is 11\n"));
    let ink = laid(&[separation(0, DEVICE_GRAY, 1, [0; 4], [0; 4])]);
    let name = changed(ink, 0, |block| block[9] = 0);
    let words = "note: its name's length is 4, its name \"G#00ld\"\n";
    assert!(told(&name).contains(words), "{}", told(&name));
}

#[test]
fn a_records_numbers_are_told() {
    let gamma = laid(&[cal_gray(0, 1_850_000)]);
    let words = "block 0: refused 5 (house limit)";
    assert!(told(&gamma).contains(words));
    let words = "note: CalGray, white 0.9505 1 1.089, black 0 0 0, gamma 1.85\n";
    assert!(told(&gamma).contains(words), "{}", told(&gamma));
    let range = laid(&[cal_rgb(0, [ONE; 3]), lab(1, [ONE, 0, 0, ONE])]);
    let words = "note: Lab, white 0.9505 1 1.089, black 0 0 0, range 1 0 0 1\n";
    assert!(told(&range).contains(words), "{}", told(&range));
    let hival = laid(&[indexed(0, DEVICE_CMYK, 300)]);
    assert!(told(&hival).contains("note: Indexed, base DeviceCMYK, hival 300\n"));
}

#[test]
fn references_and_runs_are_told() {
    let far = laid(&[indexed(0, 9, 0), palette(1, &[])]);
    let words = "note: it refers to 9, and the page has blocks 0 to 1\n";
    assert!(told(&far).contains(words), "{}", told(&far));
    let wrong = laid(&[indexed(0, 1, 0), palette(1, &[])]);
    assert!(told(&wrong).contains("note: it refers to block 1, of kind 6 (Palette)\n"));
    let mut short = indexed_run(0, DEVICE_CMYK, 255, &[0; 1024]);
    short.truncate(3);
    let words = "note: 2 blocks of kind 6 (Palette) follow it\n";
    assert!(
        told(&laid(&short)).contains(words),
        "{}",
        told(&laid(&short))
    );
    let alone = laid(&[indexed(0, DEVICE_GRAY, 0)]);
    assert!(told(&alone).contains("note: no block follows it\n"));
    let stray = laid(&[cal_gray(0, ONE), palette(1, &[])]);
    assert!(told(&stray).contains("block 1: refused 7"));
}

#[test]
fn a_program_is_told() {
    let unknown = laid(&program_run(0, DEVICE_GRAY, b"{ dup\n  mull }"));
    assert!(told(&unknown).contains("block 0: refused 16 (program text)"));
    assert!(told(&unknown).contains("note: its program is { dup mull }\n"));
    let text = format!("{{ {}}}", "dup ".repeat(90));
    let long = told(&laid(&program_run(0, DEVICE_GRAY, text.as_bytes())));
    assert!(long.contains("refused 17 (program stack)"), "{long}");
    assert!(
        long.contains(" dup dup ..\n") || long.contains(" ..\n"),
        "{long}"
    );
}

#[test]
fn a_block_by_itself_has_notes_of_its_own() {
    let damaged = std::fs::read(root().join("samples/damaged.page")).unwrap();
    let ran = desk(&["block", "-", "0"], &damaged);
    assert_eq!(ran.status, 1);
    assert!(ran
        .errors
        .contains("note: the check stored is 1066 and 3031"));
    // The other blocks of a page are not looked at.
    let page = [damaged, laid(&[cal_gray(0, ONE)])].concat();
    assert_eq!(desk(&["block", "-", "1"], &page).status, 0);
    let ran = desk(&["block", "-", "2"], &page);
    assert!(ran.errors.contains("refused 10 (room)"), "{}", ran.errors);
}
