//! Cases of one block by itself with bytes where none may be, and of other lengths: operations 20 and 21.

use super::format::Case;
use super::maker::Maker;
use crate::block::{lay, Record, BLOCK, BODY, DEVICE_GRAY, NAME};
use crate::numbers::ONE;
use crate::records::{cal_gray, cal_rgb, changed, free, indexed, lab, palette, separation, USUAL};

/// The cases of this group.
pub(super) fn cases() -> Vec<Case> {
    let mut maker = Maker::default();
    raw_blocks(&mut maker);
    other_bytes(&mut maker);
    maker.cases
}

/// Blocks that no record is written as, and lengths that no block has.
fn raw_blocks(maker: &mut Maker) {
    let all_zero = [0; BLOCK];
    maker.read("an all-zero block 0", &all_zero);
    for length in [0, 1, 511, 513, 1024] {
        let label = format!("a block of {length} bytes");
        maker.read(&label, &vec![0; length]);
    }
    let mut put = |label: &str, record: &Record, at: usize, byte: u8| {
        let block = changed(lay(record).to_vec(), 0, |block| block[at] = byte);
        maker.read(label, &block);
    };
    put("kind 8 with no names", &free(0), 0, 8);
    put("kind 9", &free(0), 0, 9);
    put("kind 255", &free(0), 0, 255);
    put("a free block with byte 1", &free(0), 1, 1);
    put("a palette block with byte 1", &palette(0, &[1]), 1, 255);
    let gold = separation(0, DEVICE_GRAY, 1, [0; 4], [0; 4]);
    for (name, record, first) in [
        ("free", free(0), 4),
        ("CalGray", cal_gray(0, ONE), 32),
        ("CalRGB", cal_rgb(0, [ONE; 3]), 76),
        ("Lab", lab(0, USUAL), 44),
        ("Indexed", indexed(0, DEVICE_GRAY, 0), 8),
        ("Separation", gold, 168),
    ] {
        put(
            &format!("{name} block with byte {first}"),
            &record,
            first,
            1,
        );
        put(&format!("{name} block with byte 507"), &record, 507, 0x80);
    }
    for at in 508..512 {
        let mut block = lay(&cal_gray(0, ONE));
        block[at] ^= 1;
        maker.read(&format!("check byte {at} off by one"), &block);
    }
    let mut two = lay(&free(0));
    two[1] = 1;
    maker.read("byte 1 and the check not made anew, 2 before 3", &two);
    two[0] = 9;
    maker.read("kind 9 and the check not made anew, 2 before 3", &two);
    maker.read("a block of bytes FF", &[0xff; BLOCK]);
    // The two sums are kept, and exchanged.
    let mut exchanged = lay(&cal_gray(0, ONE));
    exchanged[508..].rotate_left(2);
    maker.read("the check's halves exchanged", &exchanged);
}

/// Records with bytes in places that their kind does not use.
fn other_bytes(maker: &mut Maker) {
    let gold = separation(0, DEVICE_GRAY, 1, [0; 4], [0; 4]);
    for (name, record) in [
        ("free", free(0)),
        ("CalGray", cal_gray(0, ONE)),
        ("CalRGB", cal_rgb(0, [ONE; 3])),
        ("Lab", lab(0, USUAL)),
        ("Indexed", indexed(0, DEVICE_GRAY, 0)),
    ] {
        let mut made = record;
        made.bytes[0] = 1;
        maker.write(&format!("{name} record with a byte in place 0"), &made);
    }
    for place in [4, NAME - 1, NAME, BODY - 1] {
        let mut made = gold;
        made.bytes[place] = 1;
        let label = format!("Separation record, name length 4, with a byte in place {place}");
        maker.write(&label, &made);
    }
}
