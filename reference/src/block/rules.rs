//! What a record must meet by itself: refusals 3, 4 and 5, and 6 for a block without its page.

use super::names::{names_differ, packed_names};
use super::{Body, Record, BLOCK, CHECK_AT, MOST_BLOCKS, NAME, NAMES, NAME_AT};
use super::{DEVICE_CMYK, DEVICE_GRAY, DEVICE_RGB};
use crate::gamma::tenths;
use crate::numbers::ONE;

/// Whether all of these bytes are zero.
pub(super) fn zero(bytes: &[u8]) -> bool {
    bytes.iter().all(|byte| *byte == 0)
}

/// Refused with 3 is a "name length not 1..127, or a zero byte in the name"; and zero "are name bytes past the
/// name's length".
fn name_holds(name: &[u8], length: u8) -> bool {
    let length = usize::from(length);
    (1..=127).contains(&length) && !name[..length].contains(&0) && zero(&name[length..])
}

/// Refused with 3 is an "unknown kind" and "a byte not zero that must be": byte 1 is zero, and "body bytes not named
/// are zero". A block's own number is looked at by the caller.
pub fn form_holds(block: &[u8; BLOCK]) -> bool {
    let (kind, count, name_length) = (block[0], block[6], block[7]);
    // By the table of kinds, the first byte after those that are named.
    let named_to = match kind {
        0 => 4,
        1 => 32,
        2 => 76,
        3 => 44,
        4 => 8,
        5 => 168,
        // Document 02: "calculator text in one to four blocks of new kind 7".
        6 | 7 => CHECK_AT,
        // "Body: alternate 4, count of names 6 (one byte), then from 8" the names, whose zeros are looked at with them.
        8 => CHECK_AT,
        _ => return false,
    };
    let names_hold = match kind {
        5 => name_holds(&block[NAME_AT..NAME_AT + NAME], name_length),
        8 => block[7] == 0 && packed_names(&block[NAME_AT..CHECK_AT], count).is_some(),
        _ => true,
    };
    block[1] == 0 && zero(&block[named_to..CHECK_AT]) && names_hold
}

/// "White X and Z above 0, Y exactly 1; black not below 0."
fn points_hold([xw, yw, zw]: &[i32; 3], black: &[i32; 3]) -> bool {
    *xw > 0 && *zw > 0 && *yw == ONE && black.iter().all(|v| *v >= 0)
}

/// A reference that is a device code: "FF01, FF03, FF04 (hexadecimal) for DeviceGray, RGB, CMYK".
fn is_device(reference: u16) -> bool {
    [DEVICE_GRAY, DEVICE_RGB, DEVICE_CMYK].contains(&reference)
}

impl Body {
    /// "Clause rules: white X and Z above 0, Y exactly 1; black not below 0; CalGray gamma above 0; amin <= amax,
    /// bmin <= bmax; hival 0 to 255." By document 02 "equal names, or All among them, 4": these are the bytes in which the
    /// names of a DeviceN are packed.
    fn clause_holds(&self, names: &[u8]) -> bool {
        match self {
            Body::Free | Body::Separation { .. } | Body::Palette | Body::Program => true,
            Body::CalGray {
                white,
                black,
                gamma,
            } => points_hold(white, black) && *gamma > 0,
            Body::CalRgb { white, black, .. } => points_hold(white, black),
            Body::Lab {
                white,
                black,
                range: [amin, amax, bmin, bmax],
            } => points_hold(white, black) && amin <= amax && bmin <= bmax,
            Body::Indexed { hival, .. } => *hival <= 255,
            Body::DeviceN { count, .. } => {
                packed_names(names, *count).is_some_and(|names| names_differ(&names))
            }
        }
    }

    /// "House limits: ... each exponent is whole, 1 to 4 (the exponent byte counts units)"; a gamma "is a whole count
    /// p of tenths, 0.1 to 4.0" (document 02, 2026-01); "Exponent byte 0 now means a program" (2026-06).
    fn house_holds(&self) -> bool {
        let carried = |gamma: &i32| tenths(*gamma).is_some();
        match self {
            Body::CalGray { gamma, .. } => carried(gamma),
            Body::CalRgb { gammas, .. } => gammas.iter().all(carried),
            Body::Separation { exponent, .. } => (0..=4).contains(exponent),
            _ => true,
        }
    }

    /// The refusal of a record's own numbers, 4 before 5: "a number breaks a clause rule", "a gamma or exponent is
    /// beyond the house limit". The bytes are those from byte 8 of its block on, where the names of a DeviceN stand.
    pub fn number_refusal(&self, names: &[u8]) -> Option<u32> {
        if !self.clause_holds(names) {
            Some(4)
        } else if !self.house_holds() {
            Some(5)
        } else {
            None
        }
    }

    /// "Then 6 for a reference that is neither a device code nor" 0..127: "own number and reference go to 127" (2026-09).
    fn reference_holds(&self) -> bool {
        let within = |reference| is_device(reference) || usize::from(reference) < MOST_BLOCKS;
        self.reference().is_none_or(within)
    }
}

impl Record {
    /// What refusal 3 looks at in a record to be written: an own number above 127 is 3 (2026-09), the name, and that no
    /// place for bytes is filled that the kind does not use.
    fn form_holds(&self) -> bool {
        let (name, rest) = self.bytes.split_at(NAME);
        let bytes_hold = match self.body {
            Body::Palette | Body::Program => true,
            Body::Separation { name_length, .. } => name_holds(name, name_length) && zero(rest),
            Body::DeviceN { count, .. } => packed_names(&self.bytes, count).is_some(),
            _ => zero(&self.bytes),
        };
        usize::from(self.number) < MOST_BLOCKS && bytes_hold
    }

    /// "Writing one block: 10, 3, 4, 5, then 6": the refusal of a record, the length of the block aside.
    pub(super) fn refusal(&self) -> Option<u32> {
        if !self.form_holds() {
            Some(3)
        } else if let Some(number) = self.body.number_refusal(&self.bytes[..NAMES]) {
            Some(number)
        } else if !self.body.reference_holds() {
            Some(6)
        } else {
            None
        }
    }
}
