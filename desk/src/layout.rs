//! The kinds of records and their numbers: names, order and units, as FORMAT.md has them under Records in C.

/// What a number of a record counts.
#[derive(Clone, Copy, Debug, PartialEq, Eq)]
pub(crate) enum Unit {
    Millionths,
    /// Units.
    Whole,
    /// A block's number or a device code.
    Reference,
    /// The length of the name that stands in the record's bytes.
    Name,
    /// How many names stand in the record's bytes, each after a byte with its length.
    Names,
}

/// Some numbers of a record that go by one name, and how many bytes each takes in a block.
pub(crate) struct Field {
    pub key: &'static str,
    pub count: usize,
    pub unit: Unit,
    pub size: usize,
}

/// What the bytes of a record are.
#[derive(Clone, Copy, Debug, PartialEq, Eq)]
pub(crate) enum Bytes {
    /// None, or a name.
    Unused,
    Palette,
    Program,
}

/// A kind of record.
pub(crate) struct Kind {
    pub number: i32,
    pub name: &'static str,
    pub fields: &'static [Field],
    pub bytes: Bytes,
    /// The first byte of a block that the kind does not name.
    pub first_spare: usize,
}

const fn millionths(key: &'static str, count: usize) -> Field {
    Field {
        key,
        count,
        unit: Unit::Millionths,
        size: 4,
    }
}

const fn one(key: &'static str, unit: Unit, size: usize) -> Field {
    Field {
        key,
        count: 1,
        unit,
        size,
    }
}

const WHITE: Field = millionths("white", 3);
const BLACK: Field = millionths("black", 3);

const fn kind(
    number: i32,
    name: &'static str,
    fields: &'static [Field],
    first_spare: usize,
) -> Kind {
    Kind {
        number,
        name,
        fields,
        bytes: Bytes::Unused,
        first_spare,
    }
}

const fn part(number: i32, name: &'static str, bytes: Bytes) -> Kind {
    Kind {
        bytes,
        ..kind(number, name, &[], 508)
    }
}

/// The kinds, in order of their numbers.
pub(crate) const KINDS: &[Kind] = &[
    kind(0, "Free", &[], 4),
    kind(1, "CalGray", &[WHITE, BLACK, millionths("gamma", 1)], 32),
    kind(
        2,
        "CalRGB",
        &[
            WHITE,
            BLACK,
            millionths("gammas", 3),
            millionths("matrix", 9),
        ],
        76,
    ),
    kind(3, "Lab", &[WHITE, BLACK, millionths("range", 4)], 44),
    kind(
        4,
        "Indexed",
        &[
            one("base", Unit::Reference, 2),
            one("hival", Unit::Whole, 2),
        ],
        8,
    ),
    kind(
        5,
        "Separation",
        &[
            one("alternate", Unit::Reference, 2),
            one("exponent", Unit::Whole, 1),
            one("name", Unit::Name, 1),
            millionths("C0", 4),
            millionths("C1", 4),
        ],
        168,
    ),
    part(6, "Palette", Bytes::Palette),
    part(7, "Program", Bytes::Program),
    kind(
        8,
        "DeviceN",
        &[
            one("alternate", Unit::Reference, 2),
            one("names", Unit::Names, 1),
        ],
        508,
    ),
];

/// The kind of a number.
pub(crate) fn kind_of(number: i32) -> Option<&'static Kind> {
    KINDS.iter().find(|kind| kind.number == number)
}

/// The kind of a name, or of a number that is written out.
pub(crate) fn kind_named(name: &[u8]) -> Option<&'static Kind> {
    KINDS
        .iter()
        .find(|kind| kind.name.as_bytes() == name)
        .or_else(|| kind_of(crate::numbers::whole(name)?))
}

/// The device spaces: their codes, their names, their short names.
pub(crate) const DEVICES: [(u32, &str, &str); 3] = [
    (sktelbaan::DEVICE_GRAY, "DeviceGray", "gray"),
    (sktelbaan::DEVICE_RGB, "DeviceRGB", "rgb"),
    (sktelbaan::DEVICE_CMYK, "DeviceCMYK", "cmyk"),
];

/// The name of the device space that a code asks for.
pub(crate) fn device_name(code: u32) -> Option<&'static str> {
    let mut devices = DEVICES.iter();
    devices
        .find(|device| device.0 == code)
        .map(|device| device.1)
}

/// A reference as it is written: a device space's name, or a number.
pub(crate) fn reference(number: u32) -> String {
    device_name(number).map_or_else(|| number.to_string(), str::to_string)
}
