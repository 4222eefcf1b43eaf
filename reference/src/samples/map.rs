//! A deck plan's map in two inks, which a DeviceN with a program makes process colours of.

use crate::block::{DEVICE_CMYK, DEVICE_RGB};
use crate::records::{cal_rgb, device_n_run, indexed_run, page};

/// Blue and buff as process colours, of 40 tokens: blue is nearly all cyan, buff mostly yellow, and only heavy blue has
/// black in it.
pub const TWO_INKS: &[u8] = b"% Deck plans, two inks: blue for water and lettering, buff for decks.
{                                             % blue buff
  1 index 0.9 mul 1 index 0.02 mul add        % cyan
  2 index 0.55 mul 2 index 0.15 mul add       % magenta
  3 index 0.05 mul 3 index 0.4 mul add        % yellow
  4 index dup mul 0.1 mul                     % black
  6 -2 roll pop pop
}
";

/// Three inks on a screen, as a proof shows them; the tint of None is taken and not used.
const ON_SCREEN: &[u8] =
    b"{ pop 1 2 index 0.8 mul sub 1 3 index 0.4 mul sub 1 3 index 0.1 mul sub mul
  1 3 index 0.5 mul sub 5 -2 roll pop pop }";

/// The names of the map's inks.
pub const INKS: [&[u8]; 2] = [b"Blue", b"Buff"];

/// Rows of two tints: paper, water, deck, deck by the water, lettering.
const ROWS: [u8; 10] = [0, 0, 64, 0, 0, 128, 64, 128, 255, 0];

/// The map's page: the DeviceN with its program, an Indexed over it, inks of which one is None, over DeviceRGB and over a
/// CalRGB space, and a DeviceN that leaves no mark.
pub(super) fn map_page() -> Vec<u8> {
    let mut records = device_n_run(0, DEVICE_CMYK, &INKS, TWO_INKS);
    records.extend(indexed_run(2, 0, 4, &ROWS));
    let three: [&[u8]; 3] = [b"Blue", b"Buff", b"None"];
    records.extend(device_n_run(4, DEVICE_RGB, &three, ON_SCREEN));
    records.push(cal_rgb(6, [2_200_000; 3]));
    records.extend(device_n_run(7, 6, &three, ON_SCREEN));
    records.extend(device_n_run(
        9,
        DEVICE_CMYK,
        &[b"None", b"None"],
        b"{ 2 copy }",
    ));
    page(&records)
}
