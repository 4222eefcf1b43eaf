//! A varnish job, whose tints are calculator programs.

use super::palette_bytes;
use crate::block::{Record, DEVICE_CMYK};
use crate::records::{indexed_run, lab, named, page, program_run, USUAL};

/// Gloss varnish over DeviceCMYK, as a proof shows it.
const GLOSS: &[u8] = b"% Gloss varnish over process colours, press 4, coated stock.
% As the proof shows it: nothing up to 5 per cent,
% all of it from 95 per cent on, and a smooth step between.
{
  dup 0.05 le { pop 0 } {
    dup 0.95 ge { pop 1 } {
      0.05 sub 1.111111 mul   % t, from 0 to 1
      dup dup mul exch        % t^2 t
      2 mul 3 exch sub mul    % t^2 (3 - 2 t)
    } ifelse
  } ifelse
  dup 0.02 mul exch           % cyan
  dup 0.01 mul exch           % magenta
  0.08 mul                    % yellow
  0                           % black
}
";

/// Matt varnish over a Lab space: paper white, a little darker with the tint.
const MATT: &[u8] = b"{ dup 0.5 lt { 0.5 mul } if 100 exch 12 mul sub 0 dup }";

/// A Separation of this name over a program, and the blocks of its text.
fn varnish(number: u16, name: &[u8], alternate: u16, text: &[u8]) -> Vec<Record> {
    let mut run = program_run(number, alternate, text);
    run[0] = named(run[0], name);
    run
}

/// The job's page: a program of two blocks and one of one.
pub(super) fn varnish_page() -> Vec<u8> {
    let mut records = varnish(0, b"Gloss varnish", DEVICE_CMYK, GLOSS);
    records.extend(varnish(3, b"Matt varnish", 5, MATT));
    records.push(lab(5, USUAL));
    records.extend(indexed_run(6, 0, 7, &palette_bytes(8)));
    page(&records)
}
