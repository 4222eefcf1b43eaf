//! Inks by their names, of the job's page and the house page.

use crate::{raw, Refusal};
use std::fmt;

/// The page that an ink was found on, or that was refused.
#[derive(Clone, Copy, Debug, PartialEq, Eq, Hash)]
pub enum InkPage {
    /// The job's page.
    Job,
    /// The house page.
    House,
}

/// An ink that was found, with its name as it stands on the page that has it.
#[derive(Clone, Copy, Debug, PartialEq, Eq, Hash)]
pub struct Ink<'a> {
    /// The page that it was found on.
    pub page: InkPage,
    /// The block that it was found in.
    pub block: u32,
    /// The bytes of its name, a part of that page.
    pub name: &'a [u8],
}

/// Why no ink was found: the refusal of a page, or 8, of neither page, where no page has an ink of that
/// name.
///
/// ```
/// let refusal = sktelbaan::find_ink(&[0; 512], &[0; 100], b"Gold").unwrap_err();
/// assert_eq!(refusal.page, Some(sktelbaan::InkPage::House));
/// let words = format!("the page is not 1 to {} blocks of 512 bytes", sktelbaan::MOST_BLOCKS);
/// assert_eq!(refusal.to_string(), format!("the house page refused 1 block 0: {words}"));
/// let refusal = sktelbaan::find_ink(&[0; 512], &[0; 512], b"Gold").unwrap_err();
/// assert_eq!((refusal.refusal.number, refusal.page), (8, None));
/// assert!(refusal.to_string().ends_with("neither page has an ink of that name"));
/// ```
#[derive(Clone, Copy, Debug, PartialEq, Eq, Hash)]
pub struct InkRefusal {
    /// The refusal, with the block that it is about.
    pub refusal: Refusal,
    /// The page that was refused; none where neither has an ink of that name.
    pub page: Option<InkPage>,
}

impl fmt::Display for InkRefusal {
    fn fmt(&self, f: &mut fmt::Formatter<'_>) -> fmt::Result {
        match self.page {
            Some(InkPage::Job) => write!(f, "the job's page {}", self.refusal),
            Some(InkPage::House) => write!(f, "the house page {}", self.refusal),
            None => self.refusal.fmt(f),
        }
    }
}

impl std::error::Error for InkRefusal {}

/// Asks for an ink, a Separation, by its name: the lowest block of the job's page that has that name,
/// else the lowest of the house page. The name is compared byte by byte, with its length, and may be any
/// bytes. Refusals of [`validate`](crate::validate), of the job's page, then of the house page, then 8
/// where neither has it. Both pages are validated each time.
///
/// ```
/// use sktelbaan::{find_ink, InkPage};
/// let job = include_bytes!("../../samples/job.page");
/// let house = include_bytes!("../../samples/house.page");
///
/// // Both pages have it: the job's own comes first.
/// let buff = find_ink(job, house, b"Buff")?;
/// assert_eq!((buff.page, buff.block, buff.name), (InkPage::Job, 2, &b"Buff"[..]));
/// let gold = find_ink(job, house, b"Gold")?;
/// assert_eq!((gold.page, gold.block, gold.name), (InkPage::House, 0, &b"Gold"[..]));
/// // The name is a part of the page that has it.
/// assert!(std::ptr::eq(gold.name, &house[8..12]));
///
/// assert_eq!(find_ink(job, house, b"gold").unwrap_err().refusal.number, 8);
/// # Ok::<(), sktelbaan::InkRefusal>(())
/// ```
pub fn find_ink<'a>(job: &'a [u8], house: &'a [u8], name: &[u8]) -> Result<Ink<'a>, InkRefusal> {
    let mut place = [0; 2];
    // SAFETY: the pages and the name are good for reading as many bytes as are named, and the two
    // numbers, which nothing else refers to, for writing.
    let reply = unsafe {
        raw::sktelbaan_find_ink(
            job.as_ptr(),
            job.len(),
            house.as_ptr(),
            house.len(),
            name.as_ptr(),
            name.len(),
            place.as_mut_ptr(),
        )
    };
    let number = reply as u32;
    let block = (reply >> 32) as u32 & 0xffff;
    let page = match reply >> 48 {
        0 => None,
        1 => Some(InkPage::Job),
        2 => Some(InkPage::House),
        other => unreachable!("an ink is on one of two pages or on neither, not on {other}"),
    };
    match (number, page) {
        (0, Some(page)) => {
            let on = match page {
                InkPage::Job => job,
                InkPage::House => house,
            };
            let [from, size] = place.map(|v: u32| v as usize);
            Ok(Ink {
                page,
                block,
                name: &on[from..from + size],
            })
        }
        (0, None) => unreachable!("an ink that was found is on a page"),
        _ => Err(InkRefusal {
            refusal: Refusal { number, block },
            page,
        }),
    }
}

#[cfg(test)]
mod tests {
    use super::*;

    const JOB: &[u8] = include_bytes!("../../samples/job.page");
    const HOUSE: &[u8] = include_bytes!("../../samples/house.page");

    #[test]
    fn the_name_is_a_part_of_its_page() {
        let places: [(&[u8], InkPage, u32, &[u8]); 4] = [
            (b"Blue", InkPage::Job, 1, JOB),
            (b"Buff", InkPage::Job, 2, JOB),
            (b"Gold", InkPage::House, 0, HOUSE),
            (b"Varnish", InkPage::House, 2, HOUSE),
        ];
        for (name, page, block, on) in places {
            let ink = find_ink(JOB, HOUSE, name).unwrap();
            assert_eq!((ink.page, ink.block, ink.name), (page, block, name));
            let from = 512 * block as usize + 8;
            assert!(std::ptr::eq(ink.name, &on[from..from + name.len()]));
        }
    }

    #[test]
    fn a_page_that_is_refused_is_named() {
        let refused = |job: &[u8], house: &[u8], name: &[u8]| {
            let refused = find_ink(job, house, name).unwrap_err();
            let Refusal { number, block } = refused.refusal;
            (number, refused.page, block)
        };
        let mut damaged = JOB.to_vec();
        damaged[2 * 512 + 40] ^= 1;
        assert_eq!(
            refused(&damaged, HOUSE, b"Gold"),
            (2, Some(InkPage::Job), 2)
        );
        assert_eq!(
            refused(HOUSE, &damaged, b"Gold"),
            (2, Some(InkPage::House), 2)
        );
        assert_eq!(refused(&damaged, &[], b"Gold"), (2, Some(InkPage::Job), 2));
        assert_eq!(refused(&[], HOUSE, b"Gold"), (1, Some(InkPage::Job), 0));
        assert_eq!(refused(JOB, HOUSE, b""), (8, None, 0));
        assert_eq!(refused(JOB, HOUSE, &[b'G'; 70_000]), (8, None, 0));
    }

    #[test]
    fn pages_have_the_numbers_of_the_header() {
        let header = include_str!("../../include/sktelbaan.h");
        for numbers in ["NEITHER_PAGE = 0,", "JOB_PAGE = 1,", "HOUSE_PAGE = 2 "] {
            assert!(header.contains(&format!("SKTELBAAN_{numbers}")));
        }
    }

    #[test]
    fn a_refusal_leaves_the_place() {
        let mut place = [7, 8];
        // SAFETY: as in `find_ink`.
        let reply = unsafe {
            raw::sktelbaan_find_ink(
                JOB.as_ptr(),
                JOB.len(),
                HOUSE.as_ptr(),
                HOUSE.len(),
                b"gold".as_ptr(),
                4,
                place.as_mut_ptr(),
            )
        };
        assert_eq!((reply, place), (8, [7, 8]));
    }
}
