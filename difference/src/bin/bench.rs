//! `bench`: measures the proved library beside two rivals, and prints markdown tables: the fast rival
//! (`difference::fast`) and the plain reference (`reference/`). Each figure is the least of several
//! rounds, after a warm-up.

use difference::fast;
use reference::block::{BLOCK, DEVICE_CMYK, DEVICE_GRAY, DEVICE_RGB};
use reference::generate::Rng;
use reference::numbers::ONE;
use reference::records::{
    cal_gray, cal_rgb, device_n_run, free, indexed_run, lab, page, program_run, separation, USUAL,
};
use reference::samples::{MAP_INKS, TWO_INKS};
use sktelbaan::{TextReader, MOST_BLOCKS, PAGE_BYTES};
use std::hint::black_box;
use std::time::Instant;

/// How many rounds are timed; the least counts.
const ROUNDS: usize = 301;
/// How many rounds of reading a text are timed.
const TEXT_ROUNDS: usize = 31;
/// How many colours a round of `run` has, all different.
const COLOURS: usize = 4096;
/// How many where there is a program, which the rivals take long to look through.
const FEWER_COLOURS: usize = 64;

/// The least nanoseconds of a round.
fn least(mut round: impl FnMut()) -> f64 {
    for _ in 0..3 {
        round();
    }
    let time = |_| {
        let start = Instant::now();
        round();
        start.elapsed().as_nanos() as f64
    };
    (0..ROUNDS).map(time).fold(f64::INFINITY, f64::min)
}

/// Colours, one after the other, and how many components each has.
struct Colours {
    components: Vec<i32>,
    each: usize,
}

impl Colours {
    /// This many colours, each component within its range.
    fn new(ranges: &[(i32, i32)], count: usize) -> Self {
        let rng = &mut Rng::new(1);
        let all = (0..count).flat_map(|_| ranges);
        Colours {
            components: all.map(|(lo, hi)| rng.between(*lo, *hi)).collect(),
            each: ranges.len(),
        }
    }

    /// Each colour.
    fn each(&self) -> impl Iterator<Item = &[i32]> {
        self.components.chunks_exact(self.each)
    }

    /// How many colours there are.
    fn count(&self) -> f64 {
        (self.components.len() / self.each) as f64
    }
}

/// A space to be measured: its name, its page and number, the ranges of its components, and how many colours a round has.
struct Space {
    name: &'static str,
    page: Vec<u8>,
    number: u32,
    ranges: Vec<(i32, i32)>,
    colours: usize,
}

/// A varnish's program over CMYK, of 100 tokens: a smooth step between two tests, twice, and four shares of it.
const PROGRAM: &[u8] =
    b"{ dup 0.05 le { pop 0 } { dup 0.95 ge { pop 1 } { 0.05 sub 1.111111 mul dup dup mul exch
2 mul 3 exch sub mul } ifelse } ifelse dup 0.5 mul exch 0.5 mul add dup 0.05 le { pop 0
} { dup 0.95 ge { pop 1 } { 0.05 sub 1.111111 mul dup dup mul exch 2 mul 3 exch sub mul
} ifelse } ifelse dup 0.5 mul exch 0.5 mul add dup mul 1 exch sub dup 0.02 mul exch dup
0.01 mul exch 0.08 mul 0 }";

/// The spaces of which recipes are run, each on a page of no more blocks than it needs.
fn spaces() -> Vec<Space> {
    let unit = (0, ONE);
    let rows = (0, 255 * ONE);
    let hundred = (-100 * ONE, 100 * ONE);
    let device = |name, code: u16, count| Space {
        name,
        page: page(&[free(0)]),
        number: u32::from(code),
        ranges: vec![unit; count],
        colours: COLOURS,
    };
    let space = |name, records: &[_], ranges: &[(i32, i32)]| Space {
        name,
        page: page(records),
        number: 0,
        ranges: ranges.to_vec(),
        colours: COLOURS,
    };
    let bytes: Vec<u8> = (0..1024).map(|place| (place * 73 % 256) as u8).collect();
    let ink = [ONE, 200_000, 650_000, 150_000];
    let blue = [20 * ONE, 15 * ONE, -45 * ONE, 0];
    let mut nested = indexed_run(0, 2, 255, &bytes[..256]);
    nested.push(separation(2, 3, 2, [100 * ONE, 0, 0, 0], blue));
    nested.push(lab(3, USUAL));
    vec![
        device("Gray", DEVICE_GRAY, 1),
        device("RGB", DEVICE_RGB, 3),
        device("CMYK", DEVICE_CMYK, 4),
        space("CalGray, gamma 2", &[cal_gray(0, 2 * ONE)], &[unit]),
        space("CalGray, gamma 2.2", &[cal_gray(0, 2_200_000)], &[unit]),
        space("CalRGB, gammas 2", &[cal_rgb(0, [2 * ONE; 3])], &[unit; 3]),
        space(
            "CalRGB, gammas 2.2",
            &[cal_rgb(0, [2_200_000; 3])],
            &[unit; 3],
        ),
        space("Lab", &[lab(0, USUAL)], &[(0, 100 * ONE), hundred, hundred]),
        space(
            "Indexed over RGB, hival 255",
            &indexed_run(0, DEVICE_RGB, 255, &bytes[..768]),
            &[rows],
        ),
        space(
            "Separation over CMYK, exponent 2",
            &[separation(0, DEVICE_CMYK, 2, [0; 4], ink)],
            &[unit],
        ),
        Space {
            colours: FEWER_COLOURS,
            ..space(
                "Separation over CMYK, a program of 100 tokens",
                &program_run(0, DEVICE_CMYK, PROGRAM),
                &[unit],
            )
        },
        Space {
            colours: FEWER_COLOURS,
            ..space(
                "DeviceN of two inks over CMYK, a program of 40 tokens",
                &device_n_run(0, DEVICE_CMYK, &MAP_INKS, TWO_INKS),
                &[unit; 2],
            )
        },
        space("Indexed over Separation over Lab", &nested, &[rows]),
    ]
}

/// The sum of bytes.
fn sum(bytes: &[u8]) -> u32 {
    bytes.iter().map(|byte| u32::from(*byte)).sum()
}

/// The sum of eight bytes at a time: no more than memory is read.
fn sum_of_words(bytes: &[u8]) -> u64 {
    let words = bytes.chunks_exact(8).filter_map(|word| word.first_chunk());
    words.fold(0, |sum, word| sum.wrapping_add(u64::from_le_bytes(*word)))
}

/// Bytes in a nanosecond, thousands of millions in a second.
fn speed<T>(bytes: &[u8], work: impl Fn(&[u8]) -> T) -> f64 {
    const TIMES: usize = 16;
    let time = least(|| {
        for _ in 0..TIMES {
            black_box(&work(black_box(bytes)));
        }
    });
    (TIMES * bytes.len()) as f64 / time
}

/// Validation of pages with spaces, in nanoseconds and in bytes a second, a column for each page.
fn validation(pages: &[Vec<u8>]) {
    let counts = pages.iter().map(|page| page.len() / BLOCK);
    let frees: Vec<Vec<u8>> = counts
        .clone()
        .map(|count| page(&(0..count as u16).map(free).collect::<Vec<_>>()))
        .collect();
    for page in pages.iter().chain(&frees) {
        assert!(sktelbaan::validate(page).is_ok());
    }
    let heads: Vec<String> = counts.map(|count| format!(" {count} blocks |")).collect();
    println!("| GB/s |{}", heads.concat());
    println!("|---|{}", "---|".repeat(pages.len()));
    let row = |name: &str, pages: &[Vec<u8>], figure: &dyn Fn(&[u8]) -> f64, digits: usize| {
        let figures = pages.iter().map(|page| figure(page));
        let cells: Vec<String> = figures.map(|v| format!(" {v:.digits$} |")).collect();
        println!("| {name} |{}", cells.concat());
    };
    let ours = |page: &[u8]| speed(page, sktelbaan::validate);
    row("`validate`", pages, &ours, 2);
    let time = |page: &[u8]| page.len() as f64 / ours(page);
    row("`validate`, ns for the page", pages, &time, 0);
    row(
        "the fast rival",
        pages,
        &|page| speed(page, fast::validate),
        2,
    );
    let plain = |page: &[u8]| speed(page, reference::page::validate);
    row("the plain reference", pages, &plain, 2);
    row("`validate`, free blocks alone", &frees, &ours, 2);
    row("the sum of the bytes", pages, &|page| speed(page, sum), 2);
    let words = |page: &[u8]| speed(page, sum_of_words);
    row("the sum of the bytes, eight at a time", pages, &words, 2);
}

/// The nanoseconds of one colour.
fn per_colour<T>(colours: &Colours, work: impl Fn(&[i32]) -> T) -> f64 {
    let time = least(|| {
        for colour in colours.each() {
            black_box(&work(colour));
        }
    });
    time / colours.count()
}

/// The nanoseconds of one run of a recipe: the proved library, the fast rival, the plain reference.
fn run_times(words: &[i32], colours: &Colours) -> [f64; 3] {
    let answered = |colour: &[i32]| sktelbaan::run(words, colour).is_ok();
    assert!(colours.each().all(answered));
    [
        per_colour(colours, |colour| sktelbaan::run(black_box(words), colour)),
        per_colour(colours, |colour| fast::run(black_box(words), colour)),
        per_colour(colours, |colour| {
            reference::runner::run(black_box(words), colour)
        }),
    ]
}

/// Runs of recipes, for every family.
fn runs() {
    println!("| ns per colour | words | `run` | the fast rival | the plain reference |");
    println!("|---|---|---|---|---|");
    let row = |name: &str, words: &[i32], colours: &Colours| {
        let [ours, rival, plain] = run_times(words, colours);
        let count = words.len();
        println!("| {name} | {count} | {ours:.1} | {rival:.1} | {plain:.1} |");
    };
    let gray = Colours::new(&[(0, ONE)], COLOURS);
    row("the shortest recipe, `1 4`", &[1, 4], &gray);
    for space in spaces() {
        let words = sktelbaan::recipe(&space.page, space.number).expect("the page is accepted");
        let colours = Colours::new(&space.ranges, space.colours);
        row(space.name, &words, &colours);
    }
}

/// Colours on pages: on as few blocks as the space needs, and on pages of many.
fn evaluations(pages: &[Vec<u8>]) {
    println!("| ns per colour | blocks | `evaluate` | the fast rival | the plain reference |");
    println!("|---|---|---|---|---|");
    let row = |name: &str, page: &[u8], number, colours: &Colours| {
        let answered = |colour: &[i32]| sktelbaan::evaluate(page, number, colour).is_ok();
        assert!(colours.each().all(answered));
        let ours = per_colour(colours, |colour| {
            sktelbaan::evaluate(black_box(page), number, colour)
        });
        let rival = per_colour(colours, |colour| {
            fast::evaluate(black_box(page), number, colour)
        });
        let plain = per_colour(colours, |colour| {
            reference::colour::evaluate(black_box(page), number, colour)
        });
        let blocks = page.len() / BLOCK;
        println!("| {name} | {blocks} | {ours:.0} | {rival:.0} | {plain:.0} |");
    };
    let few = |space: &&Space| space.page.len() == BLOCK || space.name.starts_with("DeviceN");
    for space in spaces().iter().filter(few) {
        let colours = Colours::new(&space.ranges, space.colours.min(256));
        row(space.name, &space.page, space.number, &colours);
    }
    let unit = (0, ONE);
    let lightness = (0, 100 * ONE);
    let asked = [
        ("RGB", u32::from(DEVICE_RGB), vec![unit; 3]),
        ("CalGray", 0, vec![unit]),
        ("CalRGB", 1, vec![unit; 3]),
        ("Lab", 2, vec![lightness, (-ONE, ONE), (-ONE, ONE)]),
        ("Separation over Lab", 3, vec![unit]),
        ("Indexed over Gray", 4, vec![(0, 255 * ONE)]),
    ];
    for page in pages {
        for (name, number, ranges) in &asked {
            row(name, page, *number, &Colours::new(ranges, 16));
        }
    }
}

/// Palettes of 256 rows, over a base whose ranges are 0..1 and over one with others, and two inks of a map: writing the
/// recipe, and evaluating on the page.
fn palettes() {
    println!("| Indexed, hival 255, or DeviceN | `write_recipe`, ns | the plain reference | `evaluate`, ns per colour | the fast rival |");
    println!("|---|---|---|---|---|");
    let bytes: Vec<u8> = (0..768).map(|place| (place * 73 % 256) as u8).collect();
    let over_rgb = page(&indexed_run(0, DEVICE_RGB, 255, &bytes));
    let mut records = indexed_run(0, 3, 255, &bytes);
    records.push(lab(3, USUAL));
    let over_lab = page(&records);
    let map = page(&device_n_run(0, DEVICE_CMYK, &MAP_INKS, TWO_INKS));
    for (name, page, ranges) in [
        ("over RGB", over_rgb, &[(0, 255 * ONE)][..]),
        ("over Lab", over_lab, &[(0, 255 * ONE)]),
        ("DeviceN of two inks over CMYK", map, &[(0, ONE); 2]),
    ] {
        let mut words = [0; sktelbaan::LONGEST];
        assert!(sktelbaan::write_recipe(&page, 0, &mut words).is_ok());
        let write = least(|| {
            let reply = sktelbaan::write_recipe(black_box(&page), 0, black_box(&mut words));
            black_box(&reply.is_ok());
        });
        let plain = least(|| {
            let reply = reference::recipe::write(black_box(&page), 0, black_box(&mut words));
            black_box(&reply.is_ok());
        });
        let colours = Colours::new(ranges, 256);
        let ours = per_colour(&colours, |colour| {
            sktelbaan::evaluate(black_box(&page), 0, colour)
        });
        let rival = per_colour(&colours, |colour| {
            fast::evaluate(black_box(&page), 0, colour)
        });
        println!("| {name} | {write:.0} | {plain:.0} | {ours:.0} | {rival:.0} |");
    }
}

/// Texts of about a hundred thousand bytes: their names, and what each has most of. Each is accepted.
fn texts() -> [(&'static str, Vec<u8>); 4] {
    let white = "/WhitePoint [0.9505 1 1.089]";
    let gray = format!("[ /CalGray << {white} >> ]");
    let comment = "% The scans of the autumn catalogue, as the studio types them.\n";
    let rgb = format!(
        "[ /CalRGB << {white} /BlackPoint [0.000000 0.000000 0.000000] /Gamma [2.200000 2.200000 2.200000] /Matrix \
         [0.412456 0.212673 0.019334 0.357576 0.715152 0.119192 0.180438 0.072175 0.950304] >> ]\n"
    );
    let palette = |open: &str, byte: &str, close: &str| {
        let bytes = byte.repeat(1024);
        format!("[ /Indexed /DeviceCMYK 255 {open}{bytes}{close} ]\n").repeat(16)
    };
    [
        ("comments", (comment.repeat(1600) + &gray).into_bytes()),
        ("dictionaries of numbers", rgb.repeat(64).into_bytes()),
        ("hexadecimal palettes", palette("<", "7F", ">").into_bytes()),
        (
            "palettes in parentheses, all escapes",
            palette("(", r"\177", ")").into_bytes(),
        ),
    ]
}

/// Reading texts, whole and in parts of 64 bytes, in bytes a second; beginning and ending a text are not counted.
fn reading() {
    println!(
        "| Reading texts, MB/s | bytes | `read` | in parts of 64 bytes | the plain reference |"
    );
    println!("|---|---|---|---|---|");
    for (name, text) in texts() {
        let page = reference::text::read(&text, MOST_BLOCKS);
        let part = |length: usize| {
            let mut fastest = f64::INFINITY;
            for _ in 0..TEXT_ROUNDS {
                let mut reader = TextReader::new(PAGE_BYTES);
                let start = Instant::now();
                for part in black_box(&text).chunks(length) {
                    reader.read(part);
                }
                fastest = fastest.min(start.elapsed().as_nanos() as f64);
                assert_eq!(reader.end().ok(), page.clone().ok());
            }
            1000.0 * text.len() as f64 / fastest
        };
        assert!(page.is_ok(), "{name} are accepted");
        let (whole, cut) = (part(text.len()), part(64));
        let time = least(|| {
            black_box(&reference::text::read(black_box(&text), MOST_BLOCKS).is_ok());
        });
        let plain = 1000.0 * text.len() as f64 / time;
        let bytes = text.len();
        println!("| {name} | {bytes} | {whole:.1} | {cut:.1} | {plain:.1} |");
    }
}

#[cfg(lcms2)]
mod lcms {
    //! LittleCMS beside the library: the same colours, in doubles.

    use super::*;
    use reference::records::{NINE, WHITE};
    use std::ffi::c_void;

    extern "C" {
        fn lcms_lab(white: *const f64, lab: *const f64, xyz: *mut f64, count: usize);
        fn lcms_matrix(rows: *const f64, abc: *const f64, xyz: *mut f64, count: usize);
        fn lcms_lab_transform(words: i32) -> *mut c_void;
        fn lcms_rgb_transform(gamma: f64, words: i32) -> *mut c_void;
        fn lcms_transform(made: *mut c_void, from: *const c_void, to: *mut c_void, count: usize);
        fn lcms_free(made: *mut c_void);
    }

    /// A function of LittleCMS over many colours: constants, colours, results, count.
    type Many = unsafe extern "C" fn(*const f64, *const f64, *mut f64, usize);

    /// One row: a recipe's runs beside LittleCMS, and how far the answers are apart at most.
    fn row(
        name: &str,
        record: reference::block::Record,
        many: Many,
        constants: &[f64],
        ranges: &[(i32, i32)],
    ) {
        let words = sktelbaan::recipe(&page(&[record]), 0).expect("the page is accepted");
        let colours = Colours::new(ranges, COLOURS);
        let components = colours.components.iter();
        let floats: Vec<f64> = components.map(|v| f64::from(*v) / 1e6).collect();
        let mut xyz = vec![0.0; 3 * COLOURS];
        let time = least(|| {
            let (from, to) = (black_box(&floats), black_box(&mut xyz));
            // SAFETY: three doubles for each colour are there to be read and to be written.
            unsafe { many(constants.as_ptr(), from.as_ptr(), to.as_mut_ptr(), COLOURS) };
        });
        let apart = colours
            .each()
            .flat_map(|colour| {
                let found = sktelbaan::run(&words, colour).expect("the colour is answered");
                found.answer.floats().to_vec()
            })
            .zip(&xyz)
            .map(|(a, b)| (a - b).abs())
            .fold(0.0, f64::max);
        let [ours, rival, plain] = run_times(&words, &colours);
        let lcms = time / colours.count();
        println!("| {name} | {ours:.1} | {rival:.1} | {plain:.1} | {lcms:.1} | {apart:.1e} |");
    }

    /// Both rows.
    pub fn rows() {
        println!("| ns per colour | `run` | the fast rival | the plain reference | LittleCMS | greatest difference |");
        println!("|---|---|---|---|---|---|");
        let hundred = (-100 * ONE, 100 * ONE);
        row(
            "Lab, `cmsLab2XYZ`",
            lab(0, USUAL),
            lcms_lab,
            &WHITE.map(|v| f64::from(v) / 1e6),
            &[(0, 100 * ONE), hundred, hundred],
        );
        // A record's matrix has X, Y and Z of A first; a row has X of A, B and C.
        let [xa, ya, za, xb, yb, zb, xc, yc, zc] = NINE.map(|v| f64::from(v) / 1e6);
        row(
            "CalRGB with gammas 1, `_cmsMAT3eval`",
            cal_rgb(0, [ONE; 3]),
            lcms_matrix,
            &[xa, xb, xc, ya, yb, yc, za, zb, zc],
            &[(0, ONE); 3],
        );
    }

    /// The least nanoseconds a colour of a transform that was made before, of all colours in one call.
    fn bulk<T: Copy + Default>(made: *mut c_void, from: &[T]) -> f64 {
        assert!(!made.is_null(), "LittleCMS makes the transform");
        let mut to = vec![T::default(); from.len()];
        let time = least(|| {
            let (from, to) = (black_box(from), black_box(&mut to));
            // SAFETY: the transform takes and leaves three numbers of this type a colour, and these are there.
            unsafe { lcms_transform(made, from.as_ptr().cast(), to.as_mut_ptr().cast(), COLOURS) };
        });
        // SAFETY: it was made, and is not used again.
        unsafe { lcms_free(made) };
        time / COLOURS as f64
    }

    /// One row: a recipe's runs beside a transform in doubles and one in numbers of 16 bits, over the same ranges.
    fn transform(
        name: &str,
        record: reference::block::Record,
        made: impl Fn(i32) -> *mut c_void,
        ranges: &[(i32, i32)],
    ) {
        let words = sktelbaan::recipe(&page(&[record]), 0).expect("the page is accepted");
        let colours = Colours::new(ranges, COLOURS);
        let doubles: Vec<f64> = (colours.components.iter())
            .map(|v| f64::from(*v) / 1e6)
            .collect();
        let part = |(v, (lo, hi)): (&i32, &(i32, i32))| {
            (f64::from(v - lo) / f64::from(hi - lo) * 65535.0) as u16
        };
        let short: Vec<u16> = (colours.components.iter())
            .zip(ranges.iter().cycle())
            .map(part)
            .collect();
        let [ours, ..] = run_times(&words, &colours);
        let (wide, narrow) = (bulk(made(0), &doubles), bulk(made(1), &short));
        println!("| {name} | {ours:.1} | {wide:.1} | {narrow:.1} |");
    }

    /// Whole transforms: made from profiles before, all colours in one call.
    pub fn transforms() {
        println!("| ns per colour | `run` | `cmsDoTransform`, doubles | 16 bits |");
        println!("|---|---|---|---|");
        let hundred = (-100 * ONE, 100 * ONE);
        // SAFETY: they take numbers alone.
        let lab_made = |words| unsafe { lcms_lab_transform(words) };
        let ranges = [(0, 100 * ONE), hundred, hundred];
        transform("Lab", lab(0, USUAL), lab_made, &ranges);
        for (name, gamma) in [
            ("CalRGB, gammas 1", ONE),
            ("CalRGB, gammas 1.8", 1_800_000),
            ("CalRGB, gammas 2.2", 2_200_000),
        ] {
            // SAFETY: as above.
            let rgb_made = |words| unsafe { lcms_rgb_transform(f64::from(gamma) / 1e6, words) };
            transform(name, cal_rgb(0, [gamma; 3]), rgb_made, &[(0, ONE); 3]);
        }
    }
}

fn main() {
    // A page of half the most blocks, and `samples/full.page`.
    let pages = [MOST_BLOCKS / 2, MOST_BLOCKS].map(reference::samples::full_page);
    validation(&pages);
    println!();
    runs();
    println!();
    evaluations(&pages);
    println!();
    palettes();
    println!();
    reading();
    println!();
    #[cfg(lcms2)]
    {
        lcms::rows();
        println!();
        lcms::transforms();
    }
    #[cfg(not(lcms2))]
    println!("LittleCMS was not found when this was built.");
}
