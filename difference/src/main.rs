//! `difference [SEED] [--pages N]`: compares the proved library with the second implementation on
//! random input, and stops at the first difference. The seed is the clock's where none is given.

use difference::{compare, device_n, inks, programs, Difference, PROVED};
use reference::generate::Rng;
use std::process::ExitCode;
use std::time::{Instant, SystemTime, UNIX_EPOCH};

/// How many pages are validated where no other number is given.
const PAGES: u64 = 100_000;

/// The seed and the count of pages that the words after the program's name ask for.
fn asked(words: impl Iterator<Item = String>) -> Option<(u64, u64)> {
    let mut words = words;
    let (mut seed, mut pages) = (None, PAGES);
    while let Some(word) = words.next() {
        if word == "--pages" {
            pages = words.next()?.parse().ok()?;
        } else if seed.is_none() {
            seed = Some(word.parse().ok()?);
        } else {
            return None;
        }
    }
    let clock = || SystemTime::now().duration_since(UNIX_EPOCH).ok();
    let seed = seed.or_else(|| clock().map(|time| time.as_micros() as u64))?;
    Some((seed, pages))
}

/// All the comparisons: for each page validated two colours, two runs of a written recipe, two lists,
/// two inks, two records, two lists of any numbers as records, two blocks, a text, a program, a damaged one,
/// a flat form, a page with DeviceNs or a damaged one, and a step 13.
fn compare(seed: u64, pages: u64) -> Result<(), Difference> {
    let rng = &mut Rng::new(seed);
    let library = &PROVED;
    println!("validate {}", compare::validate(library, rng, pages)?);
    println!("evaluate {}", compare::evaluate(library, rng, 2 * pages)?);
    let recipes = compare::recipes(library, rng, 2 * pages)?;
    println!("write_recipe {}", recipes.written);
    println!("the longest recipe {} words", recipes.longest);
    println!("recipe, run, evaluate {}", recipes.run);
    println!("run {}", compare::run(library, rng, 2 * pages)?);
    println!("find_ink {}", inks::find_ink(library, rng, 2 * pages)?);
    println!(
        "write_block {}",
        compare::write_block(library, rng, 2 * pages)?
    );
    println!(
        "write_block, any numbers {}",
        compare::write_numbers(library, rng, 2 * pages)?
    );
    println!(
        "read_block {}",
        compare::read_block(library, rng, 2 * pages)?
    );
    println!("text {}", compare::texts(rng, pages)?);
    println!("programs {}", programs::accepted(library, rng, pages)?);
    println!(
        "damaged programs {}",
        programs::damaged(library, rng, pages)?
    );
    println!("flat forms {}", programs::flat_forms(library, rng, pages)?);
    println!("operators {}", programs::operators(library)?);
    println!("DeviceN {}", device_n::pages(library, rng, pages)?);
    println!("step 13 {}", device_n::steps(library, rng, pages)?);
    Ok(())
}

fn main() -> ExitCode {
    let Some((seed, pages)) = asked(std::env::args().skip(1)) else {
        eprintln!("usage: difference [SEED] [--pages N]");
        return ExitCode::from(2);
    };
    println!("seed {seed}");
    let start = Instant::now();
    match compare(seed, pages) {
        Ok(()) => {
            println!("no difference, {:.1} s", start.elapsed().as_secs_f64());
            ExitCode::SUCCESS
        }
        Err(difference) => {
            println!("{difference}");
            ExitCode::FAILURE
        }
    }
}
