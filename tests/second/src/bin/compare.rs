//! compare [INPUTS [FIRST]] [-- DRIVER..]: seeded comparisons from the seed FIRST on; without FIRST the large inputs too.
//! DRIVER is the command that starts `tests/driver`; without it the mirror stands in the library's place.
//! The last line is the count. A difference is printed as a case: `compare 1 SEED` repeats it.

use second::compare::compare_input;
use second::compare_large::compare_large;
use second::driver::Driver;
use second::library::Library;
use second::mirror::Mirror;
use second::tally::Tally;

fn main() {
    let words: Vec<String> = std::env::args().skip(1).collect();
    let end = words.iter().position(|word| word == "--").unwrap_or(words.len());
    let numbers: Vec<u64> = words[..end].iter().map(|word| word.parse().expect("a number")).collect();
    let command = words[end..].iter().skip(1).cloned().collect::<Vec<String>>();
    let library: Box<dyn Library> = if command.is_empty() {
        println!("no library: the second program is compared with itself, which tries only the loop");
        Box::new(Mirror)
    } else {
        Box::new(Driver::new(command))
    };
    let inputs = numbers.first().copied().unwrap_or(200_000);
    let first = numbers.get(1).copied();
    let mut tally = Tally::default();
    for seed in first.unwrap_or(0)..first.unwrap_or(0) + inputs {
        let failed = tally.failed;
        compare_input(&*library, seed, &mut tally);
        if failed == 0 && tally.failed > 0 {
            // Once more, for the report.
            let mut details = Tally { detailed: true, ..Tally::default() };
            compare_input(&*library, seed, &mut details);
            println!("{}", details.first_difference.or(tally.first_difference.take()).expect("there is a difference"));
        }
    }
    println!("{inputs} inputs");
    if first.is_none() {
        let failed = tally.failed;
        compare_large(&*library, &mut tally);
        if failed < tally.failed {
            println!("{}", tally.first_difference.take().unwrap_or_default());
        }
    }
    drop(library);
    println!("{}\n{}", tally.reach(), tally.line());
    std::process::exit(i32::from(tally.failed > 0));
}
