//! Compares the proved calls with the reference emulator on generated and directed cases.

use harness::arguments::{numbers, value};
use harness::differential::{
    bottom, directed, gates, halting, images, journal_files, journals, limits, long, misfits,
    programs, refusals, resets, stack, strides, sums, traverse_borders, traverse_limits, traverses,
    vectors, Check,
};
use reference::rng::Rng;
use std::process::exit;

const HELP: &str = "\
Usage: differential [--programs N] [--seed S] [--loops N] [--stores N] [--traverses N]
                    [--images N] [--states N]

Runs generated cases through the proved calls and through the reference
emulator, and compares what they return and leave. Case i has seed S + i.
Without numbers: 10000 programs, seed 1, as many traverses as programs, as many of
either on programs that store much (--stores), a tenth as many images and states, and
a hundredth as many programs that loop; of traverses on programs that loop there are
as many as of these.
";

const NAMES: [&str; 7] = [
    "--programs",
    "--seed",
    "--loops",
    "--stores",
    "--traverses",
    "--images",
    "--states",
];

fn main() {
    let given = numbers(&NAMES, HELP);
    let programs = value(&given, "--programs", 10_000);
    let seed = value(&given, "--seed", 1);
    let loops = value(&given, "--loops", programs / 100);
    let stores = value(&given, "--stores", programs);
    let traverses = value(&given, "--traverses", programs);
    let images = value(&given, "--images", programs / 10);
    let states = value(&given, "--states", programs / 10);

    check_programs("programs", seed, programs, programs::check);
    check_programs("loops", seed, loops, programs::check_looping);
    check_programs("stores", seed, stores, programs::check_storing);
    check_long(seed);
    check_traverses("--traverses", seed, traverses, traverses::check);
    check_traverses("--loops", seed, loops, traverses::check_looping);
    check_traverses("--stores", seed, stores, traverses::check_storing);
    check_directed_traverses(seed);
    check_journals();
    each(seed, states, "--states", gates::check_state);
    println!("{states} gate states agree, seed {seed}");
    check_images(seed, images);
    check_directed(seed);
    check_halting(seed);
    check_bottom(seed);
    check_resets(seed);
    let vectors = settle(vectors::check(), "outside vectors");
    println!("{vectors} outside vectors agree");
    let sums = settle(
        sums::check(&mut Rng::new(seed)),
        &format!("what sums mean, --seed {seed}"),
    );
    println!("{sums} sums and halves mean what they must, seed {seed}");
    check_refusals(seed);
    println!("differential: all agree");
}

/// One check for each seed; ends the program at the first that fails.
fn each(seed: u64, cases: u64, kind: &str, mut check: impl FnMut(&mut Rng) -> Check) {
    for number in 0..cases {
        let seed = seed.wrapping_add(number);
        let outcome = check(&mut Rng::new(seed));
        settle(outcome, &format!("{kind} 1 --seed {seed}"));
    }
}

/// Prints the case with the options that make it again.
fn settle<T>(outcome: Result<T, String>, options: &str) -> T {
    outcome.unwrap_or_else(|text| {
        println!("MISMATCH ({options}): {text}");
        exit(1)
    })
}

fn check_programs(
    kind: &str,
    seed: u64,
    cases: u64,
    check: impl Fn(&mut Rng, &mut programs::Tally) -> Check,
) {
    let mut tally = programs::Tally::default();
    each(seed, cases, &format!("--{kind}"), |rng| {
        check(rng, &mut tally)
    });
    println!("{cases} {kind} agree, seed {seed}: {tally}");
}

fn check_long(seed: u64) {
    let mut tally = programs::Tally::default();
    settle(
        long::check(&mut Rng::new(seed), &mut tally),
        &format!("turning lists and full journals, --seed {seed}"),
    );
    println!("turning wait lists and full journals agree, seed {seed}: {tally}");
}

/// Each seed has a traverse under both rules, and two calls that may be refused.
fn check_traverses(
    option: &str,
    seed: u64,
    cases: u64,
    check: impl Fn(&mut Rng, &mut traverses::Tally) -> Check,
) {
    let mut tally = traverses::Tally::default();
    each(seed, cases, option, |rng| check(rng, &mut tally));
    println!("{cases} traverses ({option}) agree, seed {seed}: {tally}");
}

fn check_directed_traverses(seed: u64) {
    let mut tally = traverses::Tally::default();
    let options = format!("directed traverses, --seed {seed}");
    let mut rng = Rng::new(seed);
    settle(traverse_borders::check(&mut rng, &mut tally), &options);
    settle(traverse_limits::check(&mut rng, &mut tally), &options);
    println!("directed traverses agree, seed {seed}: {tally}");
}

fn check_journals() {
    let mut tally = traverses::Tally::default();
    let borders = settle(journals::check(), "journals");
    settle(journal_files::check(&mut tally), "journals of traverses");
    let strides = settle(strides::check(), "strides");
    println!(
        "{borders} file runs at the borders of a journal agree, and {strides} calls that store \
         all over a memory"
    );
    println!("traverses at the borders of a journal agree: {tally}");
    settle(stack::check(), "stack");
    println!("a journal is kept from a thread with 256 KiB of stack");
}

fn check_images(seed: u64, cases: u64) {
    let mut tally = images::Tally::default();
    each(seed, cases, "--images", |rng| {
        images::check(rng, &mut tally)
    });
    let lengths = settle(
        images::check_lengths(&mut Rng::new(seed)),
        &format!("lengths of images, --seed {seed}"),
    );
    println!(
        "{} images agree, seed {seed}: {} refused; and {lengths} at the borders of their fields",
        tally.read, tally.refused
    );
}

fn check_directed(seed: u64) {
    let mut tally = directed::Tally::default();
    let cases = settle(
        directed::check(&mut Rng::new(seed), &mut tally),
        &format!("directed cases, --seed {seed}"),
    );
    println!(
        "{cases} directed cases agree, seed {seed}: {} instructions, {} outside, {} images refused",
        tally.programs.instructions, tally.programs.outside, tally.images.refused
    );
}

fn check_halting(seed: u64) {
    let mut tally = programs::Tally::default();
    let words = settle(
        halting::check(&mut Rng::new(seed), &mut tally),
        &format!("words that are no instruction, --seed {seed}"),
    );
    println!("{words} words that are no instruction agree, seed {seed}: {tally}");
}

fn check_bottom(seed: u64) {
    let mut tally = programs::Tally::default();
    let cases = settle(
        bottom::check(&mut Rng::new(seed), &mut tally),
        &format!("directed cases of the bottom, --seed {seed}"),
    );
    println!("{cases} directed cases of the bottom agree, seed {seed}: {tally}");
}

fn check_resets(seed: u64) {
    let lists = settle(
        resets::check(&mut Rng::new(seed)),
        &format!("directed reset lists, --seed {seed}"),
    );
    println!("{lists} directed reset lists agree, seed {seed}");
}

fn check_refusals(seed: u64) {
    let refused = settle(
        refusals::check(&mut Rng::new(seed)),
        &format!("refusals, --seed {seed}"),
    );
    let misfits = settle(misfits::check(), "lengths");
    settle(limits::check(), "limits");
    println!(
        "{refused} calls with and without reasons to refuse, {misfits} of a wrong length and the limits agree"
    );
}
