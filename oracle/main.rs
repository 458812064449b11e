//! The comparison with the Rust.
//!   oracle compare FRAMES SEED FLIP EVERY GLANCE..          compares; exit 1 at a difference. FRAMES is how many, or FRAMES:PART/PARTS for a part of a run.
//!                                                           FLIP falsifies one of our answers (`oracle answers` says how many there are; 0 none).
//!                                                           GLANCE.. is the program with its words, asked for one frame in EVERY
//!   oracle listed                                           asks both sides the frames of the listed differences
//!   oracle store FILE FRAMES SEED                           writes the stored list
//!   oracle glance                                           prints what the program glance must print for its input
//!   oracle measure                                          asks each side each question between marks, for an instruction counter around it
mod around;
mod compare;
mod desk;
mod frames;
mod glance;
mod inputs;
mod listed;
mod measure;
mod rust;
mod store;
mod text {
    include!(env!("ORACLE_TEXT"));
}
pub use text::*;

use compare::{difference, reduced, Tally, FLIP, FLIPS};
use frames::{frame, Seed, Sort, SORTS};
use glance::Program;
use std::io::{Read, Write};
use std::sync::atomic::Ordering;

/// How many frames of each sort in a round of 100: a large one costs as much as hundreds of small ones.
fn sort_of(i: usize) -> Sort {
    match i % 100 {
        0..=31 => Sort::Query,
        32..=34 => Sort::OneAlias,
        35..=39 => Sort::HalfTyped,
        40..=42 => Sort::Words,
        43..=56 => Sort::Tidy,
        57..=74 => Sort::Random,
        75..=79 => Sort::Deep,
        80..=87 => Sort::Around,
        99 if i % 1000 == 99 => Sort::Large,
        _ => Sort::Damaged,
    }
}

fn compare(run: Part, seed: u64, glance: Program) -> bool {
    let mut agreed = [0; SORTS.len()];
    let mut tally = Tally::default();
    if run.part == 1 {
        if !listed::listed(false) {
            return false;
        }
        println!("the listed differences are as listed");
    }
    if let Err(why) = glance.by_hand(run.part, run.parts, &mut tally) {
        println!("{why}");
        return false;
    }
    for i in run.frames() {
        let sort = sort_of(i);
        let mut s = Seed((seed << 32 | i as u64).wrapping_mul(0x9E3779B97F4A7C15) | 1);
        let f = frame(sort, &mut s);
        if let Err(first) = difference(&f, &mut tally) {
            let small = reduced(f, |f| difference(f, &mut Tally::default()).is_err());
            println!("frame {i} of seed {seed} ({sort:?}) differs: {first}");
            println!("the smallest: {}", difference(&small, &mut Tally::default()).expect_err("still"));
            println!("source {:?}\nmessage {:?}, {} bytes behind the records", String::from_utf8_lossy(&small.source), String::from_utf8_lossy(&small.message), small.rest);
            for (i, r) in small.recs.iter().enumerate() {
                println!("{i}: kind {} depth {} {} {} {:?}", r.kind, r.depth, r.start, r.end, String::from_utf8_lossy(small.text(i)));
            }
            return false;
        }
        if let Err(why) = glance.frame(i, &f, &mut s, &mut tally) {
            println!("frame {i} of seed {seed} ({sort:?}) differs: {why}");
            return false;
        }
        agreed[SORTS.iter().position(|&x| x == sort).expect("one")] += 1;
    }
    for (sort, n) in SORTS.iter().zip(agreed) {
        println!("{n} frames {sort:?} agreed");
    }
    println!("{} of them asked the Rust; {} lists with {} entries, each in five rooms", tally.rust_asked, tally.lists, tally.entries);
    println!("{} WITH names were seen from inside", tally.seen);
    println!("the Rust stopped at a lone quote mark {} times; {} frames are no text, and were asked with a mark for each byte over 127", tally.stopped, tally.no_text);
    println!("refusals by number: {:?}", &tally.refused[1..]);
    println!("contexts by number: {:?}", tally.contexts);
    if glance.asks(0) { println!("{} inputs agreed through glance, one for each {} of these frames and one in {} of those made by hand", tally.glanced, glance.every, run.parts) }
    true
}

/// A part of a run, counted from 1: its share of the frames, and of the inputs made by hand.
struct Part {
    all: usize,
    part: usize,
    parts: usize,
}

impl Part {
    /// `FRAMES`, or `FRAMES:PART/PARTS`.
    fn of(words: &str) -> Part {
        let number = |a: &str| a.parse().expect("a number");
        match words.split_once(':').and_then(|(all, of)| Some((all, of.split_once('/')?))) {
            Some((all, (part, parts))) => Part { all: number(all), part: number(part), parts: number(parts) },
            None => Part { all: number(words), part: 1, parts: 1 },
        }
    }

    fn frames(&self) -> std::ops::Range<usize> {
        self.all * (self.part - 1) / self.parts..self.all * self.part / self.parts
    }
}

fn main() {
    // a stop of the Rust is caught and counted; it need not be printed
    std::panic::set_hook(Box::new(|p| if !rust::ASKING.load(Ordering::Relaxed) { eprintln!("{p}") }));
    let args: Vec<String> = std::env::args().skip(1).collect();
    let number = |i: usize, or: usize| args.get(i).map_or(or, |a| a.parse().expect("a number"));
    let done = match args.first().map(String::as_str) {
        Some("compare") => {
            let flip = number(3, 0);
            assert!(flip <= FLIPS, "no such answer");
            FLIP.store(flip, Ordering::Relaxed);
            compare(Part::of(args.get(1).map_or("2000", |a| a)), number(2, 1) as u64, Program { words: args.get(5..).unwrap_or(&[]), every: number(4, 1) })
        }
        Some("answers") => {
            println!("{FLIPS}");
            true
        }
        Some("listed") => listed::listed(true),
        Some("store") => match store::store(number(2, 3600), number(3, 1) as u64) {
            Ok(list) => std::fs::write(&args[1], list).is_ok(),
            Err(why) => { println!("{why}"); false }
        },
        Some("glance") => {
            let mut input = Vec::new();
            let read = std::io::stdin().read_to_end(&mut input).is_ok();
            match glance::printed(&input) {
                Ok(glance::Printed::Text(text)) => read && std::io::stdout().write_all(&text).is_ok(),
                _ => false,
            }
        }
        Some("measure") => {
            measure::measure();
            true
        }
        _ => false,
    };
    std::process::exit(!done as i32);
}
