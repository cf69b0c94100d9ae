//! Times the library beside the Rust crate `slice-group-by`, in one process, in alternating rounds, on the same inputs.
//!
//! The first argument says how many rounds (31 if none does); the tables go to standard output. `merge FILE..` makes one table of
//! those of several runs.
#[path = "../../src/arguments.rs"]
mod arguments;
#[path = "../../src/ffi.rs"]
#[allow(dead_code)]
mod ffi;
#[path = "../../src/inputs.rs"]
mod inputs;
#[path = "../../src/merge.rs"]
mod merge;
#[path = "../../src/place.rs"]
mod place;
#[path = "../../src/timing.rs"]
mod timing;

use arguments::Wanted;
use inputs::{slice, text, Lengths};
use slice_group_by::{exponential_search, GroupBy, GroupByMut, StrGroupBy};
use timing::{in_turn, shown, Time};

const COUNT: usize = 100_000;

macro_rules! lengths {
    ($groups:expr) => {
        $groups.fold(0usize, |sum, group| sum.wrapping_mul(31).wrapping_add(group.len()))
    };
}

/// A walk: its name, the library's, and the crate's.
type Walk<F, G> = (&'static str, F, G);

macro_rules! walks {
    ($xs:ty, $($name:literal $front:ident $back:ident $method:ident($($f:expr)?);)*) => {
        [$(
            (concat!($name, ", front"), ffi::$front, |xs: $xs| lengths!(xs.$method($($f)?))),
            (concat!($name, ", back"), ffi::$back, |xs: $xs| lengths!(xs.$method($($f)?).rev())),
        )*]
    };
}

const READING: [Walk<ffi::Read, fn(&[u32]) -> usize>; 18] = walks! { &[u32],
    "Linear by equality" linear_front linear_back linear_group();
    "Linear by predicate" linear_by_front linear_by_back linear_group_by(|a, b| a == b);
    "Linear by key" linear_by_key_front linear_by_key_back linear_group_by_key(|x| x & !1);
    "Binary by equality" binary_front binary_back binary_group();
    "Binary by predicate" binary_by_front binary_by_back binary_group_by(|a, b| a == b);
    "Binary by key" binary_by_key_front binary_by_key_back binary_group_by_key(|x| x & !1);
    "Exponential by equality" exponential_front exponential_back exponential_group();
    "Exponential by predicate" exponential_by_front exponential_by_back exponential_group_by(|a, b| a == b);
    "Exponential by key" exponential_by_key_front exponential_by_key_back exponential_group_by_key(|x| x & !1);
};

const WRITING: [Walk<ffi::Write, fn(&mut [u32]) -> usize>; 18] = walks! { &mut [u32],
    "Linear by equality, writing" linear_mut_front linear_mut_back linear_group_mut();
    "Linear by predicate, writing" linear_by_mut_front linear_by_mut_back linear_group_by_mut(|a, b| a == b);
    "Linear by key, writing" linear_by_key_mut_front linear_by_key_mut_back linear_group_by_key_mut(|x| x & !1);
    "Binary by equality, writing" binary_mut_front binary_mut_back binary_group_mut();
    "Binary by predicate, writing" binary_by_mut_front binary_by_mut_back binary_group_by_mut(|a, b| a == b);
    "Binary by key, writing" binary_by_key_mut_front binary_by_key_mut_back binary_group_by_key_mut(|x| x & !1);
    "Exponential by equality, writing" exponential_mut_front exponential_mut_back exponential_group_mut();
    "Exponential by predicate, writing" exponential_by_mut_front exponential_by_mut_back exponential_group_by_mut(|a, b| a == b);
    "Exponential by key, writing" exponential_by_key_mut_front exponential_by_key_mut_back exponential_group_by_key_mut(|x| x & !1);
};

const TEXTS: [Walk<ffi::Text, fn(&str) -> usize>; 2] = walks! { &str,
    "Texts" text_front text_back linear_group();
};

/// Groups of equal numbers of one type, which the library finds by vectors; `of` makes a number of an even one that ascends.
fn numbers<T: PartialEq>(rounds: usize, name: &str, of: fn(u32) -> T, walks: [ffi::Walk<T>; 2]) {
    let peers: [(&str, fn(&[T]) -> usize); 2] =
        [("front", |xs| lengths!(xs.linear_group())), ("back", |xs| lengths!(xs.linear_group().rev()))];
    for ((end, theirs), walk) in peers.into_iter().zip(walks) {
        head(&format!("Linear by vectors, {name}, {end}"), "an element");
        for lengths in [1, 8, 1000, 100_000].map(Lengths::Each).into_iter().chain([8, 100].map(Lengths::Around)) {
            let xs: Vec<T> = slice(COUNT, lengths).into_iter().map(of).collect();
            let ours = || unsafe { walk(xs.as_ptr(), xs.len()) };
            assert_eq!(ours(), theirs(&xs), "{name}");
            row(&lengths.name(), COUNT, &in_turn(rounds, &mut [&mut || ours(), &mut || theirs(&xs)]));
        }
    }
}

fn head(what: &str, unit: &str) {
    println!("\n## {what}\n\nNanoseconds {unit}, beside the crate.\n");
    println!("| input | least | median | crate least | crate median | ratio, least | ratio, median |");
    println!("|---|---|---|---|---|---|---|");
}

fn row(name: &str, per: usize, times: &[Time]) {
    let [ours, theirs] = [times[0], times[1]];
    let [a, b, c, d] = [ours.least, ours.median, theirs.least, theirs.median].map(|time| shown(time / per as f64));
    println!("| {name} | {a} | {b} | {c} | {d} | {:.2} | {:.2} |", ours.least / theirs.least, ours.median / theirs.median);
}

fn main() {
    let rounds = match arguments::wanted() {
        Wanted::Rounds(rounds) => rounds,
        Wanted::Table(table) => {
            print!("{table}");
            return;
        }
    };
    let all = [1, 8, 1000, 100_000].map(Lengths::Each).into_iter().chain([8, 1000].map(Lengths::Around));
    for (what, ours, theirs) in READING {
        head(what, "an element");
        for lengths in all.clone() {
            let xs = slice(COUNT, lengths);
            let mut ours = || unsafe { ours(xs.as_ptr(), xs.len()) };
            assert_eq!(ours(), theirs(&xs), "{what}");
            row(&lengths.name(), COUNT, &in_turn(rounds, &mut [&mut ours, &mut || theirs(&xs)]));
        }
    }
    for (what, ours, theirs) in WRITING {
        head(what, "an element");
        for lengths in all.clone() {
            let mut xs = slice(COUNT, lengths);
            let mut ys = xs.clone();
            let mut ours = || unsafe { ours(xs.as_mut_ptr(), xs.len()) };
            assert_eq!(ours(), theirs(&mut ys), "{what}");
            row(&lengths.name(), COUNT, &in_turn(rounds, &mut [&mut ours, &mut || theirs(&mut ys)]));
        }
    }
    numbers(rounds, "u8", |x| x as u8, [ffi::number_u8_front, ffi::number_u8_back]);
    numbers(rounds, "u32", |x| x, [ffi::number_u32_front, ffi::number_u32_back]);
    numbers(rounds, "u64", u64::from, [ffi::number_u64_front, ffi::number_u64_back]);
    numbers(rounds, "f64", f64::from, [ffi::number_f64_front, ffi::number_f64_back]);
    for (what, ours, theirs) in TEXTS {
        for (mixed, kind) in [(false, "ASCII"), (true, "one to four bytes a character")] {
            head(&format!("{what}, {kind}"), "a character");
            for lengths in [Lengths::Each(1), Lengths::Around(8), Lengths::Each(8), Lengths::Each(1000)] {
                let s = text(COUNT, lengths, mixed);
                let mut ours = || unsafe { ours(s.as_ptr(), s.len()) };
                assert_eq!(ours(), theirs(&s), "{what}");
                row(&lengths.name(), COUNT, &in_turn(rounds, &mut [&mut ours, &mut || theirs(&s)]));
            }
        }
    }
    head("Searches", "a search");
    for (name, xs, keys) in inputs::sought() {
        let theirs = || keys.iter().fold(0usize, |sum, key| {
            let (Ok(place) | Err(place)) = exponential_search(&xs, key);
            sum.wrapping_mul(31).wrapping_add(place)
        });
        let ours = || unsafe { ffi::searches(xs.as_ptr(), xs.len(), keys.as_ptr(), keys.len()) };
        assert_eq!(ours(), theirs(), "searches");
        row(&name, keys.len(), &in_turn(rounds, &mut [&mut || ours(), &mut || theirs()]));
    }
}
