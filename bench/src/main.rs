//! Times the library beside plain Rust over the standard library, in one process, in alternating rounds, on the same inputs.
//!
//! The first argument says how many rounds (31 if none does); the tables go to standard output. `merge FILE..` makes one table of
//! those of several runs, and draws its growth in `growth.svg` in the current folder.
mod arguments;
mod ffi;
mod inputs;
mod merge;
mod peers;
mod picture;
mod place;
mod timing;

use arguments::Wanted;
use inputs::{slice, text, Lengths};
use timing::{in_turn, shown, Time};

const LENGTHS: [Lengths; 6] = [
    Lengths::Each(1),
    Lengths::Around(8),
    Lengths::Each(8),
    Lengths::Around(1000),
    Lengths::Each(1000),
    Lengths::Each(100_000),
];

/// One line of a table: the library's time, that of each peer, an element or a search, and the ratio to the best peer.
fn row(name: &str, per: usize, times: &[Time]) {
    let per = per as f64;
    let ours = times[0];
    let least = times[1..].iter().map(|time| time.least).fold(f64::MAX, f64::min);
    let median = times[1..].iter().map(|time| time.median).fold(f64::MAX, f64::min);
    println!(
        "| {name} | {} | {} | {} | {} | {:.2} | {:.2} |",
        shown(ours.least / per),
        shown(ours.median / per),
        shown(least / per),
        shown(median / per),
        ours.least / least,
        ours.median / median
    );
}

fn head(what: &str, unit: &str, peers: &str) {
    println!("\n## {what}\n\nNanoseconds {unit}. Best peer of: {peers}.\n");
    println!("| input | least | median | peer least | peer median | ratio, least | ratio, median |");
    println!("|---|---|---|---|---|---|---|");
}

fn read(f: ffi::Read, xs: &[u32]) -> usize {
    unsafe { f(xs.as_ptr(), xs.len()) }
}

fn write(f: ffi::Write, xs: &mut [u32]) -> usize {
    unsafe { f(xs.as_mut_ptr(), xs.len()) }
}

/// The elements of a row: enough for one group of the greatest length, and few enough for the second cache.
const COUNT: usize = 100_000;

fn reading(rounds: usize, what: &str, ours: ffi::Read, peers: Peers) {
    let names: Vec<&str> = peers.iter().map(|peer| peer.0).collect();
    head(what, "an element", &names.join(", "));
    for lengths in LENGTHS {
        let xs = slice(COUNT, lengths);
        let wanted = peers[0].1(&xs);
        assert_eq!(read(ours, &xs), wanted, "{what}");
        let mut first = || read(ours, &xs);
        let mut others: Vec<_> = peers.iter().map(|peer| || peer.1(&xs)).collect();
        let mut calls: Vec<&mut dyn FnMut() -> usize> = vec![&mut first];
        calls.extend(others.iter_mut().map(|call| call as &mut dyn FnMut() -> usize));
        row(&lengths.name(), COUNT, &in_turn(rounds, &mut calls));
    }
}

fn writing(rounds: usize, what: &str, ours: ffi::Write, name: &str, peer: fn(&mut [u32]) -> usize) {
    head(what, "an element", name);
    for lengths in LENGTHS {
        let mut xs = slice(COUNT, lengths);
        let mut ys = xs.clone();
        assert_eq!(write(ours, &mut xs), peer(&mut ys), "{what}");
        let mut first = || write(ours, &mut xs);
        let mut other = || peer(&mut ys);
        row(&lengths.name(), COUNT, &in_turn(rounds, &mut [&mut first, &mut other]));
    }
}

const NUMBER_LENGTHS: [Lengths; 11] = [
    Lengths::Each(1),
    Lengths::Around(2),
    Lengths::Each(2),
    Lengths::Around(4),
    Lengths::Each(8),
    Lengths::Around(8),
    Lengths::Each(9),
    Lengths::Around(16),
    Lengths::Around(100),
    Lengths::Each(1000),
    Lengths::Each(100_000),
];

/// Groups of equal numbers of one type, which are found by vectors; `of` makes a number of an even one that ascends.
fn numbers<T: PartialEq>(rounds: usize, name: &str, of: fn(u32) -> T, walks: [ffi::Walk<T>; 2]) {
    let peers: [(&str, &str, fn(&[T]) -> usize); 2] =
        [("front", "`chunk_by`", peers::chunk_by_of), ("back", "`chunk_by(..).rev()`", peers::chunk_by_rev_of)];
    for ((end, peer_name, peer), walk) in peers.into_iter().zip(walks) {
        head(&format!("Linear by vectors, {name}, {end}"), "an element", peer_name);
        for lengths in NUMBER_LENGTHS {
            let xs: Vec<T> = slice(COUNT, lengths).into_iter().map(of).collect();
            let ours = || unsafe { walk(xs.as_ptr(), xs.len()) };
            assert_eq!(ours(), peer(&xs), "{name}");
            row(&lengths.name(), COUNT, &in_turn(rounds, &mut [&mut || ours(), &mut || peer(&xs)]));
        }
    }
}

fn all_numbers(rounds: usize) {
    numbers(rounds, "u8", |x| x as u8, [ffi::number_u8_front, ffi::number_u8_back]);
    numbers(rounds, "u32", |x| x, [ffi::number_u32_front, ffi::number_u32_back]);
    numbers(rounds, "u64", u64::from, [ffi::number_u64_front, ffi::number_u64_back]);
    numbers(rounds, "f64", f64::from, [ffi::number_f64_front, ffi::number_f64_back]);
}

/// Groups of bytes by their class, walked and counted, beside a table of 256 classes.
fn tokens(rounds: usize) {
    let source = include_bytes!("main.rs").repeat(COUNT / include_bytes!("main.rs").len() + 1);
    let inputs = [("2.7", inputs::tokens(COUNT)), ("source text", source), ("~100", inputs::long_words(COUNT))];
    let walks: [(&str, &str, ffi::Text, fn(&[u8]) -> usize); 3] = [
        ("front", "`chunk_by`", ffi::class_front, peers::chunk_by_class),
        ("back", "`chunk_by(..).rev()`", ffi::class_back, peers::chunk_by_class_rev),
        ("counted", "`chunk_by`, counted", ffi::class_counts, peers::class_counts),
    ];
    for (way, peer_name, walk, peer) in walks {
        head(&format!("Bytes by ASCII class, {way}"), "a byte", peer_name);
        for (name, bytes) in &inputs {
            let ours = || unsafe { walk(bytes.as_ptr(), bytes.len()) };
            assert_eq!(ours(), peer(bytes), "{name}");
            row(name, bytes.len(), &in_turn(rounds, &mut [&mut || ours(), &mut || peer(bytes)]));
        }
    }
}

/// The texts of a row: of characters of one byte, and of one to four.
const KINDS: [(bool, &str); 2] = [(false, "ASCII"), (true, "one to four bytes a character")];

const TEXT_LENGTHS: [Lengths; 4] = [Lengths::Each(1), Lengths::Around(8), Lengths::Each(8), Lengths::Each(1000)];

fn texts(rounds: usize) {
    type Text = fn(&str) -> usize;
    let front: Text = |s| unsafe { ffi::text_front(s.as_ptr(), s.len()) };
    let back: Text = |s| unsafe { ffi::text_back(s.as_ptr(), s.len()) };
    let a_loop: [Text; 2] = [peers::characters, peers::characters_back];
    let by_groups: [Text; 2] = [peers::character_groups, peers::character_groups_back];
    for (mixed, kind) in KINDS {
        for (what, peers) in [("one loop over `char_indices`", a_loop), ("a group at a time by `char_indices`", by_groups)] {
            for (end, ours, peer) in [("front", front, peers[0]), ("back", back, peers[1])] {
                head(&format!("Texts, {kind}, from the {end}, beside {what}"), "a character", what);
                for lengths in TEXT_LENGTHS {
                    let s = text(COUNT, lengths, mixed);
                    assert_eq!(ours(&s), peer(&s), "text");
                    row(&lengths.name(), COUNT, &in_turn(rounds, &mut [&mut || ours(&s), &mut || peer(&s)]));
                }
            }
        }
    }
    let ours_mut: [(&str, unsafe extern "C" fn(*mut u8, usize) -> usize, Text); 2] =
        [("front", ffi::text_mut_front, by_groups[0]), ("back", ffi::text_mut_back, by_groups[1])];
    for (mixed, kind) in KINDS {
        for (end, ours, peer) in ours_mut {
            let what = "a group at a time by `char_indices`, for reading";
            head(&format!("Texts for writing, {kind}, from the {end}"), "a character", what);
            for lengths in TEXT_LENGTHS {
                let s = text(COUNT, lengths, mixed);
                let mut bytes = s.clone().into_bytes();
                let mut ours = || unsafe { ours(bytes.as_mut_ptr(), bytes.len()) };
                assert_eq!(ours(), peer(&s), "text for writing");
                row(&lengths.name(), COUNT, &in_turn(rounds, &mut [&mut ours, &mut || peer(&s)]));
            }
        }
    }
}

fn searches(rounds: usize) {
    type Peer = fn(&[u32], &[u32]) -> usize;
    let searches: [(&str, &str, ffi::Join, Peer); 4] = [
        ("Searches", "`binary_search`", ffi::searches, peers::binary_searches),
        ("Searches", "galloping and `binary_search`", ffi::searches, peers::galloping_searches),
        ("Partition points", "galloping and `partition_point`", ffi::partition_points, peers::galloping_partition_points),
        ("Equal places", "the same twice", ffi::equal_places, peers::galloping_equal_places),
    ];
    let inputs = inputs::sought();
    for (what, beside, search, peer) in searches {
        head(&format!("{what} beside {beside}"), "a search", beside);
        for (name, xs, keys) in &inputs {
            let mut ours = || unsafe { search(xs.as_ptr(), xs.len(), keys.as_ptr(), keys.len()) };
            assert_eq!(ours(), peer(xs, keys), "{what}");
            row(name, keys.len(), &in_turn(rounds, &mut [&mut ours, &mut || peer(xs, keys)]));
        }
    }
}

fn joins(rounds: usize) {
    let ours: [(&str, ffi::Join); 2] =
        [("Merge join", ffi::merge_join), ("Merge join by a comparator", ffi::merge_join_by)];
    for (what, join) in ours {
        head(what, "an element of the longer side", "a linear merge");
        for (name, left, right) in sides() {
            let ours = || unsafe { join(left.as_ptr(), left.len(), right.as_ptr(), right.len()) };
            assert_eq!(ours(), peers::linear_merge(&left, &right));
            row(name, right.len(), &in_turn(rounds.min(15), &mut [&mut || ours(), &mut || peers::linear_merge(&left, &right)]));
        }
    }
}

/// The two sides of each join that is timed.
fn sides() -> [(&'static str, Vec<u32>, Vec<u32>); 5] {
    let many: Vec<u32> = (0..1_000_000).collect();
    let keys = |count: u32| (0..count).map(|x| 1_000_000 / count * x + 7).collect();
    let eights = slice(1_000_000, Lengths::Each(8));
    [
        ("10 keys against 10^6 elements", keys(10), many.clone()),
        ("1000 keys against 10^6", keys(1_000), many.clone()),
        ("100000 keys against 10^6", keys(100_000), many.clone()),
        ("10^6 against 10^6, groups of 1", many.clone(), many),
        ("10^6 against 10^6, groups of 8", eights.clone(), eights),
    ]
}

/// Time an element from 10^3 to 10^7 elements, in groups of eight, and of one; and the same of texts in groups of one character.
fn growth(rounds: usize) {
    println!("\n## Growth\n\nNanoseconds an element or a character, least of the rounds.\n");
    println!("| walk | 10^3 | 10^4 | 10^5 | 10^6 | 10^7 | 10^6 / 10^4 |");
    println!("|---|---|---|---|---|---|---|");
    let walks: [(&str, ffi::Read); 7] = [
        ("linear, front", ffi::linear_front),
        ("linear, back", ffi::linear_back),
        ("linear, both ends in turn", ffi::linear_both_ends),
        ("binary, front", ffi::binary_front),
        ("binary, back", ffi::binary_back),
        ("exponential, front", ffi::exponential_front),
        ("exponential, back", ffi::exponential_back),
    ];
    for len in [1, 8] {
        for (name, walk) in walks {
            let times = grown(rounds, &|count| slice(count, Lengths::Each(len)), &|xs| read(walk, xs));
            print_growth(&format!("{name}, groups of {len}"), &times);
        }
    }
    let walks: [(&str, ffi::Text); 3] =
        [("text, front", ffi::text_front), ("text, back", ffi::text_back), ("text, both ends in turn", ffi::text_both_ends)];
    for (name, walk) in walks {
        let times = grown(rounds, &|count| text(count, Lengths::Each(1), true), &|s| unsafe { walk(s.as_ptr(), s.len()) });
        print_growth(&format!("{name}, groups of 1"), &times);
    }
}

/// The least time of a walk over 10^3 to 10^7 elements, an element.
fn grown<T>(rounds: usize, input: &dyn Fn(usize) -> T, walk: &dyn Fn(&T) -> usize) -> Vec<f64> {
    let mut times = Vec::new();
    for power in 3..=7 {
        let count = 10usize.pow(power);
        let xs = input(count);
        let rounds = if power < 7 { rounds } else { rounds.min(7) };
        let time = in_turn(rounds, &mut [&mut || walk(&xs)])[0];
        times.push(time.least / count as f64);
    }
    times
}

fn print_growth(name: &str, times: &[f64]) {
    let cells: Vec<String> = times.iter().map(|time| shown(*time)).collect();
    println!("| {name} | {} | {:.2} |", cells.join(" | "), times[3] / times[1]);
}

/// How many binary digits the number has.
fn digits(n: usize) -> usize {
    (usize::BITS - n.leading_zeros()) as usize
}

/// How many questions a whole walk asks, and how many it may by the contracts.
fn questions() {
    println!("\n## Questions\n\nQuestions of a walk from the front, an element, and the most that the contracts allow.\n");
    println!("| groups of | linear | exactly | binary | at most | exponential | at most |");
    println!("|---|---|---|---|---|---|---|");
    for lengths in LENGTHS {
        let xs = slice(COUNT, lengths);
        let groups: Vec<usize> = xs.chunk_by(|a, b| a == b).map(<[u32]>::len).collect();
        let mut left = COUNT;
        let mut halvings = 0;
        for len in &groups {
            halvings += digits(left - 1);
            left -= len;
        }
        let gallops: usize = groups.iter().map(|len| 2 * digits(*len) + 1).sum();
        let counts = [
            read(ffi::linear_questions, &xs),
            COUNT - 1,
            read(ffi::binary_questions, &xs),
            halvings,
            read(ffi::exponential_questions, &xs),
            gallops,
        ];
        assert!(counts[0] == counts[1] && counts[2] <= counts[3] && counts[4] <= counts[5]);
        let cells: Vec<String> = counts.iter().map(|count| format!("{:.5}", *count as f64 / COUNT as f64)).collect();
        println!("| {} | {} |", lengths.name(), cells.join(" | "));
    }
}

/// A walk's peers of one end, by their names.
type Peers<'a> = &'a [(&'a str, fn(&[u32]) -> usize)];

fn main() {
    let rounds = match arguments::wanted() {
        Wanted::Rounds(rounds) => rounds,
        Wanted::Table(table) => {
            print!("{table}");
            let lines = picture::lines(&table, ", groups of 8");
            std::fs::write("growth.svg", picture::svg("Walks over groups of eight", &lines)).expect("growth.svg");
            return;
        }
    };
    println!("Least and median of {rounds} rounds, {COUNT} elements of four bytes.");
    let by_element: [Peers; 2] = [&[("`chunk_by`", peers::chunk_by)], &[("`chunk_by(..).rev()`", peers::chunk_by_rev)]];
    let by_key: [Peers; 2] = [&[("`chunk_by`", peers::chunk_by_key)], &[("`chunk_by(..).rev()`", peers::chunk_by_key_rev)]];
    let by_search: [Peers; 2] = [
        &[("`chunk_by`", peers::chunk_by), ("`partition_point`", peers::partition_point)],
        &[("`chunk_by(..).rev()`", peers::chunk_by_rev), ("`partition_point`", peers::partition_point_back)],
    ];
    let walks: [(&str, [Peers; 2], [ffi::Read; 2]); 9] = [
        ("Linear by equality", by_element, [ffi::linear_front, ffi::linear_back]),
        ("Linear by predicate", by_element, [ffi::linear_by_front, ffi::linear_by_back]),
        ("Linear by key", by_key, [ffi::linear_by_key_front, ffi::linear_by_key_back]),
        ("Binary by equality", by_search, [ffi::binary_front, ffi::binary_back]),
        ("Binary by predicate", by_search, [ffi::binary_by_front, ffi::binary_by_back]),
        ("Binary by key", by_search, [ffi::binary_by_key_front, ffi::binary_by_key_back]),
        ("Exponential by equality", by_search, [ffi::exponential_front, ffi::exponential_back]),
        ("Exponential by predicate", by_search, [ffi::exponential_by_front, ffi::exponential_by_back]),
        ("Exponential by key", by_search, [ffi::exponential_by_key_front, ffi::exponential_by_key_back]),
    ];
    for (name, peers, walks) in walks {
        reading(rounds, &format!("{name}, front"), walks[0], peers[0]);
        reading(rounds, &format!("{name}, back"), walks[1], peers[1]);
    }
    let alike: [(&str, [Peers; 2], [ffi::Read; 2]); 3] = [
        (
            "Binary by equality beside halving alone",
            [&[("`partition_point`", peers::partition_point)], &[("`partition_point`", peers::partition_point_back)]],
            [ffi::binary_front, ffi::binary_back],
        ),
        (
            "Exponential by equality beside galloping at the same places",
            [
                &[("galloping and `partition_point`", peers::gallop_alike)],
                &[("galloping and `partition_point`", peers::gallop_alike_back)],
            ],
            [ffi::exponential_front, ffi::exponential_back],
        ),
        (
            "Exponential by equality beside galloping from the neighbour on",
            [&[("galloping and `partition_point`", peers::gallop)], &[("galloping and `partition_point`", peers::gallop_back)]],
            [ffi::exponential_front, ffi::exponential_back],
        ),
    ];
    for (name, peers, walks) in alike {
        reading(rounds, &format!("{name}, front"), walks[0], peers[0]);
        reading(rounds, &format!("{name}, back"), walks[1], peers[1]);
    }
    let by_element_mut = [peers::chunk_by_mut as fn(&mut [u32]) -> usize, peers::chunk_by_mut_rev];
    let by_key_mut = [peers::chunk_by_key_mut as fn(&mut [u32]) -> usize, peers::chunk_by_key_mut_rev];
    let walks_mut: [(&str, [fn(&mut [u32]) -> usize; 2], [ffi::Write; 2]); 9] = [
        ("Linear by equality", by_element_mut, [ffi::linear_mut_front, ffi::linear_mut_back]),
        ("Linear by predicate", by_element_mut, [ffi::linear_by_mut_front, ffi::linear_by_mut_back]),
        ("Linear by key", by_key_mut, [ffi::linear_by_key_mut_front, ffi::linear_by_key_mut_back]),
        ("Binary by equality", by_element_mut, [ffi::binary_mut_front, ffi::binary_mut_back]),
        ("Binary by predicate", by_element_mut, [ffi::binary_by_mut_front, ffi::binary_by_mut_back]),
        ("Binary by key", by_key_mut, [ffi::binary_by_key_mut_front, ffi::binary_by_key_mut_back]),
        ("Exponential by equality", by_element_mut, [ffi::exponential_mut_front, ffi::exponential_mut_back]),
        ("Exponential by predicate", by_element_mut, [ffi::exponential_by_mut_front, ffi::exponential_by_mut_back]),
        ("Exponential by key", by_key_mut, [ffi::exponential_by_key_mut_front, ffi::exponential_by_key_mut_back]),
    ];
    for (name, peers, walks) in walks_mut {
        writing(rounds, &format!("{name} for writing, front"), walks[0], "`chunk_by_mut`", peers[0]);
        writing(rounds, &format!("{name} for writing, back"), walks[1], "`chunk_by_mut(..).rev()`", peers[1]);
    }
    all_numbers(rounds);
    tokens(rounds);
    texts(rounds);
    searches(rounds);
    joins(rounds);
    questions();
    growth(rounds);
}
