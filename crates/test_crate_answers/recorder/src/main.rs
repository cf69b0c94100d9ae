//! Records what the Rust crate `slice-group-by` 0.3.1 answers. It reads lines of the form that `test_crate_answers` reads,
//! makes the calls of each, and prints the line with that crate's answers in place of those that it has. Where a line has `-`
//! for the number of questions, the printed one has it too.
//!
//!     cargo run --release < ../stdin | cmp - ../stdin
use slice_group_by::{exponential_search, exponential_search_by, exponential_search_by_key};
use slice_group_by::{GroupBy, GroupByMut, StrGroupBy, StrGroupByMut};
use std::cell::Cell;
use std::io::BufRead;

fn read(group: impl AsRef<[u8]>) -> String {
    String::from_utf8_lossy(group.as_ref()).into_owned()
}

// A group for writing is crossed out.
fn write(group: &mut [u8]) -> String {
    let text = read(&group);
    group.fill(b'#');
    text
}

fn walk<I: DoubleEndedIterator>(mut groups: I, calls: &str, text: fn(I::Item) -> String) -> String {
    let mut answers = Vec::new();
    for call in calls.chars() {
        let group = match call {
            'F' => groups.next(),
            'B' => groups.next_back(),
            _ => {
                answers.push(groups.last());
                break;
            }
        };
        answers.push(group);
    }
    let texts = answers.into_iter().map(|group| group.map_or("-".to_owned(), text));
    texts.collect::<Vec<_>>().join(",")
}

fn accepts(judge: &str, left: u32, right: u32, question: u64) -> bool {
    match judge {
        "rising" => left < right,
        "halves" => left / 2 == right / 2,
        "thirds" => question % 3 != 0,
        _ => panic!("judge {judge}"),
    }
}

// The answers of these three methods, and how many questions the closure was asked.
macro_rules! answers {
    ($fields:expr, $word:expr, $code:expr, $text:expr; $equality:ident, $predicate:ident, $key:ident) => {{
        let asked = Cell::new(0);
        let ask = || asked.replace(asked.get() + 1) + 1;
        let answers = match $fields[2] {
            "equality" => walk($word.$equality(), $fields[3], $text),
            "key" => walk($word.$key(|x| (ask(), $code(x) / 2).1), $fields[3], $text),
            judge => walk($word.$predicate(|a, b| accepts(judge, $code(a), $code(b), ask())), $fields[3], $text),
        };
        (answers, asked.get())
    }};
}

fn groups(line: &[&str]) -> String {
    let (mut text, mut bytes) = (line[4].to_owned(), line[4].as_bytes().to_vec());
    let code = |byte: &u8| u32::from(*byte);
    let cross: fn(&mut str) -> String = |group| write(unsafe { group.as_bytes_mut() });
    let (answers, asked) = match (line[0], line[1]) {
        ("linear", "reading") => answers!(line, bytes, code, read; linear_group, linear_group_by, linear_group_by_key),
        ("linear", _) => answers!(line, bytes, code, write; linear_group_mut, linear_group_by_mut, linear_group_by_key_mut),
        ("binary", "reading") => answers!(line, bytes, code, read; binary_group, binary_group_by, binary_group_by_key),
        ("binary", _) => answers!(line, bytes, code, write; binary_group_mut, binary_group_by_mut, binary_group_by_key_mut),
        ("exponential", "reading") => answers!(line, bytes, code, read; exponential_group, exponential_group_by, exponential_group_by_key),
        ("exponential", _) => answers!(line, bytes, code, write; exponential_group_mut, exponential_group_by_mut, exponential_group_by_key_mut),
        (_, "reading") => answers!(line, text, u32::from, read; linear_group, linear_group_by, linear_group_by_key),
        _ => answers!(line, text, u32::from, cross; linear_group_mut, linear_group_by_mut, linear_group_by_key_mut),
    };
    let mut fields: Vec<String> = line[..5].iter().map(|field| field.to_string()).collect();
    if line[1] == "writing" {
        fields.push(if line[0] == "text" { text } else { read(bytes) });
    }
    fields.push(answers);
    fields.push(if line.last() == Some(&"-") { "-".to_owned() } else { asked.to_string() });
    fields.join(" ")
}

fn search(line: &[&str]) -> String {
    let (target, word) = (line[2].as_bytes()[0], line[3].as_bytes());
    let answer = match line[1] {
        "element" => exponential_search(word, &target),
        "comparator" => exponential_search_by(word, |letter| letter.cmp(&target)),
        _ => exponential_search_by_key(word, &target.to_ascii_lowercase(), u8::to_ascii_lowercase),
    };
    match answer {
        Ok(place) => format!("{} found {place}", line[..4].join(" ")),
        Err(place) => format!("{} absent {place}", line[..4].join(" ")),
    }
}

fn main() {
    for line in std::io::stdin().lock().lines() {
        let line = line.unwrap();
        let fields: Vec<&str> = line.split(' ').collect();
        println!("{}", if fields[0] == "search" { search(&fields) } else { groups(&fields) });
    }
}
