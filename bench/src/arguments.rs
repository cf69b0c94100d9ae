//! What a program of the bench is asked for.
use crate::merge::merged;

pub enum Wanted {
    /// To time so many rounds.
    Rounds(usize),
    /// One table of those that earlier runs printed.
    Table(String),
}

/// How many rounds the first argument says, or 31; and where the arguments are `merge FILE..`, one table of those files.
pub fn wanted() -> Wanted {
    let words: Vec<String> = std::env::args().skip(1).collect();
    match words.split_first() {
        Some((word, files)) if word == "merge" => Wanted::Table(merged(files)),
        Some((word, _)) => Wanted::Rounds(word.parse().expect("a number of rounds")),
        None => Wanted::Rounds(31),
    }
}
