//! Slices in groups of stated lengths, and texts.

/// A small generator of numbers (Steele, Lea and Flood's SplitMix64), so that each run has the same inputs.
pub struct Numbers(pub u64);

impl Numbers {
    pub fn next(&mut self) -> u64 {
        self.0 = self.0.wrapping_add(0x9E37_79B9_7F4A_7C15);
        let mut z = self.0;
        z = (z ^ (z >> 30)).wrapping_mul(0xBF58_476D_1CE4_E5B9);
        z = (z ^ (z >> 27)).wrapping_mul(0x94D0_49BB_1331_11EB);
        z ^ (z >> 31)
    }

    pub fn below(&mut self, limit: u64) -> u64 {
        self.next() % limit
    }
}

/// How long the groups of an input are.
#[derive(Clone, Copy)]
pub enum Lengths {
    Each(usize),
    Around(usize),
}

impl Lengths {
    pub fn name(self) -> String {
        match self {
            Lengths::Each(len) => format!("{len}"),
            Lengths::Around(len) => format!("~{len}"),
        }
    }

    fn next(self, numbers: &mut Numbers) -> usize {
        match self {
            Lengths::Each(len) => len,
            Lengths::Around(len) => 1 + numbers.below(2 * len as u64 - 1) as usize,
        }
    }
}

/// `count` ascending elements in groups of these lengths: the even numbers from 0 on.
pub fn slice(count: usize, lengths: Lengths) -> Vec<u32> {
    let mut numbers = Numbers(1);
    let mut xs = Vec::with_capacity(count);
    let mut value = 0;
    while xs.len() < count {
        let len = lengths.next(&mut numbers).min(count - xs.len());
        xs.extend(std::iter::repeat(value).take(len));
        value += 2;
    }
    xs
}

/// What is searched for: in each number of even numbers a thousand that are there, or odd ones, and numbers near the front.
pub fn sought() -> Vec<(String, Vec<u32>, Vec<u32>)> {
    let mut numbers = Numbers(3);
    let mut keys = |limit: u64, odd: u32| (0..1000).map(|_| 2 * numbers.below(limit) as u32 + odd).collect();
    let mut inputs = Vec::new();
    for count in [100, 1000, 10_000, 100_000, 1_000_000] {
        let xs = slice(count, Lengths::Each(1));
        inputs.push((format!("of {count}, there"), xs.clone(), keys(count as u64, 0)));
        inputs.push((format!("of {count}, not there"), xs, keys(count as u64, 1)));
    }
    inputs.push(("within the first twenty of 1000000".to_string(), slice(1_000_000, Lengths::Each(1)), keys(20, 0)));
    inputs
}

/// About `count` bytes of words, numbers and marks with gaps between them: 2.7 bytes a token.
pub fn tokens(count: usize) -> Vec<u8> {
    let mut numbers = Numbers(4);
    let mut bytes = Vec::new();
    while bytes.len() < count {
        for _ in 0..=numbers.below(9) {
            bytes.push(b'a' + numbers.below(26) as u8);
        }
        match numbers.below(8) {
            0 => bytes.extend(b", "),
            1 => bytes.extend(format!(" {} ", numbers.below(10_000)).bytes()),
            2 => bytes.extend(b".\n"),
            _ => bytes.push(b' '),
        }
    }
    bytes
}

/// `count` bytes in words of about a hundred letters, with a space between them.
pub fn long_words(count: usize) -> Vec<u8> {
    let mut numbers = Numbers(5);
    let mut bytes = Vec::new();
    while bytes.len() < count {
        let len = Lengths::Around(100).next(&mut numbers);
        bytes.extend(std::iter::repeat(b'a').take(len));
        bytes.push(b' ');
    }
    bytes
}

/// About `count` characters in groups of these lengths, of one byte each, or of one to four.
pub fn text(count: usize, lengths: Lengths, mixed: bool) -> String {
    let letters: &[char] = if mixed { &['a', 'é', '€', '𝄞'] } else { &['a', 'b', 'c', 'd'] };
    let mut numbers = Numbers(2);
    let mut text = String::new();
    let mut characters = 0;
    for place in 0.. {
        if characters >= count {
            break;
        }
        let len = lengths.next(&mut numbers).min(count - characters);
        text.extend(std::iter::repeat(letters[place % 4]).take(len));
        characters += len;
    }
    text
}
