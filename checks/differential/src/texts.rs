//! Texts, made from a seed.

use crate::calls;

/// A generator of numbers: the same ones for the same seed.
pub struct Seeded(u64);

impl Seeded {
    pub fn new(seed: u64) -> Self {
        Seeded(seed)
    }

    pub fn next(&mut self) -> u64 {
        self.0 = self.0.wrapping_add(0x9E37_79B9_7F4A_7C15);
        let mut z = self.0;
        z = (z ^ (z >> 30)).wrapping_mul(0xBF58_476D_1CE4_E5B9);
        z = (z ^ (z >> 27)).wrapping_mul(0x94D0_49BB_1331_11EB);
        z ^ (z >> 31)
    }

    /// A number less than `count`.
    pub fn below(&mut self, count: usize) -> usize {
        (self.next() % count as u64) as usize
    }

    /// Once in `count` times.
    pub fn once_in(&mut self, count: usize) -> bool {
        self.below(count) == 0
    }

    pub fn one_of<T: Copy>(&mut self, of: &[T]) -> T {
        of[self.below(of.len())]
    }
}

// What a text is made of where it follows no grammar.
const TOKENS: &[&str] = &[
    "\\",
    "\\",
    "\\",
    " ",
    " ",
    "=",
    "=",
    ",",
    ",",
    "\"",
    "\"",
    "\n",
    "\n",
    "\t",
    "#",
    "\0",
    "\r",
    "a",
    "b",
    "é",
    "m",
    "0",
    "1",
    "9",
    ".",
    "-",
    "+",
    "e",
    "E",
    "i",
    "u",
    "t",
    "true",
    "FALSE",
    "m a=1i\n",
    " a=1",
    ",k=v",
    "=\"",
    "\\\"",
    "9223372036854775807",
    "9223372036854775808",
    "18446744073709551616",
];

fn tokens(seeded: &mut Seeded, most: usize) -> String {
    (0..seeded.below(most + 1))
        .map(|_| seeded.one_of(TOKENS))
        .collect()
}

/// A name, of which a byte may mean something to the reader; also an empty one.
pub fn name(seeded: &mut Seeded) -> String {
    if seeded.once_in(12) {
        return tokens(seeded, 4);
    }
    admitted_name(seeded)
}

// A name that reads back once it is written.
fn admitted_name(seeded: &mut Seeded) -> String {
    let plain = [
        "cpu",
        "host",
        "m",
        "a",
        "tag",
        "region=eu",
        "x y",
        "a,b",
        "\\,",
        "back\\slash",
        "é",
        "k1",
        "k2",
        "b",
    ];
    let mut name = String::from(seeded.one_of(&plain));
    if seeded.once_in(20) {
        name = name.repeat(1 + seeded.below(12));
    }
    name
}

// A name in a line: mostly with a backslash before what would end it.
fn spelled(seeded: &mut Seeded, name: &str) -> String {
    if seeded.once_in(15) {
        return String::from(name);
    }
    let mut spelled = String::new();
    for letter in name.chars() {
        if matches!(letter, ' ' | ',' | '=') || (letter == '\\' && seeded.once_in(2)) {
            spelled.push('\\');
        }
        spelled.push(letter);
    }
    spelled
}

/// A number's text: of a few digits, or near to a limit.
pub fn digits(seeded: &mut Seeded) -> String {
    let near = [
        "0",
        "9223372036854775807",
        "9223372036854775808",
        "9223372036854775809",
        "18446744073709551615",
        "18446744073709551616",
        "99999999999999999999999999",
    ];
    let mut digits = if seeded.once_in(6) {
        String::from(seeded.one_of(&near))
    } else {
        (seeded.next() >> seeded.below(64)).to_string()
    };
    if seeded.once_in(10) {
        digits.insert_str(0, seeded.one_of(&["0", "00", "0000000000000000000000"]));
    }
    digits
}

/// The text of a float.
pub fn literal(seeded: &mut Seeded) -> String {
    let mut literal = digits(seeded);
    if seeded.once_in(4) {
        literal.insert(0, '-');
    }
    if seeded.once_in(2) {
        literal.push('.');
        literal += &digits(seeded);
    }
    if seeded.once_in(3) {
        literal.push(seeded.one_of(&['e', 'E']));
        literal += seeded.one_of(&["", "+", "-"]);
        literal += &seeded.below(400).to_string();
    }
    literal
}

fn value(seeded: &mut Seeded) -> String {
    match seeded.below(8) {
        0 | 1 => format!("{}{}i", seeded.one_of(&["", "", "-"]), digits(seeded)),
        2 => format!("{}u", digits(seeded)),
        3 => literal(seeded),
        4 => String::from(seeded.one_of(&[
            "t", "T", "true", "True", "TRUE", "f", "F", "false", "False", "FALSE",
        ])),
        5 => format!("\"{}\"", tokens(seeded, 6)),
        6 => format!(
            "\"{}\"",
            seeded.one_of(&[
                "",
                "\\\"",
                "\\\\",
                "plain",
                "a b",
                "two\nlines",
                "a,b=c",
                "\\\\\\\"",
                "a\\b"
            ])
        ),
        _ => tokens(seeded, 2),
    }
}

fn line(seeded: &mut Seeded) -> String {
    let mut line = String::from(seeded.one_of(&["", "", "", "", " ", "\t", "# c\n", "#\\\n"]));
    let measurement = name(seeded);
    line += &spelled(seeded, &measurement);
    let most = if seeded.once_in(10) { 12 } else { 4 };
    for _ in 0..seeded.below(most) {
        let (key, value) = (name(seeded), name(seeded));
        line += &format!(",{}={}", spelled(seeded, &key), spelled(seeded, &value));
    }
    line += seeded.one_of(&[" ", " ", " ", " ", "  ", ""]);
    let most = if seeded.once_in(10) { 9 } else { 3 };
    for place in 0..1 + seeded.below(most) {
        let key = name(seeded);
        line += if place == 0 { "" } else { "," };
        line += &format!("{}={}", spelled(seeded, &key), value(seeded));
    }
    line += seeded.one_of(&["", "", "", "", "", "", ",", " ", "x"]);
    if seeded.once_in(2) {
        line += &format!(
            "{}{}{}",
            seeded.one_of(&[" ", " ", "  "]),
            seeded.one_of(&["", "-"]),
            digits(seeded)
        );
        line += seeded.one_of(&["", "", "", " ", "  "]);
    }
    line
}

// Takes out, puts in or doubles a few places.
fn mutated(seeded: &mut Seeded, text: &str) -> String {
    let mut letters: Vec<char> = text.chars().collect();
    for _ in 0..1 + seeded.below(3) {
        let at = seeded.below(letters.len() + 1);
        match seeded.below(3) {
            0 if at < letters.len() => drop(letters.remove(at)),
            1 if at < letters.len() => letters.insert(at, letters[at]),
            _ => letters
                .splice(at..at, seeded.one_of(TOKENS).chars())
                .for_each(drop),
        }
    }
    letters.into_iter().collect()
}

/// A text of tokens, or of lines as a writer of its own may spell them.
pub fn loose_text(seeded: &mut Seeded) -> String {
    if seeded.once_in(2) {
        return tokens(seeded, 24);
    }
    let mut text = String::new();
    for _ in 0..1 + seeded.below(4) {
        text += &line(seeded);
        text += seeded.one_of(&["\n", "\n", "\n", "\n", "\n\n", ""]);
    }
    text
}

// Lines as the crate's builder writes them, the last one with its newline or without.
fn written_text(seeded: &mut Seeded) -> String {
    let mut text = String::new();
    for _ in 0..1 + seeded.below(3) {
        let built = calls::calls(seeded, admitted_name).built;
        text += std::str::from_utf8(&built).expect("the crate writes text");
    }
    if seeded.once_in(2) {
        text.pop();
    }
    text
}

// A text of a few lines. Half of the texts are as the crate's builder writes them.
fn short_text(seeded: &mut Seeded) -> String {
    match seeded.below(8) {
        0 => {
            let text = loose_text(seeded);
            mutated(seeded, &text)
        }
        1 | 2 => {
            let text = written_text(seeded);
            mutated(seeded, &text)
        }
        3 => loose_text(seeded),
        _ => written_text(seeded),
    }
}

/// A text of a few lines, or rarely of so many that they fill more than a block of a relay.
pub fn text(seeded: &mut Seeded) -> String {
    if seeded.once_in(1000) {
        return (0..300).map(|_| short_text(seeded) + "\n").collect();
    }
    short_text(seeded)
}
