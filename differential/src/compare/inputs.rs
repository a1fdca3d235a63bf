//! Texts to compare on: all short ones over an alphabet, and random ones.

use crate::random::Random;

/// Bytes that tell rules of numbers, lines and fields apart.
pub const TELLING: [u8; 18] = [
    b'0', b'1', b'7', b'9', b'+', b'-', b' ', 9, 10, 11, 13, b'/', b':', b'a', 0, 28, 31, 127,
];

/// A smaller alphabet, for texts of lines.
const LINES: [u8; 11] = [b'0', b'1', b'9', b'+', b' ', 9, 10, 11, 13, 28, b'a'];

/// The smallest one, for longer texts of lines. All its bytes are in `LINES`.
const FEW: [u8; 6] = [b'0', b'1', b'+', b' ', 10, 13];

/// Numbers far from a small circuit's: 2^64 + 2 wraps to 2, and 2^65 + 4 to 4.
const WILD_NUMBERS: [&str; 14] = [
    "8",
    "9",
    "4294967298",
    "9223372036854775807",
    "9223372036854775808",
    "18446744073709551614",
    "18446744073709551615",
    "18446744073709551616",
    "18446744073709551618",
    "36893488147419103236",
    "02",
    "000000000000000000000000000000000000000002",
    "+0000000000000000000004",
    "-2",
];

/// Calls `each` with a circuit's text in which one digit after the header is a wild number.
pub fn wild_literals(whole: &[u8], mut each: impl FnMut(&[u8])) {
    let whole = std::str::from_utf8(whole).expect("ASCII");
    for (place, _) in whole.match_indices(|byte: char| byte.is_ascii_digit()) {
        // The header's counts are tried elsewhere.
        if whole[..place].contains('\n') {
            for number in WILD_NUMBERS {
                each(
                    [&whole[..place], number, &whole[place + 1..]]
                        .concat()
                        .as_bytes(),
                );
            }
        }
    }
}

/// Calls `each` with a text with each byte inserted and put in at each place, cut off before and
/// after each place, and with each byte left out.
pub fn each_byte(whole: &[u8], mut each: impl FnMut(&[u8])) {
    for place in 0..=whole.len() {
        for byte in 0..=255 {
            let mut longer = whole.to_vec();
            longer.insert(place, byte);
            each(&longer);
            if place < whole.len() {
                let mut changed = whole.to_vec();
                changed[place] = byte;
                each(&changed);
            }
        }
        each(&whole[..place]);
        each(&whole[place..]);
        if place < whole.len() {
            let mut shorter = whole.to_vec();
            shorter.remove(place);
            each(&shorter);
        }
    }
}

/// Calls `each` with all texts over an alphabet of at most so many bytes.
pub fn all_texts(alphabet: &[u8], longest: usize, each: impl FnMut(&[u8])) {
    all_lists(alphabet, longest, each);
}

/// Calls `each` with all lists of at most so many of the given items.
pub fn all_lists<T: Copy>(items: &[T], longest: usize, mut each: impl FnMut(&[T])) {
    let mut list = Vec::with_capacity(longest);
    extend_all(items, longest, &mut list, &mut each);
}

/// Calls `each` with all lists of so many of the given items.
pub fn all_words<T: Copy>(items: &[T], length: usize, mut each: impl FnMut(&[T])) {
    all_lists(items, length, |list| {
        if list.len() == length {
            each(list);
        }
    });
}

fn extend_all<T: Copy>(items: &[T], left: usize, list: &mut Vec<T>, each: &mut impl FnMut(&[T])) {
    each(list);
    if left == 0 {
        return;
    }
    for &item in items {
        list.push(item);
        extend_all(items, left - 1, list, each);
        list.pop();
    }
}

/// The short texts that every group of line readers uses, each once: of up to 5 bytes over a small
/// alphabet, of 6 and 7 over the smallest, and of up to 4 telling bytes.
pub fn all_line_texts(mut each: impl FnMut(&[u8])) {
    all_texts(&LINES, 5, &mut each);
    all_texts(&FEW, 7, |text| {
        if text.len() > 5 {
            each(text);
        }
    });
    all_texts(&TELLING, 4, |text| {
        if text.iter().any(|byte| !LINES.contains(byte)) {
            each(text);
        }
    });
}

/// The form with the digits of a number, in a base of at most 10, in the places of `#`.
pub fn filled(form: &str, number: u64, base: u64) -> String {
    let mut rest = number;
    form.chars()
        .map(|byte| match byte {
            '#' => {
                let digit = (b'0' + (rest % base) as u8) as char;
                rest /= base;
                digit
            }
            other => other,
        })
        .collect()
}

/// The text as a `str`, where it is one that the published readers can meet.
pub fn ascii(text: &[u8]) -> Option<&str> {
    if text.is_ascii() {
        std::str::from_utf8(text).ok()
    } else {
        None
    }
}

/// A number as texts have it, or nearly: plus signs, leading zeros, up to 60 digits, seldom more.
pub fn random_number(random: &mut Random) -> Vec<u8> {
    let mut number = Vec::new();
    if random.once_in(3) {
        number.push(b'+');
    }
    if random.once_in(2) {
        let zeros = if random.once_in(500) { 5_000 } else { 40 };
        number.resize(number.len() + random.below(zeros), b'0');
    }
    if random.once_in(3) {
        number.extend(random.wide().to_string().bytes());
    } else {
        for _ in 0..random.below(22) {
            number.push(b'0' + random.below(10) as u8);
        }
    }
    if random.once_in(8) {
        damage(random, &mut number);
    }
    number
}

/// Lines of fields, each line ended by byte 10, often with other blanks around; seldom many lines.
pub fn random_text(random: &mut Random) -> Vec<u8> {
    let mut text = Vec::new();
    let lines = if random.once_in(1_000) { 3_000 } else { 9 };
    for _ in 0..random.below(lines) {
        random_line(random, &mut text);
        text.push(10);
    }
    if random.once_in(4) {
        text.pop();
    }
    if random.once_in(2) {
        for _ in 0..=random.below(4) {
            damage(random, &mut text);
        }
    }
    text
}

/// Mostly one field, so that most lines hold a literal.
fn random_line(random: &mut Random, text: &mut Vec<u8>) {
    let fields = random.choose(&[0, 1, 1, 1, 1, 1, 2, 3]);
    for field in 0..fields {
        if field > 0 || random.once_in(6) {
            random_blanks(random, text);
        }
        if random.once_in(3) {
            text.extend(random_number(random));
        } else {
            text.extend(random.below(2_000).to_string().bytes());
        }
    }
    if random.once_in(6) {
        random_blanks(random, text);
    }
}

pub fn random_blanks(random: &mut Random, text: &mut Vec<u8>) {
    for _ in 0..=random.below(3) {
        text.push(random.choose(&[b' ', b' ', b' ', 9, 11, 12, 13]));
    }
}

/// Changes, adds or removes one byte, or cuts the rest off.
pub fn damage(random: &mut Random, text: &mut Vec<u8>) {
    let place = random.below(text.len() + 1);
    let byte = random_byte(random);
    match random.below(8) {
        0 => text.truncate(place),
        1 | 2 if place < text.len() => {
            text.remove(place);
        }
        3..=5 if place < text.len() => text[place] = byte,
        _ => text.insert(place, byte),
    }
}

/// A telling byte mostly, at times any byte below 128, seldom any byte.
fn random_byte(random: &mut Random) -> u8 {
    match random.below(16) {
        0 => random.below(256) as u8,
        1..=3 => random.below(128) as u8,
        _ => random.choose(&TELLING),
    }
}
