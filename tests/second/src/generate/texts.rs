//! Texts of lists, whole and damaged [01 §6].

use super::Rng;
use crate::row::FIELDS;
use crate::text::header;

/// A well-formed text of the list, where its numbers have at most nine digits.
pub fn text(list: &[u64], seed: u64) -> Vec<u8> {
    let mut rng = Rng::new(seed);
    let mut text = header().into_bytes();
    for numbers in list.as_chunks::<FIELDS>().0 {
        let name = if rng.chance(60) { plain_name(&mut rng) } else { quoted_name(&mut rng) };
        text.extend_from_slice(b"\r\n");
        text.extend_from_slice(&line(numbers, &name));
    }
    if rng.chance(70) {
        text.extend_from_slice(b"\r\n");
    }
    text
}

fn line(numbers: &[u64; FIELDS], name: &[u8]) -> Vec<u8> {
    let mut line = numbers[0].to_string().into_bytes();
    line.push(b',');
    line.extend_from_slice(name);
    for number in &numbers[1..] {
        line.extend_from_slice(format!(",{number}").as_bytes());
    }
    line
}

fn plain_name(rng: &mut Rng) -> Vec<u8> {
    let length = rng.pick(&[1, 2, 5, 8, 24]);
    let any = |rng: &mut Rng| match rng.between(32, 126) as u8 {
        b'"' | b',' => b'F',
        byte => byte,
    };
    (0..length).map(|_| any(rng)).collect()
}

fn quoted_name(rng: &mut Rng) -> Vec<u8> {
    let most = rng.pick(&[2, 3, 6, 12, 24]);
    let mut name = vec![b'"'];
    while name.len() + 2 < most {
        match rng.below(4) {
            0 if name.len() + 3 <= most => name.extend_from_slice(b"\"\""),
            1 => name.push(b','),
            _ => name.extend_from_slice(&plain_name(rng)[..1]),
        }
    }
    name.push(b'"');
    name
}

/// A well-formed text of exactly so many bytes, with rows of no use past 256.
pub fn sized_text(bytes: usize) -> Vec<u8> {
    let row = [1; FIELDS];
    let fixed = line(&row, b"").len() + 2;
    let left = bytes - header().len();
    let count = left.div_ceil(fixed + 24);
    let names = left - count * fixed;
    let mut text = header().into_bytes();
    for at in 0..count {
        let length = names / count + usize::from(at < names % count);
        text.extend_from_slice(b"\r\n");
        text.extend_from_slice(&line(&row, &b"N".repeat(length)));
    }
    text
}

const TELLING: &[u8] = b"\"\",,\r\n\n0019 ~F\x00\x1f\x7f\xff-+.";

/// The text with the byte at `at` replaced, doubled, dropped, or with another before it.
pub fn byte_damages(text: &[u8], at: usize) -> Vec<Vec<u8>> {
    let around = |between: &[u8], skip: usize| [&text[..at], between, &text[at + skip..]].concat();
    let mut texts = vec![around(&[], 1), around(&[text[at]], 0), text[..at].to_vec()];
    for &byte in TELLING {
        texts.push(around(&[byte], 1));
        texts.push(around(&[byte], 0));
    }
    texts
}

/// One or two kinds of damage to bytes, numbers, names or lines.
pub fn damaged_text(text: &[u8], seed: u64) -> Vec<u8> {
    let mut rng = Rng::new(seed);
    let mut text = text.to_vec();
    for _ in 0..rng.between(1, 2) {
        let damages: [&[u8]; 12] = [
            b"",
            b"\r\n",
            b"\n",
            b"\r",
            b",",
            b"\"",
            b"\"\"",
            b"0",
            b"1234567890",
            b" ",
            b"\r\n\r\n",
            b",ABCDEFGHIJKLMNOPQRSTUVWXY,",
        ];
        let put = rng.pick(&damages);
        let at = match rng.below(3) {
            0 => text.len(),
            1 => after_some(&mut rng, &text, b','),
            _ => rng.below(text.len() as u64 + 1) as usize,
        };
        let skip = rng.below(3).min((text.len() - at) as u64) as usize;
        text = [&text[..at], put, &text[at + skip..]].concat();
    }
    text
}

/// The place after one of the bytes equal to `mark`.
fn after_some(rng: &mut Rng, text: &[u8], mark: u8) -> usize {
    let places: Vec<usize> = (0..text.len()).filter(|&at| text[at] == mark).collect();
    if places.is_empty() {
        0
    } else {
        rng.pick(&places) + 1
    }
}
