//! ringline's reading and printing: what the program prints for an input.

use crate::calls::Answer;
use crate::ring;
use crate::set::{Set, LARGEST};

pub const LONGEST_INPUT: usize = 32_768;

/// Everything that the program prints for the input.
pub fn ringline(input: &[u8]) -> Vec<u8> {
    match read(input) {
        Ok((set, a, b)) => printed_product(set, &a, &b),
        Err(refusal) => printed_answer(refusal),
    }
    .into_bytes()
}

type Polynomial = Vec<u16>;

/// "Tests in order: input above 32,768 bytes [...]; form of line 1 [...]; set known [...]; line 2, line 3 [...]; bytes
/// after line 3".
fn read(input: &[u8]) -> Result<(Set, Polynomial, Polynomial), Answer> {
    if input.len() > LONGEST_INPUT {
        return Err(malformed(0));
    }
    let (text, rest) = line(input, b"set=").ok_or(malformed(1))?;
    let number = decimal(text, 5).ok_or(malformed(1))?;
    let set = Set::of(number).ok_or(Answer::UNKNOWN_SET)?;
    let (text, rest) = line(rest, b"a=").ok_or(malformed(2))?;
    let a = polynomial(set, text).ok_or(malformed(2))?;
    let (text, rest) = line(rest, b"b=").ok_or(malformed(3))?;
    let b = polynomial(set, text).ok_or(malformed(3))?;
    if !rest.is_empty() {
        return Err(malformed(4));
    }
    Ok((set, a, b))
}

/// "`ringline` input malformed | line".
fn malformed(line: u64) -> Answer {
    Answer { number: 7, place: line }
}

/// "three lines, each ended by LF": the first line without its name and LF, and what comes after it.
fn line<'a>(input: &'a [u8], name: &[u8]) -> Option<(&'a [u8], &'a [u8])> {
    let end = input.iter().position(|&byte| byte == b'\n')?;
    let text = input[..end].strip_prefix(name)?;
    Some((text, &input[end + 1..]))
}

/// "no leading zeros anywhere (index 0 is `0`)". Too many digits are refused unread, so that no number runs over.
fn decimal(text: &[u8], most_digits: usize) -> Option<u64> {
    let leading_zero = text.len() > 1 && text[0] == b'0';
    if text.is_empty() || text.len() > most_digits || leading_zero {
        return None;
    }
    text.iter().try_fold(0, |number, &byte| {
        byte.is_ascii_digit().then(|| 10 * number + u64::from(byte - b'0'))
    })
}

/// "terms `index:value` joined by commas, indices strictly rising, below n, values 1..3456"; "no terms means zero".
fn polynomial(set: Set, text: &[u8]) -> Option<Polynomial> {
    let mut coefficients = vec![0; set.n];
    let mut least_index = 0;
    if text.is_empty() {
        return Some(coefficients);
    }
    for term in text.split(|&byte| byte == b',') {
        let colon = term.iter().position(|&byte| byte == b':')?;
        let index = decimal(&term[..colon], 4)? as usize;
        let value = decimal(&term[colon + 1..], 4)?;
        if index < least_index || index >= set.n || !(1..=3456).contains(&value) {
            return None;
        }
        coefficients[index] = value as u16;
        least_index = index + 1;
    }
    Some(coefficients)
}

/// "A refusal prints the lines `code=` and `place=` only."
fn printed_answer(answer: Answer) -> String {
    format!("code={}\nplace={}\n", answer.number, answer.place)
}

/// "set repeats the input; product has its nonzero terms by rising index, and is `product=` for zero".
fn printed_product(set: Set, a: &[u16], b: &[u16]) -> String {
    let mut room = [0; LARGEST];
    let product = &mut room[..set.n];
    ring::product(a, b, product);
    let nonzero = product.iter().enumerate().filter(|(_, &value)| value != 0);
    let terms: Vec<String> = nonzero.map(|(index, value)| format!("{index}:{value}")).collect();
    format!(
        "{}set={}\nproduct={}\n",
        printed_answer(Answer::DONE),
        set.n,
        terms.join(",")
    )
}

#[cfg(test)]
mod tests {
    use super::*;

    #[test]
    fn the_example_of_the_document() {
        let printed = ringline(b"set=576\na=575:1\nb=1:1\n");
        assert_eq!(printed, b"code=0\nplace=0\nset=576\nproduct=0:3456,288:1\n");
    }

    #[test]
    fn each_refusal_and_its_place() {
        for (input, code, place) in [
            (&b""[..], 7, 1),
            (b"set=576", 7, 1),
            (b"set=0576\n", 7, 1),
            (b"set=100000\n", 7, 1),
            (b"set=0\n", 1, 0),
            (b"set=5\n", 1, 0),
            (b"set=576\n", 7, 2),
            (b"set=576\na=1:1,\nb=\n", 7, 2),
            (b"set=576\na=576:1\nb=\n", 7, 2),
            (b"set=576\na=3:1,3:1\nb=\n", 7, 2),
            (b"set=576\na=1:2:3\nb=\n", 7, 2),
            (b"set=576\na=\r\nb=\n", 7, 2),
            (b"set=576\na=\nb=1:3457\n", 7, 3),
            (b"set=576\na=\nb=1:0\n", 7, 3),
            (b"set=576\na=\nb=1:1", 7, 3),
            (b"set=576\na=\nb=\n\n", 7, 4),
            (&[b'\n'; 32_769], 7, 0),
            (&[b'\n'; 32_768], 7, 1),
        ] {
            assert_eq!(ringline(input), format!("code={code}\nplace={place}\n").into_bytes());
        }
        assert_eq!(
            ringline(b"set=1152\na=\nb=5:1\n"),
            b"code=0\nplace=0\nset=1152\nproduct=\n"
        );
    }
}
