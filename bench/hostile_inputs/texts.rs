//! Changes of files, by bytes, by tokens and by lines; and an input made smaller.
use crate::cases::Case;
use crate::random::Random;
use std::ops::Range;

/// Words and signs of the formats, with a blank between two.
const TOKENS: &str = concat!(
    "Policy Emulation native linux permit deny ask then and or not true as log if user group root wheel www ",
    "match eq neq sub nsub inpath re filename string sockaddr argv uid pid native-fsread native-open native-mmap ",
    "native- linux- linux-fsread linux-open /bin/a enoent EPERM eacces thread process traced untraced in end call store put fork dir ",
    "file link reply policy reload open rename execve exit kill setuid symlink socket bind connect worker operator rest ",
    r#": , ( ) [ ] = != ! < > " "/" "" "/etc/*" "$HOME/$USER$CWD" "\x41\\\"" "\x00" "\x4" "*a*a*a*a*" "#,
    r#""[!a-c\\]]?" "/a/../b" ".." # \ ;"#
);
const NUMBERS: &str = concat!(
    "0 1 2 3 7 8 9 16 63 64 65 255 256 777 778 0777 00777 1777 1023 1024 1025 4095 4096 4097 8191 8192 ",
    "65528 65535 65536 65537 1000000 1000001 4294967295 4294967296 4294967297 9223372036854775807 ",
    "9223372036854775808 18446744073709551615 18446744073709551616 99999999999999999999999 0x 0x0 0X1 0xg ",
    "0xffffffffffffffff 0x10000000000000000 0x41 0xc1 0x241 0x441 00 007 -1 +1 1.5 1e3"
);
const BLANKS: &[&str] = &["\n", " ", "\t", "\r", "\0", "\u{e9}"];

/// Makes one to six changes of one file or two.
pub fn change(random: &mut Random, cases: &[Case], case: &mut Case) {
    if case.files.is_empty() {
        return;
    }
    for _ in 0..*random.pick(&[1, 1, 1, 2]) {
        let at = random.below(case.files.len());
        let text = &mut case.files[at].1;
        for _ in 0..*random.pick(&[1, 1, 1, 2, 3, 6]) {
            match random.below(12) {
                0..=2 => change_bytes(random, text),
                3..=7 => change_tokens(random, cases, text),
                _ => change_lines(random, cases, text),
            }
        }
    }
}

fn change_bytes(random: &mut Random, text: &mut Vec<u8>) {
    let at = random.below(text.len() + 1);
    let to = (at + random.within(1, 9)).min(text.len());
    match random.below(9) {
        0 => text.truncate(at),
        1 => drop(text.drain(..at)),
        2 => drop(text.drain(at..to)),
        3 => text.insert(at, *random.pick(b"\0\n\r\t \"\\#$xA:([])=!<>\x7f\x80\xff")),
        4 if at < text.len() => text[at] = *random.pick(b"\0\n\"\\#$/.*[]-!^\x80"),
        5 if at < text.len() => text[at] ^= 1 << random.below(8),
        6 => {
            let again = text[at..to].repeat(*random.pick(&[1, 2, 64, 256, 1024]));
            text.splice(at..at, again);
        }
        7 => text.insert(at, 0),
        _ => {
            let byte = random.next() as u8;
            text.insert(at, byte);
        }
    }
}

fn change_tokens(random: &mut Random, cases: &[Case], text: &mut Vec<u8>) {
    let tokens = tokens(text);
    if tokens.is_empty() {
        return;
    }
    let at = random.below(tokens.len());
    let token = tokens[at].clone();
    match random.below(8) {
        0 => drop(text.drain(token)),
        1 => {
            let again = [b" ", &text[token.clone()]].concat().repeat(*random.pick(&[1, 1, 2, 70]));
            text.splice(token.end..token.end, again);
        }
        2 => {
            let other = tokens[random.below(tokens.len())].clone();
            let (first, second) = if token.start < other.start { (token, other) } else { (other, token) };
            if first.end <= second.start {
                let swapped = [&text[second.clone()], &text[first.end..second.start], &text[first.clone()]].concat();
                text.splice(first.start..second.end, swapped);
            }
        }
        3 => {
            // A number in the place of a number, if there is one.
            let numbers: Vec<_> = tokens.iter().filter(|token| text[token.start].is_ascii_digit()).collect();
            let place = if numbers.is_empty() { token } else { (*random.pick(&numbers)).clone() };
            text.splice(place, random.word(NUMBERS).bytes());
        }
        4 => drop(text.splice(token, token_text(random).bytes())),
        5 => {
            let word = [b" ", token_text(random).as_bytes(), b" "].concat();
            text.splice(token.start..token.start, word);
        }
        6 => {
            let other = other_text(random, cases);
            let of_other = self::tokens(other);
            if !of_other.is_empty() {
                let taken = other[random.pick(&of_other).clone()].to_vec();
                text.splice(token, taken);
            }
        }
        _ => {
            let word = text[token.clone()].to_vec();
            let other = tokens[random.below(tokens.len())].clone();
            text.splice(other, word);
        }
    }
}

fn token_text(random: &mut Random) -> &'static str {
    if random.one_in(20) { *random.pick(BLANKS) } else { random.word(TOKENS) }
}

fn change_lines(random: &mut Random, cases: &[Case], text: &mut Vec<u8>) {
    let mut lines: Vec<Vec<u8>> = text.split_inclusive(|&byte| byte == b'\n').map(<[u8]>::to_vec).collect();
    let at = random.below(lines.len());
    match random.below(6) {
        0 if !lines.is_empty() => drop(lines.remove(at)),
        1 if !lines.is_empty() => {
            let times = *random.pick(&[1, 1, 2, 65, 300]);
            let again = vec![lines[at].clone(); times];
            lines.splice(at..at, again);
        }
        2 if !lines.is_empty() => {
            let other = random.below(lines.len());
            lines.swap(at, other);
        }
        3 => lines.truncate(at),
        4 => lines.extend_from_within(..),
        _ => {
            let other = other_text(random, cases);
            let of_other: Vec<&[u8]> = other.split_inclusive(|&byte| byte == b'\n').collect();
            if !of_other.is_empty() {
                lines.insert(at, random.pick(&of_other).to_vec());
            }
        }
    }
    *text = lines.concat();
}

/// A file of another case.
fn other_text<'a>(random: &mut Random, cases: &'a [Case]) -> &'a [u8] {
    let files = &random.pick(cases).files;
    if files.is_empty() { b"" } else { &random.pick(files).1 }
}

/// Where the tokens of a text are, roughly: words, quoted texts, and other bytes that aren't blank.
fn tokens(text: &[u8]) -> Vec<Range<usize>> {
    let is_word = |byte: u8| byte.is_ascii_alphanumeric() || b"_-./+~%".contains(&byte);
    let (mut found, mut at) = (Vec::new(), 0);
    while at < text.len() {
        let rest = &text[at..];
        let len = match rest[0] {
            b' ' | b'\t' | b'\n' => {
                at += 1;
                continue;
            }
            b'"' => {
                1 + rest[1..]
                    .iter()
                    .position(|&byte| byte == b'"' || byte == b'\n')
                    .map_or(rest.len() - 1, |end| end + 1)
            }
            byte if is_word(byte) => rest.iter().take_while(|&&byte| is_word(byte)).count(),
            _ => 1,
        };
        found.push(at..at + len);
        at += len;
    }
    found
}

/// Takes away what isn't needed for an input to differ: files, words, lines and then bytes.
pub fn shrink(mut case: Case, differs: impl Fn(&Case) -> bool) -> Case {
    for place in (0..case.words.len()).rev() {
        let mut smaller = case.clone();
        smaller.words.remove(place);
        if differs(&smaller) {
            case = smaller;
        }
    }
    for place in 0..case.files.len() {
        let by_line: Vec<Vec<u8>> =
            case.files[place].1.split_inclusive(|&byte| byte == b'\n').map(<[u8]>::to_vec).collect();
        shrink_parts(&mut case, place, by_line, &differs);
        if case.files[place].1.len() < 2000 {
            let by_byte: Vec<Vec<u8>> = case.files[place].1.iter().map(|&byte| vec![byte]).collect();
            shrink_parts(&mut case, place, by_byte, &differs);
        }
    }
    case
}

fn shrink_parts(case: &mut Case, place: usize, mut parts: Vec<Vec<u8>>, differs: &impl Fn(&Case) -> bool) {
    let mut length = parts.len();
    while length > 0 {
        let mut at = 0;
        while at < parts.len() {
            let mut fewer = parts.clone();
            fewer.drain(at..(at + length).min(parts.len()));
            let mut smaller = case.clone();
            smaller.files[place].1 = fewer.concat();
            if differs(&smaller) {
                (parts, *case) = (fewer, smaller);
            } else {
                at += length;
            }
        }
        length /= 2;
    }
}
