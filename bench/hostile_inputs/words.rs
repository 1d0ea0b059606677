//! Changes of the words of a command.
use crate::cases::{Case, Role};
use crate::random::Random;
use std::ffi::OsString;
use std::os::unix::ffi::OsStringExt;

/// Words with a blank between two; one is empty.
const WORDS: &str = concat!(
    "step run replay check gen -A -a -t -i -u -c -w -f --linux --print audit trace schedule policy P S C 0:0 67:67 1000:1000 ",
    "4294967295:0 4294967296:0 0: :0 0:0:0 00:1 -1:0 1 2 8 9 0 01 3 512 513  - -- -w2 --print=trace -At --help ",
    "--version nothing dir . / S/x /dev/null /dev/zero /proc/self/mem \u{e9} -\u{e9} +1 0x1"
);
const OPTIONS: &str = "-A -a -t -i -u --linux";
const OPTIONS_WITH_VALUES: [[&str; 2]; 6] =
    [["-w", "2"], ["-w", "8"], ["-c", "0:0"], ["-c", "67:67"], ["--print", "trace"], ["--print", "policy"]];

/// Makes one to three changes.
pub fn change(random: &mut Random, case: &mut Case) {
    for _ in 0..*random.pick(&[1, 1, 1, 2, 3]) {
        let count = case.words.len();
        let (at, first) = (random.below(count), count.min(1));
        match random.below(8) {
            0 if count > 0 => drop(case.words.remove(at)),
            1 if count > 0 => case.words.insert(at, case.words[at].clone()),
            2 if count > 1 => case.words.swap(at, (at + 1) % count),
            3 if count > 0 => case.words[at] = word(random),
            4 => case.words.insert(first, random.word(OPTIONS).into()),
            5 => put(case, first, &*random.pick(&OPTIONS_WITH_VALUES)),
            6 => put(case, first, &["-f", "P"].repeat(random.within(1, 9))),
            _ => {
                let word = word(random);
                case.words.insert(random.below(count + 1), word);
            }
        }
    }
}

fn put(case: &mut Case, at: usize, words: &[&str]) {
    case.words.splice(at..at, words.iter().map(OsString::from));
}

fn word(random: &mut Random) -> OsString {
    match random.below(12) {
        0 => OsString::from("n".repeat(*random.pick(&[255, 256, 4095, 4096, 5000, 100_000]))),
        1 => OsString::from_vec(vec![b'a', 0xff, b'b']),
        _ => OsString::from(random.word(WORDS)),
    }
}

/// Asks for Linux emulation: policies and scripts get the names of Linux. A trace keeps its native ones.
pub fn linux_instead(case: &mut Case) {
    case.words.insert(1, "--linux".into());
    let trace = if case.command() == "replay" { case.name_of(Role::Schedule) } else { None };
    for (name, content) in &mut case.files {
        if Some(&*name) != trace.as_ref() {
            *content = with_linux_names(content);
        }
    }
}

fn with_linux_names(mut text: &[u8]) -> Vec<u8> {
    const NATIVE: &[u8] = b"native";
    let mut made = Vec::with_capacity(text.len());
    while let Some(at) = text.windows(NATIVE.len()).position(|word| word == NATIVE) {
        made.extend([&text[..at], b"linux"].concat());
        text = &text[at + NATIVE.len()..];
    }
    made.extend(text);
    made
}

/// Makes `run` of `step`: the last word, of the schedule, is dropped.
pub fn run_instead(case: &mut Case) {
    case.words[0] = "run".into();
    case.words.pop();
}
