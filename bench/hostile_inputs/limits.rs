//! Inputs at a limit: one below it, at it, and one above.
use crate::cases::{Case, Role};
use crate::random::Random;
use std::fmt::Write;

const MOST_BYTES: usize = 1_048_576;
const HEADER: &str = "Policy: /bin/a, Emulation: native\n";
const PROCESS: &str = "process p traced \"/bin/a\" 0 0 \"/\"\n";

/// Makes a file so long that it has the greatest length, or a byte more or less.
pub fn fill(random: &mut Random, case: &mut Case) {
    if case.files.is_empty() {
        return;
    }
    let at = random.below(case.files.len());
    let text = &mut case.files[at].1;
    let length = *random.pick(&[MOST_BYTES - 1, MOST_BYTES, MOST_BYTES + 1]);
    let lacking = length.saturating_sub(text.len());
    let byte = *random.pick(b"\n #a\"(\0");
    let end = if random.one_in(2) { text.len() } else { random.below(text.len() + 1) };
    text.splice(end..end, std::iter::repeat_n(byte, lacking));
}

/// Puts a file at a limit in the place of one of the case, or words that need no other file.
pub fn put(random: &mut Random, case: &mut Case) {
    let (role, text) = match random.below(18) {
        0 => (Role::Policy, filters(random.within(4095, 4097), random.one_in(2))),
        1..=3 => (Role::Policy, operators(random)),
        4 => (Role::Schedule, schedule(random)),
        5 => (Role::Script, rows(random)),
        6 => (Role::Script, instructions(random)),
        7 => (Role::Script, objects(random.within(4094, 4096))),
        8..=9 => (Role::Script, links(random)),
        10 => (Role::Script, forks(random)),
        11..=13 => (Role::Script, names(random)),
        14..=15 => (Role::Script, policies(random)),
        _ => (Role::Script, vector(random)),
    };
    if let Some(name) = case.name_of(role).filter(|name| !name.is_empty() && !name.contains('/') && name.len() < 20) {
        case.put(&name, text.into_bytes());
        if matches!(role, Role::Script) && random.one_in(2) {
            let policy = format!(
                "{HEADER}native-fsread: filename match \"/*\" then permit\nnative-execve: permit\nnative-fork: permit\n"
            );
            match case.name_of(Role::Policy) {
                Some(name) if name == "P" => case.put("P", policy.into_bytes()),
                _ => {}
            }
        }
    }
}

fn filters(count: usize, are_in_two: bool) -> String {
    let mut text = HEADER.to_string();
    for i in 0..count {
        if are_in_two && i == count / 2 {
            text += "Policy: /bin/b, Emulation: native\n";
        }
        let _ = writeln!(text, "native-fsread: filename eq \"/f{i}\" then permit");
    }
    text
}

/// A filter with as many operators as may be, or one more or less.
fn operators(random: &mut Random) -> String {
    let count = random.within(63, 65);
    let test = "filename eq \"/a\"";
    let expression = match random.below(6) {
        0 => format!("{}{test}", "not ".repeat(count)),
        1 => format!("{}{test}{}", "(".repeat(count), ")".repeat(count)),
        2 => format!("{test}{}", format!(" and {test}").repeat(count)),
        3 => format!("{test}{}", format!(" or {test}").repeat(count)),
        4 => format!("{}{test}{}", format!("{test} or (").repeat(count / 2), ")".repeat(count / 2)),
        _ => {
            let mut left = count;
            let mut text = test.to_string();
            while left > 0 {
                text = match random.below(4) {
                    0 => format!("not {text}"),
                    1 => format!("({text})"),
                    2 => format!("{text} and {test}"),
                    _ => format!("true or {text}"),
                };
                left -= 1;
            }
            text
        }
    };
    format!("{HEADER}native-fsread: {expression} then permit\n")
}

fn schedule(random: &mut Random) -> String {
    let who =
        *random.pick(&["thread 1", "thread 2", "worker 1", "operator", "thread 18446744073709551615", "worker 0"]);
    match random.below(4) {
        0 => format!("{who} {}\n", random.pick(&[0, 1, 999_999, 1_000_000, 1_000_001])),
        1 => format!("{who}\n").repeat(*random.pick(&[2, 10, 40_000])),
        2 => "rest\n".repeat(*random.pick(&[2, 100, 100_000])),
        _ => format!("thread 1 3\nworker 1 {}\nrest\n", random.within(1, 12)),
    }
}

/// As many threads and processes as may be.
fn rows(random: &mut Random) -> String {
    let mut text = String::new();
    let (processes, threads) = (random.within(63, 65), random.within(63, 65));
    for i in 0..processes {
        let _ = writeln!(text, "process p{i} traced \"/bin/a\" 0 0 \"/\"");
    }
    for i in 0..threads {
        let _ = writeln!(text, "thread t{i} in p{}\ncall getpid\nput 0 \"/x\"\ncall open 0\nend", i % processes);
    }
    text
}

fn instructions(random: &mut Random) -> String {
    let count = random.within(4095, 4097);
    let row = *random.pick(&["call getpid", "store 1 1", "call open 8", "call setuid 0", "call close 99"]);
    let held = if random.one_in(2) { "thread b in p\ncall open 64\nend\n" } else { "" };
    format!("{PROCESS}thread a in p\nput 64 \"/a\"\n{}end\n{held}", format!("{row}\n").repeat(count - 1))
}

/// Policies of a script with as many filters as may be, or one more or less, and reloads of them while a call is held.
fn policies(random: &mut Random) -> String {
    let count = random.within(4095, 4097);
    let first = *random.pick(&[0, 1, 2000, count - 1]);
    let filter = *random.pick(&[
        "native-fsread: filename eq \"/a\" then deny[enoent]",
        "native-fsread: permit",
        "native-fsread: ask",
        "native-mmap: permit",
        "native-fsread: true then permit, if user = 0",
    ]);
    let policy =
        |name: &str, count: usize| format!("policy {name} \"/bin/a\"\n{}end\n", format!("{filter}\n").repeat(count));
    let reloads = "reload one\nreload two\n".repeat(*random.pick(&[1, 3, 1000]));
    let root = random.within(0, 1);
    format!(
        "{}{}{PROCESS}thread a in p\nput 0 \"/a\"\ncall open 0\ncall open 0\nend\n\
         process q untraced \"/bin/adm\" {root} 0 \"/\"\nthread b in q\n{reloads}end\n",
        policy("one", first),
        policy("two", count - first)
    )
}

fn objects(count: usize) -> String {
    let mut text = PROCESS.to_string();
    for i in 0..count {
        let _ = writeln!(text, "dir \"/d{i}\" 0 0 777");
    }
    text + "thread a in p\nput 0 \"/n\"\ncall mkdir 0 511\ncall open 0 0x201 420\nend\n"
}

/// Links that lead to each other, as many as a resolution follows, and some more or fewer.
fn links(random: &mut Random) -> String {
    let count = random.within(31, 34);
    let mut text = String::new();
    let (prefix, target) =
        (*random.pick(&["/", "", "./", "/../"]), *random.pick(&["/f", "/", "/l1", "l1", "..", "missing"]));
    for i in 1..count {
        let _ = writeln!(text, "link \"/l{i}\" 0 0 \"{prefix}l{}\"", i + 1);
    }
    let _ = writeln!(text, "link \"/l{count}\" 0 0 \"{target}\"\nfile \"/f\" 0 0 644 \"f\"");
    let call = *random.pick(&[
        "open 0 0",
        "lstat 0 64",
        "stat 0 64",
        "readlink 0 64 9",
        "unlink 0",
        "open 0 0xa01 420",
        "chdir 0",
        "rename 0 0",
    ]);
    format!(
        "{text}{PROCESS}thread a in p\nput 0 \"/l1{}\"\ncall {call}\nend\n",
        random.pick(&["", "/", "/x", "/..", "/l2"])
    )
}

/// A thread that forks the next one, and so on.
fn forks(random: &mut Random) -> String {
    let count = random.within(62, 64);
    let mut text = format!("{PROCESS}thread t0 in p\nfork t1\nend\n");
    for i in 1..=count {
        let fork = if i < count { format!("fork t{}\n", i + 1) } else { String::new() };
        let _ = write!(text, "thread t{i}\n{fork}put 0 \"/x\"\ncall open 0\ncall kill {i} 9\nend\n");
    }
    text
}

/// Parts, paths, targets, contents and names as long as may be.
fn names(random: &mut Random) -> String {
    let part = "n".repeat(random.within(254, 256));
    let deep = format!("/{}", "d/".repeat(511));
    let path = format!("{deep}{}", "e".repeat(random.within(1, 3)));
    let row = match random.below(7) {
        0 => format!("dir \"/{part}\" 0 0 755\n"),
        1 => format!("link \"/k\" 0 0 \"{part}\"\n"),
        2 => format!("file \"/g\" 0 0 644 \"{}\"\n", "c".repeat(random.within(65_535, 65_537))),
        3 => format!("process q traced \"{path}\" 0 0 \"{path}\"\nthread b in q\nput 0 \"x\"\ncall open 0\nend\n"),
        4 => format!("user u 5 5 \"{}\"\n", "h".repeat(random.within(1, 3000))),
        5 => format!("dir \"{path}\" 0 0 755\n"),
        _ => String::new(),
    };
    let name = match random.below(5) {
        0 => part.clone(),
        1 => "/".repeat(random.within(1022, 1024)) + "x",
        2 => path.clone(),
        3 => format!("/{part}"),
        _ => "../".repeat(random.within(340, 342)),
    };
    let call = *random.pick(&[
        "open 0 0",
        "symlink 0 0",
        "symlink 2048 0",
        "chdir 0",
        "mkdir 0 511",
        "rename 0 2048",
        "readlink 0 2048 9",
    ]);
    format!(
        "{row}{PROCESS}thread a in p\nput 0 \"{name}\"\nput 2048 \"/k\"\ncall {call}\ncall open {} 0\nend\n",
        random.within(65_500, 65_537)
    )
}

/// An argument vector with as many parts and bytes as may be.
fn vector(random: &mut Random) -> String {
    let (count, length) = (random.within(14, 17), *random.pick(&[0, 1, 63, 64, 65, 73, 1023, 1024, 1025]));
    let mut text =
        format!("dir \"/bin\" 0 0 755\nfile \"/bin/b\" 0 0 755 \"b\"\n{PROCESS}thread a in p\nput 0 \"/bin/b\"\n");
    let _ = writeln!(text, "put 1024 \"{}\"", "v".repeat(length));
    for i in 0..count {
        let _ = writeln!(text, "store {} {}", 8 + i, random.pick(&[1024, 1024, 1024, 1025, 1030, 0, 65_535]));
    }
    let at = *random.pick(&[64, 64, 64, 65, 65_528, 65_536]);
    text + &format!("call execve 0 {at}\nput 0 \"/x\"\ncall open 0 0\nend\n")
}
