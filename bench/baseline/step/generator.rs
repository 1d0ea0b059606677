//! A policy, and scripts of any size for it.
use std::fmt::Write;

pub const POLICY: &str = "Policy: /bin/gen, Emulation: native
native-fsread: filename match \"/pub/*\" then permit
native-fsread: true then deny[eacces]
";

/// A script of four threads, each of which asks for access to this many files.
pub fn script(number: u32) -> String {
    let mut text = String::from("dir \"/pub\" 0 0 755\ndir \"/sec\" 0 0 755\n");
    // Writing to a String does not fail.
    for file in 0..5 {
        let _ = writeln!(text, "file \"/pub/f{file}\" 0 0 644 \"x\"");
    }
    text.push_str("process g traced \"/bin/gen\" 1000 1000 \"/\"\n");
    for thread in 1..=4 {
        let _ = writeln!(text, "thread t{thread} in g");
        let at = 64 * thread;
        for turn in 0..number {
            let dir = if (turn + thread) % 3 == 0 { "sec" } else { "pub" };
            let file = (7 * turn + thread) % 10;
            let _ = writeln!(text, "put {at} \"/{dir}/f{file}\"\ncall access {at} 4");
        }
        text.push_str("end\n");
    }
    text
}
