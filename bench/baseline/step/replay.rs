//! A printed trace: which of its lines are in the grammar, and who moved by each of them.
use crate::calls::{Call, Errno, Rule};

/// Who made the step that a line is of.
pub enum Mover {
    Thread(u32),
    Worker(u32),
    /// The worker that is at the message of this number.
    WorkerAt(u16),
    Operator,
}

/// The lines of a trace. The last one may lack its newline.
pub fn lines(trace: &[u8]) -> impl Iterator<Item = &[u8]> {
    let lines = trace.strip_suffix(b"\n").unwrap_or(trace);
    let count = if trace.is_empty() { 0 } else { usize::MAX };
    lines.split(|&byte| byte == b'\n').take(count)
}

/// Who made the step of a line, if it is one in its one spelling.
pub fn mover(line: &[u8]) -> Option<Mover> {
    let mut line = Line(line);
    let mover = line.entry()?;
    line.0.is_empty().then_some(mover)
}

/// What is left of a line that is read from the left. Whoever reads a part of it gives none where the line has something else.
struct Line<'a>(&'a [u8]);

impl<'a> Line<'a> {
    /// Whether this text was next.
    fn has(&mut self, text: &str) -> bool {
        let rest = self.0.strip_prefix(text.as_bytes());
        self.0 = rest.unwrap_or(self.0);
        rest.is_some()
    }

    fn text(&mut self, text: &str) -> Option<()> {
        self.has(text).then_some(())
    }

    fn word(&mut self) -> Option<&'a str> {
        let len = self.0.iter().position(|byte| b" ,".contains(byte)).unwrap_or(self.0.len());
        let (word, rest) = self.0.split_at(len);
        self.0 = rest;
        std::str::from_utf8(word).ok()
    }

    /// A blank and a word.
    fn next(&mut self) -> Option<&'a str> {
        self.text(" ")?;
        self.word()
    }

    /// A blank and a number in the only way in which it is printed.
    fn number<N: std::str::FromStr + ToString>(&mut self) -> Option<N> {
        let word = self.next()?;
        word.parse().ok().filter(|number: &N| number.to_string() == word)
    }

    fn numbers<N: std::str::FromStr + ToString>(&mut self, count: usize) -> Option<()> {
        (0..count).try_for_each(|_| self.number::<N>().map(drop))
    }

    fn octal(&mut self) -> Option<()> {
        let word = self.next()?;
        let mode = u32::from_str_radix(word, 8).ok()?;
        (format!("{mode:o}") == word).then_some(())
    }

    /// A blank and bytes: pairs of hexadecimal digits, or a dash for none.
    fn bytes(&mut self) -> Option<()> {
        let word = self.next()?;
        let is_digit = |byte: u8| byte.is_ascii_digit() || (b'a'..=b'f').contains(&byte);
        let are_digits = !word.is_empty() && word.len() % 2 == 0 && word.bytes().all(is_digit);
        (word == "-" || are_digits).then_some(())
    }

    /// A blank and a quoted text, in which each byte stands as it is printed.
    fn quoted(&mut self) -> Option<()> {
        self.text(" \"")?;
        while !self.has("\"") {
            let (&byte, rest) = self.0.split_first()?;
            self.0 = rest;
            match byte {
                b'\\' => self.escape()?,
                b'$' => return None,
                0x20..=0x7e => {}
                _ => return None,
            }
        }
        Some(())
    }

    /// What follows a backslash.
    fn escape(&mut self) -> Option<()> {
        if self.has("\"") || self.has("\\") {
            return Some(());
        }
        self.text("x")?;
        let digits = std::str::from_utf8(self.0.get(..2)?).ok()?;
        self.0 = &self.0[2..];
        let byte = u8::from_str_radix(digits, 16).ok()?;
        let is_escaped = byte == b'$' || !(0x20..=0x7e).contains(&byte);
        (byte != 0 && is_escaped && format!("{byte:02x}") == digits).then_some(())
    }

    fn call(&mut self) -> Option<()> {
        Call::of(self.next()?)?;
        self.numbers::<u64>(6)
    }

    fn errno(&mut self) -> Option<()> {
        Errno::of(self.next()?).map(drop)
    }

    fn ids(&mut self) -> Option<()> {
        self.text(" ids")?;
        self.numbers::<u32>(4)
    }

    fn args(&mut self) -> Option<()> {
        while self.has(" arg") {
            self.next().filter(|label| !label.is_empty())?;
            self.number::<u32>()?;
            self.quoted()?;
        }
        Some(())
    }

    fn changes(&mut self) -> Option<()> {
        while self.has(", ") {
            self.change()?;
        }
        Some(())
    }

    fn change(&mut self) -> Option<()> {
        match self.word()? {
            "made" => {
                self.quoted()?;
                self.number::<u32>()?;
                matches!(self.next()?, "dir" | "file" | "link").then_some(())?;
                self.numbers::<u32>(2)?;
                self.octal()?;
                self.quoted()
            }
            "linked" | "execed" => {
                self.quoted()?;
                self.number::<u32>().map(drop)
            }
            "removed" | "cwd" | "policy" => self.quoted(),
            "renamed" => {
                self.quoted()?;
                self.quoted()
            }
            "written" | "put" => {
                self.numbers::<u32>(2)?;
                self.bytes()
            }
            "cut" => self.numbers::<u32>(2),
            "moded" => {
                self.number::<u32>()?;
                self.octal()
            }
            "owned" | "forked" => self.numbers::<u32>(3),
            "setids" => self.numbers::<u32>(4),
            "dying" => self.number::<u32>().map(drop),
            "renewed" => self.numbers::<u16>(2),
            _ => None,
        }
    }

    fn entry(&mut self) -> Option<Mover> {
        match self.word()? {
            "claimed" => {
                let worker = self.number()?;
                self.number::<u16>()?;
                Some(Mover::Worker(worker))
            }
            "answered" => self.answered().map(Mover::Worker),
            kind @ ("copied" | "looked" | "faulted") => self.work(kind).map(Mover::WorkerAt),
            "replied" => {
                self.number::<u16>()?;
                self.numbers::<u32>(2)?;
                Some(Mover::Operator)
            }
            "learned" => {
                self.number::<u16>()?;
                self.number::<u32>()?;
                Some(Mover::Operator)
            }
            kind => {
                let tid = self.number()?;
                self.step(kind)?;
                Some(Mover::Thread(tid))
            }
        }
    }

    /// A step of a thread, after its number.
    fn step(&mut self, kind: &str) -> Option<()> {
        match kind {
            "stored" => {
                self.number::<u32>()?;
                self.number::<u64>().map(drop)
            }
            "entered" => {
                self.call()?;
                match self.next()? {
                    "fast" | "untraced" => Some(()),
                    "barred" => self.number::<u32>().map(drop),
                    "held" => self.number::<u16>().map(drop),
                    _ => None,
                }
            }
            "used" => {
                self.q()?;
                self.call()?;
                self.ids()?;
                self.args()?;
                self.text(" =")?;
                self.result()?;
                self.changes()
            }
            "denied" => {
                self.q()?;
                self.errno()?;
                match self.next()? {
                    "filter" => self.number::<u32>().map(drop),
                    "nofilter" | "fault" => Some(()),
                    "link" => self.quoted(),
                    _ => None,
                }
            }
            "ended" => Some(()),
            "reloaded" => {
                self.number::<u32>()?;
                match self.next()? {
                    "done" => self.changes(),
                    "refused" => Some(()),
                    _ => None,
                }
            }
            _ => None,
        }
    }

    /// The number of a message, or a dash.
    fn q(&mut self) -> Option<()> {
        if self.has(" -") { Some(()) } else { self.number::<u16>().map(drop) }
    }

    fn result(&mut self) -> Option<()> {
        match self.0.get(1)? {
            b'E' => self.errno(),
            _ => self.number::<u64>().map(drop),
        }
    }

    /// A step of a worker at the message of the number that is given.
    fn work(&mut self, kind: &str) -> Option<u16> {
        let seq = self.number()?;
        match kind {
            "copied" => {
                self.numbers::<u32>(2)?;
                self.number::<u64>()?;
            }
            "looked" => {
                self.number::<u32>()?;
                self.quoted()?;
                match self.next()? {
                    "missing" | "notdir" | "dir" | "file" => {}
                    "link" => self.quoted()?,
                    _ => return None,
                }
            }
            _ => self.errno()?,
        }
        Some(seq)
    }

    fn answered(&mut self) -> Option<u32> {
        let worker = self.number()?;
        self.number::<u16>()?;
        self.text(" pid")?;
        self.number::<u32>()?;
        self.ids()?;
        self.text(" policy")?;
        self.quoted()?;
        if self.has(" version") {
            self.number::<u32>().filter(|version| *version > 0)?;
        }
        self.text(" rule native-")?;
        Rule::of(self.word()?)?;
        self.call()?;
        self.args()?;
        self.verdict()?;
        matches!(self.next()?, "applied" | "stale").then_some(worker)
    }

    fn verdict(&mut self) -> Option<()> {
        match self.next()? {
            "permit" => {
                self.number::<u32>()?;
                self.ids()
            }
            "refuse" => {
                self.number::<u32>()?;
                self.errno()
            }
            "unmatched" => Some(()),
            _ => None,
        }
    }
}
