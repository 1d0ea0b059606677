//! The texts that a run is printed as, written while it goes.
use crate::calls::{self, Arg, Call, Errno, Ids, Regs, Rule};
use crate::policy::{Filter, Verdict};
use crate::system::Change;
use crate::tokens::{Quoted, is_word};
use crate::tree::Seen;
use std::collections::HashMap;
use std::fmt::{self, Display, Formatter, Write};

const MOST_IN_A_LINE: u32 = 1_000_000;

#[derive(Clone, Copy, PartialEq, Eq)]
pub enum PrintKind {
    Audit,
    Trace,
    Schedule,
    Policy,
    Summary,
}

#[derive(Clone, Copy, PartialEq, Eq)]
pub enum Choice {
    Thread(usize),
    Worker(usize),
    Operator,
}

/// How a call went on.
#[derive(Clone, Copy)]
pub enum Way {
    Fast,
    Barred(Errno),
    Held(u64),
    Untraced,
}

pub enum Entry<'a> {
    Stored { tid: usize, place: u64, word: u64 },
    Entered { tid: usize, call: Call, regs: &'a Regs, way: Way, number: u16 },
    Claimed { worker: usize, seq: u16 },
    Copied { seq: u16, part: usize, place: u64, word: u64 },
    Looked { seq: u16, part: usize, name: &'a [u8], seen: &'a Seen<'a> },
    Faulted { seq: u16, errno: Errno },
    Answered { worker: usize, seq: u16, judged: &'a Judged<'a>, verdict: Verdict, applied: bool },
    Replied { seq: u16, reply: usize, number: usize },
    Learned { seq: u16, number: usize },
    Used { tid: usize, seq: Option<u16>, used: &'a Used<'a> },
    Denied { tid: usize, seq: Option<u16>, errno: Errno, cause: Cause<'a> },
    Ended { tid: usize },
    Reloaded { tid: usize, policy: usize, done: bool, changes: &'a [Change] },
}

pub struct Judged<'a> {
    pub pid: usize,
    pub ids: Ids,
    pub policy: &'a [u8],
    pub version: usize,
    pub rule: Rule,
    pub call: Call,
    pub regs: &'a Regs,
    pub args: &'a [Arg],
}

pub struct Used<'a> {
    pub call: Call,
    pub regs: &'a Regs,
    pub ids: Ids,
    pub args: &'a [Arg],
    pub result: Result<u64, Errno>,
    pub changes: &'a [Change],
}

#[derive(Clone, Copy)]
pub enum Cause<'a> {
    Filter(usize),
    NoFilter,
    Fault,
    Link(&'a [u8]),
}

/// A line of the audit.
pub struct Audit<'a> {
    pub pid: usize,
    pub tid: usize,
    pub policy: &'a [u8],
    pub rule: Rule,
    pub args: &'a [Arg],
    pub how: How<'a>,
    pub result: Result<u64, Errno>,
    pub log: bool,
}

pub enum How<'a> {
    Fast,
    Barred,
    Permit { number: usize, granted: Option<Ids> },
    Denied(Cause<'a>),
}

/// How many entries there are, of the kinds that are counted.
#[derive(Default)]
struct Counts {
    entries: u64,
    calls: u64,
    used: u64,
    failed: u64,
    denied: u64,
}

impl Counts {
    fn count(&mut self, entry: &Entry) {
        self.entries += 1;
        match entry {
            Entry::Entered { .. } => self.calls += 1,
            Entry::Denied { .. } => self.denied += 1,
            Entry::Used { used, .. } => {
                self.used += 1;
                self.failed += u64::from(used.result.is_err());
            }
            _ => {}
        }
    }
}

impl Display for Counts {
    fn fmt(&self, f: &mut Formatter) -> fmt::Result {
        let Counts { entries, calls, used, failed, denied } = self;
        write!(f, "calls {calls} used {used} failed {failed} denied {denied} entries {entries}")
    }
}

/// The text of a policy.
struct PolicyText {
    header: String,
    /// The filters in force.
    filters: String,
    /// Those that were added since the start.
    session: String,
}

pub struct Printer {
    kind: PrintKind,
    linux: bool,
    text: String,
    counts: Counts,
    /// The last choices, which were the same.
    run: Option<(Choice, u32)>,
    /// The texts of policies, and where that of each number stands among them.
    policies: Vec<PolicyText>,
    places: HashMap<usize, usize>,
}

impl Printer {
    pub fn new(kind: PrintKind, linux: bool) -> Printer {
        Printer {
            kind,
            linux,
            text: String::new(),
            counts: Counts::default(),
            run: None,
            policies: Vec::new(),
            places: HashMap::new(),
        }
    }

    /// What was written since the last call.
    pub fn take_text(&mut self) -> String {
        std::mem::take(&mut self.text)
    }

    fn line(&mut self, line: impl Display) {
        // Writing to a String does not fail.
        let _ = writeln!(self.text, "{line}");
    }

    pub fn entry(&mut self, entry: Entry) {
        match self.kind {
            PrintKind::Trace => self.line(entry),
            PrintKind::Summary => self.counts.count(&entry),
            _ => {}
        }
    }

    pub fn audit(&mut self, audit: Audit) {
        if self.kind == PrintKind::Audit {
            self.line(AuditLine(audit, self.linux));
        }
    }

    pub fn choice(&mut self, choice: Choice) {
        if self.kind != PrintKind::Schedule {
            return;
        }
        match &mut self.run {
            Some((last, count)) if *last == choice && *count < MOST_IN_A_LINE => *count += 1,
            _ => {
                self.end_run();
                self.run = Some((choice, 1));
            }
        }
    }

    /// A policy that is printed, unless it is already.
    pub fn policy(&mut self, number: usize, binary: &[u8]) {
        if self.kind == PrintKind::Policy && !self.places.contains_key(&number) {
            self.places.insert(number, self.policies.len());
            let header = format!("Policy: {}, Emulation: {}\n", Binary(binary), calls::emulation(self.linux));
            self.policies.push(PolicyText { header, filters: String::new(), session: String::new() });
        }
    }

    fn text(&mut self, policy: usize) -> Option<&mut PolicyText> {
        self.places.get(&policy).map(|&place| &mut self.policies[place])
    }

    /// The next filter that was read of a policy that is printed.
    pub fn filter(&mut self, policy: usize, name: &str, filter: &Filter) {
        let emulation = calls::emulation(self.linux);
        if let Some(text) = self.text(policy) {
            let _ = writeln!(text.filters, "{emulation}-{name}: {filter}");
        }
    }

    /// A filter is added to a policy that is printed.
    pub fn session_filter(&mut self, policy: usize, name: &str, filter: &Filter) {
        let emulation = calls::emulation(self.linux);
        if let Some(text) = self.text(policy) {
            let _ = writeln!(text.session, "{emulation}-{name}: {filter}");
        }
    }

    /// These filters are in force now.
    pub fn reload(&mut self, policy: usize, binary: &[u8], filters: &str) {
        self.policy(policy, binary);
        if let Some(text) = self.text(policy) {
            filters.clone_into(&mut text.filters);
        }
    }

    fn end_run(&mut self) {
        if let Some((choice, count)) = self.run.take() {
            let count = if count > 1 { format!(" {count}") } else { String::new() };
            match choice {
                Choice::Thread(tid) => self.line(format_args!("thread {}{count}", tid + 1)),
                Choice::Worker(worker) => self.line(format_args!("worker {}{count}", worker + 1)),
                Choice::Operator => self.line(format_args!("operator{count}")),
            }
        }
    }

    pub fn finish(mut self) -> String {
        self.end_run();
        if self.kind == PrintKind::Summary {
            let counts = std::mem::take(&mut self.counts);
            self.line(counts);
        }
        for PolicyText { header, filters, session } in self.policies {
            self.text.extend([header, filters, session]);
        }
        self.text
    }
}

/// A binary in a header, which is a word where it can be.
struct Binary<'a>(&'a [u8]);

impl Display for Binary<'_> {
    fn fmt(&self, f: &mut Formatter) -> fmt::Result {
        match std::str::from_utf8(self.0) {
            Ok(word) if is_word(self.0) => f.write_str(word),
            _ => Quoted(self.0).fmt(f),
        }
    }
}

struct CallLine<'a>(Call, &'a Regs);

impl Display for CallLine<'_> {
    fn fmt(&self, f: &mut Formatter) -> fmt::Result {
        let [a, b, c, d, e, g] = self.1;
        write!(f, "{} {a} {b} {c} {d} {e} {g}", self.0)
    }
}

struct Args<'a>(&'a [Arg]);

impl Display for Args<'_> {
    fn fmt(&self, f: &mut Formatter) -> fmt::Result {
        self.0.iter().try_for_each(|arg| write!(f, " arg {} {} {}", arg.label, arg.index, Quoted(&arg.text)))
    }
}

struct Hex<'a>(&'a [u8]);

impl Display for Hex<'_> {
    fn fmt(&self, f: &mut Formatter) -> fmt::Result {
        if self.0.is_empty() {
            return f.write_str("-");
        }
        const DIGITS: &[u8; 16] = b"0123456789abcdef";
        let digits = |byte: &u8| [DIGITS[usize::from(byte >> 4)], DIGITS[usize::from(byte & 15)]];
        let text: Vec<u8> = self.0.iter().flat_map(digits).collect();
        f.write_str(std::str::from_utf8(&text).map_err(|_| fmt::Error)?)
    }
}

struct Seq(Option<u16>);

impl Display for Seq {
    fn fmt(&self, f: &mut Formatter) -> fmt::Result {
        match self.0 {
            Some(seq) => seq.fmt(f),
            None => f.write_str("-"),
        }
    }
}

struct Outcome(Result<u64, Errno>);

impl Display for Outcome {
    fn fmt(&self, f: &mut Formatter) -> fmt::Result {
        match self.0 {
            Ok(value) => value.fmt(f),
            Err(errno) => errno.fmt(f),
        }
    }
}

/// How a call went on, with the number of its message if it is held.
struct WayLine(Way, u16);

impl Display for WayLine {
    fn fmt(&self, f: &mut Formatter) -> fmt::Result {
        match self.0 {
            Way::Fast => f.write_str("fast"),
            Way::Barred(_) => f.write_str("barred 1"),
            Way::Held(_) => write!(f, "held {}", self.1),
            Way::Untraced => f.write_str("untraced"),
        }
    }
}

impl Display for Seen<'_> {
    fn fmt(&self, f: &mut Formatter) -> fmt::Result {
        match self {
            Seen::Missing => f.write_str("missing"),
            Seen::NotDir => f.write_str("notdir"),
            Seen::Dir => f.write_str("dir"),
            Seen::File => f.write_str("file"),
            Seen::Link(target) => write!(f, "link {}", Quoted(target)),
        }
    }
}

impl Display for Verdict {
    fn fmt(&self, f: &mut Formatter) -> fmt::Result {
        match self {
            Verdict::Permit(number, ids) => write!(f, "permit {number} ids {ids}"),
            Verdict::Refuse(number, errno) => write!(f, "refuse {number} {errno}"),
            Verdict::Unmatched => f.write_str("unmatched"),
        }
    }
}

impl Display for Entry<'_> {
    fn fmt(&self, f: &mut Formatter) -> fmt::Result {
        match self {
            Entry::Stored { tid, place, word } => write!(f, "stored {} {place} {word}", tid + 1),
            Entry::Entered { tid, call, regs, way, number } => {
                write!(f, "entered {} {} {}", tid + 1, CallLine(*call, regs), WayLine(*way, *number))
            }
            Entry::Claimed { worker, seq } => write!(f, "claimed {} {seq}", worker + 1),
            Entry::Copied { seq, part, place, word } => write!(f, "copied {seq} {part} {place} {word}"),
            Entry::Looked { seq, part, name, seen } => write!(f, "looked {seq} {part} {} {seen}", Quoted(name)),
            Entry::Faulted { seq, errno } => write!(f, "faulted {seq} {errno}"),
            Entry::Answered { worker, seq, judged, verdict, applied } => {
                let applied = if *applied { "applied" } else { "stale" };
                write!(f, "answered {} {seq} {judged} {verdict} {applied}", worker + 1)
            }
            Entry::Replied { seq, reply, number } => write!(f, "replied {seq} {reply} {number}"),
            Entry::Learned { seq, number } => write!(f, "learned {seq} {number}"),
            Entry::Used { tid, seq, used } => write!(f, "used {} {} {used}", tid + 1, Seq(*seq)),
            Entry::Denied { tid, seq, errno, cause } => {
                write!(f, "denied {} {} {errno} ", tid + 1, Seq(*seq))?;
                match cause {
                    Cause::Filter(number) => write!(f, "filter {number}"),
                    Cause::NoFilter => f.write_str("nofilter"),
                    Cause::Fault => f.write_str("fault"),
                    Cause::Link(name) => write!(f, "link {}", Quoted(name)),
                }
            }
            Entry::Ended { tid } => write!(f, "ended {}", tid + 1),
            Entry::Reloaded { tid, policy, done, changes } => {
                let done = if *done { "done" } else { "refused" };
                write!(f, "reloaded {} {} {done}", tid + 1, policy + 1)?;
                changes.iter().try_for_each(|change| write!(f, ", {change}"))
            }
        }
    }
}

impl Display for Judged<'_> {
    fn fmt(&self, f: &mut Formatter) -> fmt::Result {
        let (policy, rule, line) = (Quoted(self.policy), self.rule.name(), CallLine(self.call, self.regs));
        write!(f, "pid {} ids {} policy {policy}", self.pid + 1, self.ids)?;
        if self.version > 0 {
            write!(f, " version {}", self.version)?;
        }
        write!(f, " rule native-{rule} {line}{}", Args(self.args))
    }
}

impl Display for Used<'_> {
    fn fmt(&self, f: &mut Formatter) -> fmt::Result {
        let line = CallLine(self.call, self.regs);
        write!(f, "{line} ids {}{} = {}", self.ids, Args(self.args), Outcome(self.result))?;
        self.changes.iter().try_for_each(|change| write!(f, ", {change}"))
    }
}

impl Display for Change {
    fn fmt(&self, f: &mut Formatter) -> fmt::Result {
        match self {
            Change::Made { name, object, kind, ids, mode, target } => {
                let (name, target) = (Quoted(name), Quoted(target));
                write!(f, "made {name} {} {kind} {} {} {mode:o} {target}", object + 1, ids.euid, ids.egid)
            }
            Change::Linked(name, object) => write!(f, "linked {} {}", Quoted(name), object + 1),
            Change::Removed(name) => write!(f, "removed {}", Quoted(name)),
            Change::Renamed(old, new) => write!(f, "renamed {} {}", Quoted(old), Quoted(new)),
            Change::Written(object, at, bytes) => write!(f, "written {} {at} {}", object + 1, Hex(bytes)),
            Change::Cut(object, len) => write!(f, "cut {} {len}", object + 1),
            Change::Moded(object, mode) => write!(f, "moded {} {mode:o}", object + 1),
            Change::Owned(object, uid, gid) => write!(f, "owned {} {uid} {gid}", object + 1),
            Change::Put(space, at, bytes) => write!(f, "put {} {at} {}", space + 1, Hex(bytes)),
            Change::Forked { pid, space, tid } => write!(f, "forked {} {} {}", pid + 1, space + 1, tid + 1),
            Change::Execed(binary, space) => write!(f, "execed {} {}", Quoted(binary), space + 1),
            Change::SetIds(ids) => write!(f, "setids {ids}"),
            Change::Cwd(name) => write!(f, "cwd {}", Quoted(name)),
            Change::Dying(pid) => write!(f, "dying {}", pid + 1),
            Change::Renewed(old, new) => write!(f, "renewed {old} {new}"),
            Change::Policy(binary) => write!(f, "policy {}", Quoted(binary)),
        }
    }
}

/// A line of the audit, and whether it is one of Linux.
struct AuditLine<'a>(Audit<'a>, bool);

impl Display for AuditLine<'_> {
    fn fmt(&self, f: &mut Formatter) -> fmt::Result {
        let AuditLine(audit, linux) = self;
        let (policy, emulation, rule) = (Quoted(audit.policy), calls::emulation(*linux), audit.rule.name());
        write!(f, "{}.{} {policy} {emulation}-{rule}", audit.pid + 1, audit.tid + 1)?;
        for arg in audit.args {
            match arg.index {
                0 => write!(f, " {}={}", arg.label, Quoted(&arg.text))?,
                index => write!(f, " {}[{index}]={}", arg.label, Quoted(&arg.text))?,
            }
        }
        match &audit.how {
            How::Fast => f.write_str(" fast")?,
            How::Barred => f.write_str(" barred#1")?,
            How::Permit { number, granted } => {
                write!(f, " permit#{number}")?;
                if let Some(ids) = granted {
                    write!(f, " as {}:{}", ids.euid, ids.egid)?;
                }
            }
            How::Denied(Cause::Filter(number)) => write!(f, " deny#{number}")?,
            How::Denied(Cause::NoFilter) => f.write_str(" nofilter")?,
            How::Denied(Cause::Fault) => f.write_str(" fault")?,
            How::Denied(Cause::Link(name)) => write!(f, " link {}", Quoted(name))?,
        }
        match audit.result {
            Err(errno) if *linux => write!(f, " = -{}", errno.linux_number())?,
            result => write!(f, " = {}", Outcome(result))?,
        }
        f.write_str(if audit.log { " log" } else { "" })
    }
}
