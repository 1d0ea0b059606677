//! Scripts and schedules.
use crate::calls::{self, Call, Regs};
use crate::kernel::Options;
use crate::operator::Mode;
use crate::policy::{self, Env, Reply, ScriptPolicy};
use crate::print::Choice;
use crate::tokens::{self, Dollars, Kind, Token, unquote};
use crate::tree::{self, MOST_BYTES, MOST_OBJECTS, Object, Tree};
use std::collections::{BTreeMap, HashMap, HashSet};

const MOST_ROWS: usize = 64;
const MOST_INSTRUCTIONS: usize = 4096;
const MOST_FILTERS: usize = 4096;
const MOST_COUNT: u64 = 1_000_000;

#[derive(Debug)]
pub struct ScriptError;

#[derive(Debug)]
pub struct ScheduleError;

type Parsed<T> = Result<T, ScriptError>;

pub struct Script {
    pub tree: Tree,
    pub processes: Vec<ProcessRow>,
    pub threads: Vec<ThreadRow>,
    pub replies: Vec<Reply>,
    pub policies: Vec<ScriptPolicy>,
    pub env: Env,
}

pub struct ProcessRow {
    pub traced: bool,
    pub binary: Vec<u8>,
    pub uid: u32,
    pub gid: u32,
    pub cwd: Vec<u8>,
}

pub struct ThreadRow {
    pub process: Option<usize>,
    pub body: Vec<Instr>,
}

#[derive(Clone, Copy)]
pub enum Instr {
    Store(u64, u64),
    Call(Call, Regs),
    Fork(usize),
    /// The place of a policy.
    Reload(usize),
}

struct UserRow {
    name: Vec<u8>,
    uid: u32,
    home: Vec<u8>,
}

struct Reader<'a> {
    users: Vec<UserRow>,
    user_names: HashMap<Vec<u8>, u32>,
    groups: HashMap<Vec<u8>, u32>,
    tree: Tree,
    objects: usize,
    process_names: HashMap<&'a [u8], usize>,
    processes: Vec<ProcessRow>,
    thread_names: HashMap<&'a [u8], usize>,
    threads: Vec<ThreadRow>,
    instructions: usize,
    /// The thread and the place of each fork, and the thread that it names.
    forks: Vec<(usize, usize, &'a [u8])>,
    replies: Vec<&'a [Token<'a>]>,
    policy_names: HashMap<&'a [u8], usize>,
    /// The binary of each policy, and its lines.
    policies: Vec<(Token<'a>, Vec<&'a [Token<'a>]>)>,
    filters: usize,
    has_reload: bool,
    inside: Inside,
    linux: bool,
}

/// Where a line is.
enum Inside {
    Nothing,
    Thread,
    Policy,
}

pub fn read_script(text: &[u8], options: &Options) -> Parsed<Script> {
    let tokens = tokens::tokens(text).map_err(|_| ScriptError)?;
    let mut reader = Reader {
        users: Vec::new(),
        user_names: HashMap::new(),
        groups: HashMap::new(),
        tree: Tree::new(),
        objects: 1,
        process_names: HashMap::new(),
        processes: Vec::new(),
        thread_names: HashMap::new(),
        threads: Vec::new(),
        instructions: 0,
        forks: Vec::new(),
        replies: Vec::new(),
        policy_names: HashMap::new(),
        policies: Vec::new(),
        filters: 0,
        has_reload: false,
        inside: Inside::Nothing,
        linux: options.linux,
    };
    for line in tokens.split(|token| token.kind == Kind::Line).filter(|line| !line.is_empty()) {
        match reader.inside {
            Inside::Nothing => reader.row(line)?,
            Inside::Thread => reader.instruction(line)?,
            Inside::Policy => reader.filter(line)?,
        }
    }
    if !matches!(reader.inside, Inside::Nothing) {
        return Err(ScriptError);
    }
    reader.name_children()?;
    reader.finish(options)
}

fn id(token: Token) -> Parsed<u32> {
    tokens::number(token.text).and_then(|number| u32::try_from(number).ok()).ok_or(ScriptError)
}

fn number(token: &Token) -> Parsed<u64> {
    if token.kind != Kind::Word {
        return Err(ScriptError);
    }
    tokens::number(token.text).ok_or(ScriptError)
}

/// An absolute name in normal form, within the limits.
fn normal_name(text: Vec<u8>) -> Parsed<Vec<u8>> {
    let Some(rest) = text.strip_prefix(b"/") else { return Err(ScriptError) };
    let is_part = |part: &[u8]| !part.is_empty() && part != b"." && part != b".." && part.len() <= 255;
    let is_normal = rest.is_empty() || rest.split(|&b| b == b'/').all(is_part);
    if is_normal && text.len() <= 1024 { Ok(text) } else { Err(ScriptError) }
}

/// The tokens of a row, if they are of these kinds.
fn shape<'a, const N: usize>(line: &[Token<'a>], kinds: [Kind; N]) -> Parsed<[Token<'a>; N]> {
    let row: [Token; N] = line.try_into().map_err(|_| ScriptError)?;
    if row.iter().zip(kinds).all(|(token, kind)| token.kind == kind) { Ok(row) } else { Err(ScriptError) }
}

impl<'a> Reader<'a> {
    fn row(&mut self, line: &'a [Token<'a>]) -> Parsed<()> {
        use Kind::{Quoted, Word};
        if line[0].kind != Word {
            return Err(ScriptError);
        }
        match line[0].text {
            b"user" => {
                let [_, name, uid, gid, home] = shape(line, [Word, Word, Word, Word, Quoted])?;
                id(gid)?;
                let user = UserRow { name: name.text.to_vec(), uid: id(uid)?, home: unquote(home.text, None) };
                let before = self.user_names.insert(user.name.clone(), user.uid);
                self.users.push(user);
                if before.is_some() { Err(ScriptError) } else { Ok(()) }
            }
            b"group" => {
                let [_, name, gid] = shape(line, [Word, Word, Word])?;
                let before = self.groups.insert(name.text.to_vec(), id(gid)?);
                if before.is_some() { Err(ScriptError) } else { Ok(()) }
            }
            b"dir" => {
                let [_, name, uid, gid, mode] = shape(line, [Word, Quoted, Word, Word, Word])?;
                self.object(name, uid, gid, Some(mode), tree::Kind::Dir(BTreeMap::new()))
            }
            b"file" => {
                let [_, name, uid, gid, mode, content] = shape(line, [Word, Quoted, Word, Word, Word, Quoted])?;
                let content = unquote(content.text, None);
                if content.len() as u64 > MOST_BYTES {
                    return Err(ScriptError);
                }
                self.object(name, uid, gid, Some(mode), tree::Kind::File(content))
            }
            b"link" => {
                let [_, name, uid, gid, target] = shape(line, [Word, Quoted, Word, Word, Quoted])?;
                let target = unquote(target.text, None);
                if target.is_empty() || target.len() > 255 {
                    return Err(ScriptError);
                }
                self.object(name, uid, gid, None, tree::Kind::Link(target))
            }
            b"process" => {
                let [_, name, traced, binary, uid, gid, cwd] =
                    shape(line, [Word, Word, Word, Quoted, Word, Word, Quoted])?;
                let traced = match traced.text {
                    b"traced" => true,
                    b"untraced" => false,
                    _ => return Err(ScriptError),
                };
                let binary = normal_name(unquote(binary.text, None))?;
                let cwd = normal_name(unquote(cwd.text, None))?;
                let before = self.process_names.insert(name.text, self.processes.len());
                self.processes.push(ProcessRow { traced, binary, uid: id(uid)?, gid: id(gid)?, cwd });
                if before.is_some() || self.processes.len() > MOST_ROWS { Err(ScriptError) } else { Ok(()) }
            }
            b"thread" => self.thread(line),
            b"policy" => {
                let [_, name, binary] = shape(line, [Word, Word, Quoted])?;
                let before = self.policy_names.insert(name.text, self.policies.len());
                self.policies.push((binary, Vec::new()));
                self.inside = Inside::Policy;
                if before.is_some() { Err(ScriptError) } else { Ok(()) }
            }
            b"reply" if line.len() > 2 && line[1].kind == Quoted => {
                self.replies.push(&line[1..]);
                Ok(())
            }
            _ => Err(ScriptError),
        }
    }

    fn object(&mut self, name: Token, uid: Token, gid: Token, mode: Option<Token>, kind: tree::Kind) -> Parsed<()> {
        let name = normal_name(unquote(name.text, None))?;
        let mode = mode.map_or(Some(0o777), |mode| tokens::mode(mode.text)).ok_or(ScriptError)?;
        let object = Object { kind, uid: id(uid)?, gid: id(gid)?, mode };
        let (parent, _) = tree::split_last(&name).ok_or(ScriptError)?;
        let parent = self.tree.object(parent).ok_or(ScriptError)?;
        self.objects += 1;
        if !self.tree.is_dir(parent) || self.tree.object(&name).is_some() || self.objects > MOST_OBJECTS {
            return Err(ScriptError);
        }
        self.tree.add(&name, object);
        Ok(())
    }

    fn thread(&mut self, line: &'a [Token<'a>]) -> Parsed<()> {
        use Kind::Word;
        let (name, process) = if line.len() == 2 {
            let [_, name] = shape(line, [Word, Word])?;
            (name, None)
        } else {
            let [_, name, inside, process] = shape(line, [Word, Word, Word, Word])?;
            if inside.text != b"in" {
                return Err(ScriptError);
            }
            (name, Some(*self.process_names.get(process.text).ok_or(ScriptError)?))
        };
        let before = self.thread_names.insert(name.text, self.threads.len());
        self.threads.push(ThreadRow { process, body: Vec::new() });
        self.inside = Inside::Thread;
        if before.is_some() || self.threads.len() > MOST_ROWS { Err(ScriptError) } else { Ok(()) }
    }

    fn filter(&mut self, line: &'a [Token<'a>]) -> Parsed<()> {
        if line.len() == 1 && line[0].is_word("end") {
            self.inside = Inside::Nothing;
            return Ok(());
        }
        self.filters += 1;
        let (_, lines) = self.policies.last_mut().ok_or(ScriptError)?;
        lines.push(line);
        if self.filters > MOST_FILTERS { Err(ScriptError) } else { Ok(()) }
    }

    fn push(&mut self, instr: Instr) -> Parsed<()> {
        self.instructions += 1;
        let thread = self.threads.last_mut().ok_or(ScriptError)?;
        thread.body.push(instr);
        if self.instructions > MOST_INSTRUCTIONS { Err(ScriptError) } else { Ok(()) }
    }

    fn instruction(&mut self, line: &'a [Token<'a>]) -> Parsed<()> {
        use Kind::{Quoted, Word};
        if line[0].kind != Word {
            return Err(ScriptError);
        }
        match line[0].text {
            b"store" => {
                let [_, place, word] = shape(line, [Word, Word, Word])?;
                let (place, word) = (number(&place)?, number(&word)?);
                if place >= 8192 {
                    return Err(ScriptError);
                }
                self.push(Instr::Store(place, word))
            }
            b"put" => {
                let [_, at, text] = shape(line, [Word, Word, Quoted])?;
                self.put(number(&at)?, unquote(text.text, None))
            }
            b"call" => {
                let [_, name, numbers @ ..] = line else { return Err(ScriptError) };
                let name = std::str::from_utf8(name.text).map_err(|_| ScriptError)?;
                let call = Call::of(name).filter(|call| *call != Call::Fork).ok_or(ScriptError)?;
                if numbers.len() > 6 || line[1].kind != Word {
                    return Err(ScriptError);
                }
                let mut regs = [0; 6];
                for (reg, token) in regs.iter_mut().zip(numbers) {
                    *reg = number(token)?;
                }
                if self.linux && call == Call::Open {
                    regs[1] = calls::native_flags(regs[1]);
                }
                self.push(Instr::Call(call, regs))
            }
            b"fork" => {
                let [_, child] = shape(line, [Word, Word])?;
                let thread = self.threads.len() - 1;
                self.forks.push((thread, self.threads[thread].body.len(), child.text));
                self.push(Instr::Fork(0))
            }
            b"reload" => {
                let [_, name] = shape(line, [Word, Word])?;
                let policy = *self.policy_names.get(name.text).ok_or(ScriptError)?;
                self.has_reload = true;
                self.push(Instr::Reload(policy))
            }
            b"end" if line.len() == 1 => {
                self.inside = Inside::Nothing;
                Ok(())
            }
            _ => Err(ScriptError),
        }
    }

    fn put(&mut self, at: u64, mut text: Vec<u8>) -> Parsed<()> {
        text.push(0);
        if !at.is_multiple_of(8) || at > MOST_BYTES || at + text.len() as u64 > MOST_BYTES {
            return Err(ScriptError);
        }
        text.resize(text.len().next_multiple_of(8), 0);
        for (place, chunk) in (at / 8..).zip(text.chunks_exact(8)) {
            let word = chunk.iter().rev().fold(0, |word, &byte| word << 8 | u64::from(byte));
            self.push(Instr::Store(place, word))?;
        }
        Ok(())
    }

    fn name_children(&mut self) -> Parsed<()> {
        let mut named = HashSet::new();
        for &(thread, at, name) in &self.forks {
            let child = *self.thread_names.get(name).ok_or(ScriptError)?;
            if self.threads[child].process.is_some() || !named.insert(child) {
                return Err(ScriptError);
            }
            self.threads[thread].body[at] = Instr::Fork(child);
        }
        Ok(())
    }

    fn finish(self, options: &Options) -> Parsed<Script> {
        let dollars = match self.processes.iter().find(|process| process.traced) {
            None => Dollars::default(),
            Some(process) => {
                let uid = options.ids.map_or(process.uid, |(uid, _)| uid);
                let (home, user) = match self.users.iter().find(|user| user.uid == uid) {
                    Some(user) => (user.home.clone(), user.name.clone()),
                    None => (b"/".to_vec(), uid.to_string().into_bytes()),
                };
                Dollars { home, user, cwd: process.cwd.clone() }
            }
        };
        let (elevate, may_ask) = (options.ids.is_some(), options.mode != Mode::Learn);
        if self.has_reload && options.mode == Mode::Learn {
            return Err(ScriptError);
        }
        let linux = options.linux;
        let env = Env { users: self.user_names, groups: self.groups, dollars, elevate, may_ask, linux };
        let mut replies = Vec::new();
        for row in self.replies {
            let binary = normal_name(unquote(row[0].text, Some(&env.dollars)))?;
            replies.push(policy::read_reply(binary, &row[1..], &env).map_err(|_| ScriptError)?);
        }
        let mut policies = Vec::new();
        for (binary, lines) in self.policies {
            let binary = unquote(binary.text, Some(&env.dollars));
            policies.push(policy::read_script_policy(binary, &lines, &env).map_err(|_| ScriptError)?);
        }
        Ok(Script { tree: self.tree, processes: self.processes, threads: self.threads, replies, policies, env })
    }
}

pub enum SchedLine {
    Choose(Choice, u64),
    Rest,
}

pub fn read_schedule(text: &[u8]) -> Result<Vec<SchedLine>, ScheduleError> {
    let tokens = tokens::tokens(text).map_err(|_| ScheduleError)?;
    let lines = tokens.split(|token| token.kind == Kind::Line).filter(|line| !line.is_empty());
    lines.map(|line| sched_line(line).ok_or(ScheduleError)).collect()
}

fn sched_line(line: &[Token]) -> Option<SchedLine> {
    if line.iter().any(|token| token.kind != Kind::Word) {
        return None;
    }
    let words: Vec<&[u8]> = line.iter().map(|token| token.text).collect();
    let count = |word: Option<&&[u8]>| match word {
        None => Some(1),
        Some(word) => tokens::number(word).filter(|count| (1..=MOST_COUNT).contains(count)),
    };
    // A number that no place has is in the grammar, and its choice is never enabled.
    let place = |word: &[u8]| Some((tokens::number(word)?.wrapping_sub(1)) as usize);
    match words.as_slice() {
        [b"rest"] => Some(SchedLine::Rest),
        [b"operator", rest @ ..] if rest.len() <= 1 => Some(SchedLine::Choose(Choice::Operator, count(rest.first())?)),
        [b"thread", number, rest @ ..] if rest.len() <= 1 => {
            Some(SchedLine::Choose(Choice::Thread(place(number)?), count(rest.first())?))
        }
        [b"worker", number, rest @ ..] if rest.len() <= 1 => {
            Some(SchedLine::Choose(Choice::Worker(place(number)?), count(rest.first())?))
        }
        _ => None,
    }
}
