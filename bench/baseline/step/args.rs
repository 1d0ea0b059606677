//! Copying arguments from memory, and resolving names: word by word and look by look.
use crate::calls::{self, Arg, ArgKind, Call, Errno, Regs};
use crate::tree::{self, Seen};

const WORDS: u64 = 8192;
const MOST_NAME: usize = 1024;
const MOST_PART: usize = 255;
const MOST_STRING: usize = 255;
const MOST_ARGV: usize = 1024;
const MOST_POINTERS: usize = 16;
const MOST_LINKS: u32 = 32;

/// What a call's arguments need next.
pub enum Need {
    Word(u64),
    Look,
    Fault(Errno),
    Ready,
}

enum Step {
    Copy(Copying),
    Walk(Walk),
    Fault(Errno),
    Ready,
}

/// The arguments of a call, so far.
pub struct Gathering {
    call: Call,
    regs: Regs,
    cwd: Vec<u8>,
    pub args: Vec<Arg>,
    step: Step,
}

impl Gathering {
    pub fn new(call: Call, regs: Regs, cwd: Vec<u8>) -> Gathering {
        let mut gathering = Gathering { call, regs, cwd, args: Vec::new(), step: Step::Ready };
        gathering.begin_part();
        gathering
    }

    /// The part that is worked on, counted from 0.
    pub fn part(&self) -> usize {
        self.args.len()
    }

    pub fn need(&self) -> Need {
        match &self.step {
            Step::Copy(copying) => Need::Word(copying.place),
            Step::Walk(_) => Need::Look,
            Step::Fault(errno) => Need::Fault(*errno),
            Step::Ready => Need::Ready,
        }
    }

    /// The name that is looked at next.
    pub fn look_name(&self) -> Vec<u8> {
        match &self.step {
            Step::Walk(walk) => walk.look_name(),
            _ => Vec::new(),
        }
    }

    pub fn take_word(&mut self, word: u64) {
        let Step::Copy(copying) = &mut self.step else { return };
        match copying.take(word) {
            Ok(None) => {}
            Ok(Some(text)) => self.copied(text),
            Err(errno) => self.step = Step::Fault(errno),
        }
    }

    pub fn take_look(&mut self, seen: &Seen) {
        let Step::Walk(walk) = &mut self.step else { return };
        match walk.advance(seen) {
            Ok(None) => {}
            Ok(Some(name)) => self.finish_part(name),
            Err(errno) => self.step = Step::Fault(errno),
        }
    }

    fn begin_part(&mut self) {
        self.step = Step::Ready;
        while let Some(spec) = calls::args_of(self.call).get(self.args.len()) {
            let value = self.regs[spec.register];
            match spec.kind {
                ArgKind::Name | ArgKind::Plain | ArgKind::Addr | ArgKind::Argv => {
                    self.step = match Copying::new(spec.kind, value) {
                        Ok(copying) => Step::Copy(copying),
                        Err(errno) => Step::Fault(errno),
                    };
                    return;
                }
                _ => {
                    let text = calls::register_text(spec.kind, value).into_bytes();
                    self.args.push(Arg { label: spec.label, index: spec.index, text });
                }
            }
        }
    }

    fn copied(&mut self, text: Vec<u8>) {
        let spec = &calls::args_of(self.call)[self.args.len()];
        if spec.kind != ArgKind::Name {
            return self.finish_part(text);
        }
        let follow = calls::follows(self.call, &self.regs, spec.register);
        match Walk::new(&text, &self.cwd, follow) {
            Err(errno) => self.step = Step::Fault(errno),
            Ok(mut walk) => match walk.step_back() {
                Ok(None) => self.step = Step::Walk(walk),
                Ok(Some(name)) => self.finish_part(name),
                Err(errno) => self.step = Step::Fault(errno),
            },
        }
    }

    fn finish_part(&mut self, text: Vec<u8>) {
        let spec = &calls::args_of(self.call)[self.args.len()];
        self.args.push(Arg { label: spec.label, index: spec.index, text });
        self.begin_part();
    }
}

/// The copy of one argument from memory.
struct Copying {
    kind: ArgKind,
    place: u64,
    skip: usize,
    text: Vec<u8>,
    vector: Vector,
}

/// Where the copy of an argument vector is.
struct Vector {
    start: u64,
    pointers: usize,
    bytes: usize,
    in_text: bool,
}

impl Copying {
    fn new(kind: ArgKind, at: u64) -> Result<Copying, Errno> {
        let by_bytes = matches!(kind, ArgKind::Name | ArgKind::Plain);
        if at / 8 >= WORDS || (!by_bytes && !at.is_multiple_of(8)) {
            return Err(Errno::Fault);
        }
        let vector = Vector { start: at / 8, pointers: 0, bytes: 0, in_text: false };
        Ok(Copying { kind, place: at / 8, skip: (at % 8) as usize, text: Vec::new(), vector })
    }

    /// Takes the next word; gives the text where it is whole.
    fn take(&mut self, word: u64) -> Result<Option<Vec<u8>>, Errno> {
        match self.kind {
            ArgKind::Addr => address(word).map(Some),
            ArgKind::Argv => self.take_vector(word),
            ArgKind::Name => self.take_text(word, MOST_NAME),
            _ => self.take_text(word, MOST_STRING),
        }
    }

    fn take_text(&mut self, word: u64, most: usize) -> Result<Option<Vec<u8>>, Errno> {
        let bytes = word.to_le_bytes();
        for &byte in &bytes[self.skip..] {
            if byte == 0 {
                return Ok(Some(std::mem::take(&mut self.text)));
            }
            if self.text.len() == most {
                return Err(Errno::NameTooLong);
            }
            self.text.push(byte);
        }
        self.go_to(self.place + 1, 0)
    }

    fn take_vector(&mut self, word: u64) -> Result<Option<Vec<u8>>, Errno> {
        if !self.vector.in_text {
            if word == 0 {
                return Ok(Some(std::mem::take(&mut self.text)));
            }
            if self.vector.pointers == MOST_POINTERS {
                return Err(Errno::TooBig);
            }
            if self.vector.pointers > 0 {
                self.text.push(b' ');
            }
            self.vector.pointers += 1;
            self.vector.in_text = true;
            return self.go_to(word / 8, (word % 8) as usize);
        }
        let bytes = word.to_le_bytes();
        for &byte in &bytes[self.skip..] {
            if byte == 0 {
                self.vector.in_text = false;
                return self.go_to(self.vector.start + self.vector.pointers as u64, 0);
            }
            if self.vector.bytes == MOST_ARGV {
                return Err(Errno::TooBig);
            }
            self.vector.bytes += 1;
            self.text.push(byte);
        }
        self.go_to(self.place + 1, 0)
    }

    fn go_to(&mut self, place: u64, skip: usize) -> Result<Option<Vec<u8>>, Errno> {
        self.place = place;
        self.skip = skip;
        if place >= WORDS { Err(Errno::Fault) } else { Ok(None) }
    }
}

fn address(word: u64) -> Result<Vec<u8>, Errno> {
    let [_, family, high, low, a, b, c, d] = word.to_le_bytes();
    if family != 2 {
        return Err(Errno::Inval);
    }
    let port = u16::from_be_bytes([high, low]);
    Ok(format!("inet-[{a}.{b}.{c}.{d}]:{port}").into_bytes())
}

/// The resolution of one name.
struct Walk {
    done: Vec<u8>,
    /// The components to come, the next one last.
    rest: Vec<Vec<u8>>,
    links: u32,
    follow: bool,
}

impl Walk {
    fn new(text: &[u8], cwd: &[u8], follow: bool) -> Result<Walk, Errno> {
        if text.is_empty() {
            return Err(Errno::NoEnt);
        }
        if tree::parts(text).any(|part| part.len() > MOST_PART) {
            return Err(Errno::NameTooLong);
        }
        let done = if text[0] == b'/' { b"/".to_vec() } else { cwd.to_vec() };
        let mut walk = Walk { done, rest: Vec::new(), links: 0, follow };
        walk.put_before(text);
        Ok(walk)
    }

    fn put_before(&mut self, text: &[u8]) {
        let from = self.rest.len();
        self.rest.extend(tree::parts(text).filter(|part| *part != b".").map(<[u8]>::to_vec));
        self.rest[from..].reverse();
    }

    fn look_name(&self) -> Vec<u8> {
        let mut name = self.done.clone();
        if let Some(part) = self.rest.last() {
            tree::join(&mut name, part);
        }
        name
    }

    /// Takes each `..` in front; gives the name where nothing is left to look at.
    fn step_back(&mut self) -> Result<Option<Vec<u8>>, Errno> {
        while self.rest.last().is_some_and(|part| part == b"..") {
            self.rest.pop();
            let parent = tree::split_last(&self.done).map_or(1, |(parent, _)| parent.len());
            self.done.truncate(parent);
        }
        if !self.rest.is_empty() {
            return Ok(None);
        }
        if self.done.len() > MOST_NAME { Err(Errno::NameTooLong) } else { Ok(Some(std::mem::take(&mut self.done))) }
    }

    fn advance(&mut self, seen: &Seen) -> Result<Option<Vec<u8>>, Errno> {
        let part = self.rest.pop().unwrap_or_default();
        let is_last = self.rest.is_empty();
        match seen {
            Seen::NotDir => return Err(Errno::NotDir),
            Seen::File if !is_last => return Err(Errno::NotDir),
            Seen::Missing if !is_last => return Err(Errno::NoEnt),
            Seen::Link(target) if !is_last || self.follow => {
                if self.links == MOST_LINKS {
                    return Err(Errno::Loop);
                }
                self.links += 1;
                if target.first() == Some(&b'/') {
                    self.done.truncate(1);
                }
                self.put_before(target);
            }
            _ => tree::join(&mut self.done, &part),
        }
        self.step_back()
    }
}
