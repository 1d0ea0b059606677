//! The same work as the proved parts, in plain Rust.
use std::collections::BTreeMap;
use std::hint::black_box;

const TEXT: &str = "/part/part/part/part/part/part/part/part/part/part/part/part/part/part/part/part";
const LEN: usize = 4096;

enum Object {
    Dir(BTreeMap<Vec<u8>, u32>),
    File(Vec<u8>),
    #[allow(dead_code)]
    Link(Vec<u8>),
}

#[derive(PartialEq)]
enum Seen {
    Missing,
    NotDir,
    Dir,
    File,
    Link,
}

struct Tree {
    objects: Vec<Object>,
}

impl Tree {
    fn new() -> Self {
        Tree { objects: vec![Object::Dir(BTreeMap::new())] }
    }

    fn find(&self, name: &[u8]) -> Result<u32, Seen> {
        let mut at = 0u32;
        for part in name.split(|&byte| byte == b'/').filter(|part| !part.is_empty()) {
            match &self.objects[at as usize] {
                Object::Dir(entries) => match entries.get(part) {
                    Some(&next) => at = next,
                    None => return Err(Seen::Missing),
                },
                _ => return Err(Seen::NotDir),
            }
        }
        Ok(at)
    }

    fn look(&self, name: &[u8]) -> Seen {
        match self.find(name) {
            Ok(at) => match &self.objects[at as usize] {
                Object::Dir(_) => Seen::Dir,
                Object::File(_) => Seen::File,
                Object::Link(_) => Seen::Link,
            },
            Err(seen) => seen,
        }
    }

    fn add(&mut self, parent: &[u8], last: &[u8], object: Object) -> u32 {
        let number = self.objects.len() as u32;
        if let Ok(at) = self.find(parent) {
            if let Object::Dir(entries) = &mut self.objects[at as usize] {
                entries.insert(last.to_vec(), number);
            }
        }
        self.objects.push(object);
        number
    }
}

fn nested() -> (Tree, Vec<u8>) {
    let mut tree = Tree::new();
    let mut name: Vec<u8> = Vec::new();
    for _ in 0..16 {
        let parent = name.clone();
        name.extend_from_slice(b"/part");
        tree.add(&parent, b"part", Object::Dir(BTreeMap::new()));
    }
    (tree, name)
}

fn looks(count: u64) -> u64 {
    let (tree, name) = nested();
    let mut seen = 0u64;
    for _ in 0..count {
        if black_box(&tree).look(black_box(&name)) == Seen::Dir {
            seen += 1;
        }
    }
    seen
}

// Each component is looked at by its whole name, as a monitor does that notes each look.
fn resolve(tree: &Tree, text: &[u8]) -> Option<Vec<u8>> {
    let mut name: Vec<u8> = Vec::new();
    let parts: Vec<&[u8]> = text.split(|&byte| byte == b'/').filter(|part| !part.is_empty() && *part != b".").collect();
    for (i, part) in parts.iter().enumerate() {
        if *part == b".." {
            let len = name.iter().rposition(|&byte| byte == b'/').unwrap_or(0);
            name.truncate(len);
            continue;
        }
        name.push(b'/');
        name.extend_from_slice(part);
        let looked = name.clone();
        match tree.look(&looked) {
            Seen::Dir => {}
            Seen::File | Seen::Missing | Seen::Link if i + 1 == parts.len() => {}
            _ => return None,
        }
    }
    Some(name)
}

fn walks(count: u64) -> u64 {
    let (tree, _) = nested();
    let mut found = 0u64;
    for _ in 0..count {
        if let Some(name) = resolve(black_box(&tree), black_box(TEXT.as_bytes())) {
            found += name.iter().filter(|&&byte| byte == b'/').count() as u64;
        }
    }
    found
}

#[derive(Clone, Copy, PartialEq)]
enum State {
    Waiting,
    Claimed(u32),
    #[allow(dead_code)]
    Answered,
}

struct Message {
    seq: u64,
    tid: u32,
    state: State,
}

fn claims(count: u64) -> u64 {
    let mut sum = 0u64;
    for _ in 0..count {
        let mut live: Vec<Message> = Vec::new();
        for tid in 0..64 {
            // A thread has one message at most; the kernel sees to it.
            live.push(Message { seq: tid as u64 + 1, tid, state: State::Waiting });
        }
        while let Some(message) = black_box(&mut live).iter_mut().find(|message| message.state == State::Waiting) {
            message.state = State::Claimed(black_box(1));
            sum = sum.wrapping_add(message.seq);
        }
        black_box(live[0].tid);
    }
    sum
}

fn reads(count: u64) -> u64 {
    let mut tree = Tree::new();
    let file = tree.add(b"", b"file", Object::File(vec![1; LEN]));
    let mut sum = 0u64;
    for _ in 0..count {
        if let Object::File(content) = &black_box(&tree).objects[file as usize] {
            let bytes = content[0..content.len().min(LEN)].to_vec();
            sum += black_box(bytes).len() as u64;
        }
    }
    sum
}

fn writes(count: u64) -> u64 {
    let mut tree = Tree::new();
    let file = tree.add(b"", b"file", Object::File(vec![1; LEN]));
    for _ in 0..count {
        let bytes = black_box([2u8; LEN]);
        if let Object::File(content) = &mut black_box(&mut tree).objects[file as usize] {
            if content.len() < LEN {
                content.resize(LEN, 0);
            }
            content[0..LEN].copy_from_slice(&bytes);
        }
    }
    match &tree.objects[file as usize] {
        Object::File(content) => content.len() as u64,
        _ => 0,
    }
}

fn copies(count: u64) -> u64 {
    let mut spaces: Vec<Option<Box<[u64]>>> = vec![Some(vec![0u64; 8192].into_boxed_slice())];
    let mut sum = 0u64;
    for _ in 0..count {
        let copy = black_box(&spaces)[0].clone();
        spaces.push(copy);
        sum += spaces.len() as u64;
        spaces.pop();
    }
    sum
}

fn main() {
    let words: Vec<String> = std::env::args().collect();
    let count: u64 = words[2].parse().unwrap();
    let answer = match words[1].as_str() {
        "look" => looks(count),
        "walk" => walks(count),
        "claim" => claims(count),
        "read" => reads(count),
        "write" => writes(count),
        "fork" => copies(count),
        _ => std::process::exit(2),
    };
    println!("{answer}");
}
