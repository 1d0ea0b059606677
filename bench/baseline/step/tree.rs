//! The file tree. Names are absolute and in normal form: `/`, or parts after slashes.
use crate::calls::Errno;
use std::collections::BTreeMap;

pub const MOST_OBJECTS: usize = 4096;
pub const MOST_BYTES: u64 = 65_536;

/// The objects of a directory's names.
pub type Entries = BTreeMap<Vec<u8>, usize>;

pub enum Kind {
    Dir(Entries),
    File(Vec<u8>),
    Link(Vec<u8>),
}

pub struct Object {
    pub kind: Kind,
    pub uid: u32,
    pub gid: u32,
    pub mode: u32,
}

pub enum Seen<'a> {
    Missing,
    NotDir,
    Dir,
    File,
    Link(&'a [u8]),
}

#[derive(Clone, Copy, PartialEq, Eq)]
pub enum Want {
    Read,
    Write,
    Search,
    Execute,
}

pub struct Tree {
    objects: Vec<Object>,
}

pub fn parts(name: &[u8]) -> impl Iterator<Item = &[u8]> {
    name.split(|&b| b == b'/').filter(|part| !part.is_empty())
}

pub fn join(name: &mut Vec<u8>, part: &[u8]) {
    if name.len() > 1 {
        name.push(b'/');
    }
    name.extend_from_slice(part);
}

/// The directory that a name stands in, and its last part; none for the root.
pub fn split_last(name: &[u8]) -> Option<(&[u8], &[u8])> {
    let slash = name.iter().rposition(|&b| b == b'/')?;
    let last = &name[slash + 1..];
    (!last.is_empty()).then(|| (&name[..slash.max(1)], last))
}

/// The proper prefixes of a name, from the root on.
pub fn proper_prefixes(name: &[u8]) -> impl Iterator<Item = &[u8]> {
    let slashes = name.iter().enumerate().filter(|&(_, &b)| b == b'/').map(|(at, _)| at.max(1));
    slashes.take(if name.len() > 1 { usize::MAX } else { 0 }).map(|end| &name[..end])
}

/// Whether the second name leads on from the first one.
pub fn leads_on(name: &[u8], other: &[u8]) -> bool {
    other.strip_prefix(name).is_some_and(|rest| !rest.is_empty() && (rest[0] == b'/' || name.len() == 1))
}

impl Tree {
    pub fn new() -> Tree {
        Tree { objects: vec![Object { kind: Kind::Dir(BTreeMap::new()), uid: 0, gid: 0, mode: 0o755 }] }
    }

    fn find(&self, name: &[u8]) -> Result<usize, Seen<'_>> {
        let mut at = 0;
        for part in parts(name) {
            match &self.objects[at].kind {
                Kind::Dir(entries) => at = *entries.get(part).ok_or(Seen::Missing)?,
                _ => return Err(Seen::NotDir),
            }
        }
        Ok(at)
    }

    pub fn look(&self, name: &[u8]) -> Seen<'_> {
        match self.find(name) {
            Err(seen) => seen,
            Ok(at) => match &self.objects[at].kind {
                Kind::Dir(_) => Seen::Dir,
                Kind::File(_) => Seen::File,
                Kind::Link(target) => Seen::Link(target),
            },
        }
    }

    pub fn is_link(&self, name: &[u8]) -> bool {
        matches!(self.look(name), Seen::Link(_))
    }

    pub fn object(&self, name: &[u8]) -> Option<usize> {
        self.find(name).ok()
    }

    pub fn node(&self, object: usize) -> &Object {
        &self.objects[object]
    }

    pub fn node_mut(&mut self, object: usize) -> &mut Object {
        &mut self.objects[object]
    }

    pub fn is_dir(&self, object: usize) -> bool {
        matches!(self.objects[object].kind, Kind::Dir(_))
    }

    pub fn is_full(&self) -> bool {
        self.objects.len() >= MOST_OBJECTS
    }

    pub fn allowed(&self, object: usize, uid: u32, gid: u32, want: Want) -> bool {
        let node = &self.objects[object];
        if uid == 0 {
            return want != Want::Execute || node.mode & 0o111 != 0;
        }
        let bits = if uid == node.uid {
            node.mode >> 6
        } else if gid == node.gid {
            node.mode >> 3
        } else {
            node.mode
        };
        let bit = match want {
            Want::Read => 4,
            Want::Write => 2,
            Want::Search | Want::Execute => 1,
        };
        bits & bit != 0
    }

    /// The test of a name's proper prefixes.
    pub fn walk(&self, name: &[u8], uid: u32, gid: u32) -> Result<(), Errno> {
        let Some((parent, _)) = split_last(name) else { return Ok(()) };
        let mut at = 0;
        self.search(at, uid, gid)?;
        for part in parts(parent) {
            let Kind::Dir(entries) = &self.objects[at].kind else { return Err(Errno::NotDir) };
            at = *entries.get(part).ok_or(Errno::NoEnt)?;
            self.search(at, uid, gid)?;
        }
        Ok(())
    }

    fn search(&self, object: usize, uid: u32, gid: u32) -> Result<(), Errno> {
        if !self.is_dir(object) {
            return Err(Errno::NotDir);
        }
        if self.allowed(object, uid, gid, Want::Search) { Ok(()) } else { Err(Errno::Acces) }
    }

    fn entries_of_parent(&mut self, name: &[u8]) -> Option<(&mut Entries, Vec<u8>)> {
        let (parent, last) = split_last(name)?;
        let at = self.object(parent)?;
        match &mut self.objects[at].kind {
            Kind::Dir(entries) => Some((entries, last.to_vec())),
            _ => None,
        }
    }

    /// Adds an object under a name whose parent is a directory, and gives its place.
    pub fn add(&mut self, name: &[u8], object: Object) -> usize {
        let number = self.objects.len();
        self.objects.push(object);
        self.link(name, number);
        number
    }

    pub fn link(&mut self, name: &[u8], object: usize) {
        if let Some((entries, last)) = self.entries_of_parent(name) {
            entries.insert(last, object);
        }
    }

    pub fn remove(&mut self, name: &[u8]) -> Option<usize> {
        let (entries, last) = self.entries_of_parent(name)?;
        entries.remove(&last)
    }

    pub fn rename(&mut self, old: &[u8], new: &[u8]) {
        if let Some(object) = self.remove(old) {
            self.link(new, object);
        }
    }
}
