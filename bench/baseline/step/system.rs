//! Processes, descriptors, memories and the tree, and what the calls do with them.
use crate::calls::{Arg, Call, Errno, Ids, O_APPEND, O_CREAT, O_EXCL, O_TRUNC, Regs};
use crate::policy::{Policies, Policy};
use crate::tree::{self, Kind, MOST_BYTES, Object, Tree, Want};
use std::collections::{BTreeMap, HashSet};
use std::sync::Arc;

const MEMORY: usize = 65_536;
const MOST_DESCRIPTORS: usize = 64;

#[derive(Clone, Copy)]
enum FileKind {
    Console,
    Node(usize),
    Socket { port: Option<u16>, connected: bool },
}

struct OpenFile {
    kind: FileKind,
    read: bool,
    write: bool,
    append: bool,
    offset: u64,
    /// How many descriptors lead to it.
    users: usize,
}

pub struct Process {
    pub traced: bool,
    pub policy: Arc<Policy>,
    pub ids: Ids,
    pub cwd: Vec<u8>,
    pub alive: bool,
    /// Its threads that have not ended.
    pub threads: usize,
    space: usize,
    memory: Vec<u8>,
    descriptors: Vec<Option<usize>>,
}

pub struct System {
    pub tree: Tree,
    pub processes: Vec<Process>,
    policies: Policies,
    inherit: bool,
    files: Vec<OpenFile>,
    free_files: Vec<usize>,
    ports: HashSet<u16>,
    spaces: usize,
}

/// What a call changed. Numbers count from 0 here.
pub enum Change {
    Made { name: Vec<u8>, object: usize, kind: &'static str, ids: Ids, mode: u32, target: Vec<u8> },
    Linked(Vec<u8>, usize),
    Removed(Vec<u8>),
    Renamed(Vec<u8>, Vec<u8>),
    Written(usize, u64, Vec<u8>),
    Cut(usize, u64),
    Moded(usize, u32),
    Owned(usize, u32, u32),
    Put(usize, u64, Vec<u8>),
    Forked { pid: usize, space: usize, tid: usize },
    Execed(Vec<u8>, usize),
    SetIds(Ids),
    Cwd(Vec<u8>),
    Dying(usize),
    Renewed(u16, u16),
    Policy(Vec<u8>),
}

pub struct Done {
    pub value: u64,
    pub changes: Vec<Change>,
}

type Outcome = Result<Done, Errno>;

fn value(value: u64) -> Outcome {
    Ok(Done { value, changes: Vec::new() })
}

fn change(change: Change) -> Outcome {
    Ok(Done { value: 0, changes: vec![change] })
}

/// A range of memory, where it does not go past the end.
fn range(at: u64, count: u64) -> Result<std::ops::Range<usize>, Errno> {
    match at.checked_add(count) {
        Some(end) if end <= MEMORY as u64 => Ok(at as usize..end as usize),
        _ => Err(Errno::Fault),
    }
}

fn id(register: u64) -> Result<u32, Errno> {
    u32::try_from(register).map_err(|_| Errno::Inval)
}

impl System {
    pub fn new(tree: Tree, policies: Policies, inherit: bool) -> System {
        System {
            tree,
            processes: Vec::new(),
            policies,
            inherit,
            files: Vec::new(),
            free_files: Vec::new(),
            ports: HashSet::new(),
            spaces: 0,
        }
    }

    /// From now on this policy judges the calls of all processes that have its binary's.
    pub fn reload(&mut self, policy: &Arc<Policy>) {
        self.policies.put_in_force(policy);
        for process in self.processes.iter_mut().filter(|process| process.policy.number == policy.number) {
            process.policy = Arc::clone(policy);
        }
    }

    fn new_space(&mut self) -> usize {
        self.spaces += 1;
        self.spaces - 1
    }

    pub fn start(&mut self, traced: bool, binary: &[u8], ids: Ids, cwd: Vec<u8>) {
        let console =
            |_| OpenFile { kind: FileKind::Console, read: true, write: true, append: false, offset: 0, users: 1 };
        let first = self.files.len();
        self.files.extend((0..3).map(console));
        let space = self.new_space();
        self.processes.push(Process {
            traced,
            policy: self.policies.get(binary),
            ids,
            cwd,
            alive: true,
            threads: 0,
            space,
            memory: vec![0; MEMORY],
            descriptors: (first..first + 3).map(Some).collect(),
        });
    }

    /// A thread of the process has ended.
    pub fn end_thread(&mut self, pid: usize) {
        let process = &mut self.processes[pid];
        process.threads -= 1;
        if process.threads == 0 {
            process.alive = false;
            process.memory = Vec::new();
            for file in std::mem::take(&mut process.descriptors).into_iter().flatten() {
                self.release(file);
            }
        }
    }

    pub fn word(&self, pid: usize, place: u64) -> u64 {
        let at = place as usize * 8;
        let mut bytes = [0; 8];
        bytes.copy_from_slice(&self.processes[pid].memory[at..at + 8]);
        u64::from_le_bytes(bytes)
    }

    pub fn store(&mut self, pid: usize, place: u64, word: u64) {
        let at = place as usize * 8;
        self.processes[pid].memory[at..at + 8].copy_from_slice(&word.to_le_bytes());
    }

    fn put(&mut self, pid: usize, at: u64, bytes: Vec<u8>) -> Change {
        let process = &mut self.processes[pid];
        let start = at as usize;
        process.memory[start..start + bytes.len()].copy_from_slice(&bytes);
        Change::Put(process.space, at, bytes)
    }

    /// Makes a call with its arguments under the ids. A `fork` has the thread that is its child's.
    pub fn execute(
        &mut self,
        pid: usize,
        call: Call,
        regs: &Regs,
        args: &[Arg],
        ids: Ids,
        child: Option<usize>,
    ) -> Outcome {
        let name = |i: usize| args.get(i).map_or(&b"/"[..], |arg| &arg.text);
        match call {
            Call::Open => self.open(pid, name(0), regs, ids),
            Call::Close => self.close(pid, regs[0]),
            Call::Read => self.read(pid, regs),
            Call::Write => self.write(pid, regs),
            Call::Lseek => self.lseek(pid, regs),
            Call::Dup => self.dup(pid, regs[0]),
            Call::Stat | Call::Lstat => self.stat(pid, name(0), regs[1], ids),
            Call::Access => self.access(name(0), regs[1], ids),
            Call::Readlink => self.readlink(pid, name(0), regs, ids),
            Call::Unlink => self.unlink(name(0), ids),
            Call::Link => self.link(name(0), name(1), ids),
            Call::Symlink => self.symlink(name(0), name(1), ids),
            Call::Rename => self.rename(name(0), name(1), ids),
            Call::Mkdir => self.mkdir(name(0), regs[1], ids),
            Call::Rmdir => self.rmdir(name(0), ids),
            Call::Chdir => self.chdir(pid, name(0), ids),
            Call::Chmod => self.chmod(name(0), regs[1], ids),
            Call::Chown => self.chown(name(0), regs, ids),
            Call::Truncate => self.truncate(name(0), regs[1], ids),
            Call::Fork => self.fork(pid, child.unwrap_or_default()),
            Call::Execve => self.execve(pid, name(0), ids),
            Call::Exit => change(Change::Dying(pid)),
            Call::Kill => self.kill(regs, ids),
            Call::Getpid => value(pid as u64 + 1),
            Call::Getuid => value(ids.ruid.into()),
            Call::Geteuid => value(ids.euid.into()),
            Call::Setuid | Call::Seteuid | Call::Setgid | Call::Setegid => self.set_ids(pid, call, regs[0]),
            Call::Socket => self.socket(pid),
            Call::Bind => self.bind(pid, regs[0], port_of(name(0)), ids),
            Call::Connect => self.connect(pid, regs[0], port_of(name(0))),
        }
    }

    // Descriptors.

    fn file(&self, pid: usize, fd: u64) -> Result<usize, Errno> {
        let fd = usize::try_from(fd).map_err(|_| Errno::BadF)?;
        self.processes[pid].descriptors.get(fd).copied().flatten().ok_or(Errno::BadF)
    }

    fn is_full(&self, pid: usize) -> bool {
        let descriptors = &self.processes[pid].descriptors;
        descriptors.len() == MOST_DESCRIPTORS && descriptors.iter().all(Option::is_some)
    }

    /// Gives the least free descriptor to an open file.
    fn describe(&mut self, pid: usize, file: usize) -> u64 {
        let descriptors = &mut self.processes[pid].descriptors;
        let fd = descriptors.iter().position(Option::is_none).unwrap_or(descriptors.len());
        if fd == descriptors.len() {
            descriptors.push(None);
        }
        descriptors[fd] = Some(file);
        fd as u64
    }

    fn add_file(&mut self, file: OpenFile) -> usize {
        match self.free_files.pop() {
            Some(at) => {
                self.files[at] = file;
                at
            }
            None => {
                self.files.push(file);
                self.files.len() - 1
            }
        }
    }

    fn release(&mut self, file: usize) {
        let open = &mut self.files[file];
        open.users -= 1;
        if open.users == 0 {
            if let FileKind::Socket { port: Some(port), .. } = open.kind {
                self.ports.remove(&port);
            }
            self.free_files.push(file);
        }
    }

    fn open(&mut self, pid: usize, name: &[u8], regs: &Regs, ids: Ids) -> Outcome {
        let flags = regs[1];
        if flags & 3 == 3 {
            return Err(Errno::Inval);
        }
        if self.is_full(pid) {
            return Err(Errno::MFile);
        }
        self.tree.walk(name, ids.euid, ids.egid)?;
        let (read, write) = (flags & 3 != 1, flags & 3 != 0);
        let mut changes = Vec::new();
        let object = match self.tree.object(name) {
            None => {
                if flags & O_CREAT == 0 {
                    return Err(Errno::NoEnt);
                }
                self.parent_leave(name, ids)?;
                let (object, made) = self.make(name, Kind::File(Vec::new()), regs[2] as u32 & 0o777, ids)?;
                changes.push(made);
                object
            }
            Some(_) if flags & O_CREAT != 0 && flags & O_EXCL != 0 => return Err(Errno::Exist),
            Some(object) => {
                let cuts = flags & O_TRUNC != 0;
                if self.tree.is_dir(object) && (write || cuts) {
                    return Err(Errno::IsDir);
                }
                let may = |want| self.tree.allowed(object, ids.euid, ids.egid, want);
                if (read && !may(Want::Read)) || ((write || cuts) && !may(Want::Write)) {
                    return Err(Errno::Acces);
                }
                if cuts {
                    changes.push(self.cut(object, 0));
                }
                object
            }
        };
        let kind = FileKind::Node(object);
        let file = self.add_file(OpenFile { kind, read, write, append: flags & O_APPEND != 0, offset: 0, users: 1 });
        Ok(Done { value: self.describe(pid, file), changes })
    }

    fn close(&mut self, pid: usize, fd: u64) -> Outcome {
        let file = self.file(pid, fd)?;
        self.processes[pid].descriptors[fd as usize] = None;
        self.release(file);
        value(0)
    }

    fn dup(&mut self, pid: usize, fd: u64) -> Outcome {
        let file = self.file(pid, fd)?;
        if self.is_full(pid) {
            return Err(Errno::MFile);
        }
        self.files[file].users += 1;
        value(self.describe(pid, file))
    }

    fn read(&mut self, pid: usize, regs: &Regs) -> Outcome {
        let [fd, at, count, ..] = *regs;
        let number = self.file(pid, fd)?;
        let file = &mut self.files[number];
        if !file.read {
            return Err(Errno::BadF);
        }
        let content = match file.kind {
            FileKind::Socket { .. } => return Err(Errno::Inval),
            FileKind::Console => None,
            FileKind::Node(object) => match &self.tree.node(object).kind {
                Kind::File(bytes) => Some(bytes),
                _ => return Err(Errno::IsDir),
            },
        };
        range(at, count)?;
        let rest = content.and_then(|bytes| bytes.get(file.offset as usize..)).unwrap_or_default();
        let bytes = rest[..rest.len().min(count as usize)].to_vec();
        if bytes.is_empty() {
            return value(0);
        }
        let read = bytes.len() as u64;
        file.offset += read;
        Ok(Done { value: read, changes: vec![self.put(pid, at, bytes)] })
    }

    fn write(&mut self, pid: usize, regs: &Regs) -> Outcome {
        let [fd, at, count, ..] = *regs;
        let number = self.file(pid, fd)?;
        let file = &mut self.files[number];
        if !file.write {
            return Err(Errno::BadF);
        }
        if matches!(file.kind, FileKind::Socket { .. }) {
            return Err(Errno::Inval);
        }
        let from = range(at, count)?;
        let FileKind::Node(object) = file.kind else { return value(count) };
        let Kind::File(content) = &mut self.tree.node_mut(object).kind else { return Err(Errno::IsDir) };
        if count == 0 {
            return value(0);
        }
        let offset = if file.append { content.len() as u64 } else { file.offset };
        let end = offset + count;
        if end > MOST_BYTES {
            return Err(Errno::NoSpc);
        }
        let bytes = self.processes[pid].memory[from].to_vec();
        if content.len() < end as usize {
            content.resize(end as usize, 0);
        }
        content[offset as usize..end as usize].copy_from_slice(&bytes);
        file.offset = end;
        Ok(Done { value: count, changes: vec![Change::Written(object, offset, bytes)] })
    }

    fn lseek(&mut self, pid: usize, regs: &Regs) -> Outcome {
        let number = self.file(pid, regs[0])?;
        let file = &mut self.files[number];
        let FileKind::Node(object) = file.kind else { return Err(Errno::Inval) };
        let Kind::File(content) = &self.tree.node(object).kind else { return Err(Errno::Inval) };
        let base = match regs[2] {
            0 => 0,
            1 => file.offset as i64,
            2 => content.len() as i64,
            _ => return Err(Errno::Inval),
        };
        let sum = base.checked_add(regs[1] as i64).and_then(|sum| u64::try_from(sum).ok());
        file.offset = sum.filter(|&sum| sum <= MOST_BYTES).ok_or(Errno::Inval)?;
        value(file.offset)
    }

    // Names.

    /// The object of a name, after the test of the walk to it.
    fn present(&self, name: &[u8], ids: Ids) -> Result<usize, Errno> {
        self.tree.walk(name, ids.euid, ids.egid)?;
        self.tree.object(name).ok_or(Errno::NoEnt)
    }

    fn absent(&self, name: &[u8], ids: Ids) -> Result<(), Errno> {
        self.tree.walk(name, ids.euid, ids.egid)?;
        if self.tree.object(name).is_some() { Err(Errno::Exist) } else { Ok(()) }
    }

    fn parent_leave(&self, name: &[u8], ids: Ids) -> Result<(), Errno> {
        let Some((parent, _)) = tree::split_last(name) else { return Ok(()) };
        match self.tree.object(parent) {
            Some(object) if !self.tree.allowed(object, ids.euid, ids.egid, Want::Write) => Err(Errno::Acces),
            _ => Ok(()),
        }
    }

    fn make(&mut self, name: &[u8], kind: Kind, mode: u32, ids: Ids) -> Result<(usize, Change), Errno> {
        if self.tree.is_full() {
            return Err(Errno::NoSpc);
        }
        let (word, target) = match &kind {
            Kind::Dir(_) => ("dir", Vec::new()),
            Kind::File(_) => ("file", Vec::new()),
            Kind::Link(target) => ("link", target.clone()),
        };
        let object = self.tree.add(name, Object { kind, uid: ids.euid, gid: ids.egid, mode });
        Ok((object, Change::Made { name: name.to_vec(), object, kind: word, ids, mode, target }))
    }

    fn cut(&mut self, object: usize, len: u64) -> Change {
        if let Kind::File(content) = &mut self.tree.node_mut(object).kind {
            content.resize(len as usize, 0);
        }
        Change::Cut(object, len)
    }

    fn is_empty_dir(&self, object: usize) -> bool {
        matches!(&self.tree.node(object).kind, Kind::Dir(entries) if entries.is_empty())
    }

    fn stat(&mut self, pid: usize, name: &[u8], at: u64, ids: Ids) -> Outcome {
        let node = self.tree.node(self.present(name, ids)?);
        if !at.is_multiple_of(8) {
            return Err(Errno::Fault);
        }
        range(at, 40)?;
        let (kind, size) = match &node.kind {
            Kind::Dir(entries) => (1, entries.len()),
            Kind::File(content) => (2, content.len()),
            Kind::Link(target) => (3, target.len()),
        };
        let words = [kind, node.mode.into(), node.uid.into(), node.gid.into(), size as u64];
        change(self.put(pid, at, words.iter().flat_map(|word| word.to_le_bytes()).collect()))
    }

    fn access(&mut self, name: &[u8], mode: u64, ids: Ids) -> Outcome {
        if mode > 7 {
            return Err(Errno::Inval);
        }
        let object = self.present(name, Ids { euid: ids.ruid, egid: ids.rgid, ..ids })?;
        let execute = if self.tree.is_dir(object) { Want::Search } else { Want::Execute };
        let lacks = |bit, want| mode & bit != 0 && !self.tree.allowed(object, ids.ruid, ids.rgid, want);
        if lacks(4, Want::Read) || lacks(2, Want::Write) || lacks(1, execute) { Err(Errno::Acces) } else { value(0) }
    }

    fn readlink(&mut self, pid: usize, name: &[u8], regs: &Regs, ids: Ids) -> Outcome {
        let Kind::Link(target) = &self.tree.node(self.present(name, ids)?).kind else { return Err(Errno::Inval) };
        range(regs[1], regs[2])?;
        let bytes = target[..target.len().min(regs[2] as usize)].to_vec();
        Ok(Done { value: bytes.len() as u64, changes: vec![self.put(pid, regs[1], bytes)] })
    }

    fn unlink(&mut self, name: &[u8], ids: Ids) -> Outcome {
        let object = self.present(name, ids)?;
        self.parent_leave(name, ids)?;
        if self.tree.is_dir(object) {
            return Err(Errno::Perm);
        }
        self.tree.remove(name);
        change(Change::Removed(name.to_vec()))
    }

    fn link(&mut self, old: &[u8], new: &[u8], ids: Ids) -> Outcome {
        let object = self.present(old, ids)?;
        if self.tree.is_dir(object) {
            return Err(Errno::Perm);
        }
        self.absent(new, ids)?;
        self.parent_leave(new, ids)?;
        self.tree.link(new, object);
        change(Change::Linked(new.to_vec(), object))
    }

    fn symlink(&mut self, text: &[u8], name: &[u8], ids: Ids) -> Outcome {
        if text.is_empty() {
            return Err(Errno::NoEnt);
        }
        self.absent(name, ids)?;
        self.parent_leave(name, ids)?;
        change(self.make(name, Kind::Link(text.to_vec()), 0o777, ids)?.1)
    }

    fn rename(&mut self, old: &[u8], new: &[u8], ids: Ids) -> Outcome {
        let object = self.present(old, ids)?;
        self.tree.walk(new, ids.euid, ids.egid)?;
        if old == b"/" || new == b"/" || tree::leads_on(old, new) {
            return Err(Errno::Inval);
        }
        let replaced = self.tree.object(new);
        if replaced == Some(object) {
            return value(0);
        }
        self.parent_leave(old, ids)?;
        self.parent_leave(new, ids)?;
        let mut changes = Vec::new();
        if let Some(replaced) = replaced {
            match (self.tree.is_dir(object), self.tree.is_dir(replaced)) {
                (true, false) => return Err(Errno::NotDir),
                (false, true) => return Err(Errno::IsDir),
                (true, true) if !self.is_empty_dir(replaced) => return Err(Errno::NotEmpty),
                _ => {}
            }
            self.tree.remove(new);
            changes.push(Change::Removed(new.to_vec()));
        }
        self.tree.rename(old, new);
        changes.push(Change::Renamed(old.to_vec(), new.to_vec()));
        Ok(Done { value: 0, changes })
    }

    fn mkdir(&mut self, name: &[u8], mode: u64, ids: Ids) -> Outcome {
        self.absent(name, ids)?;
        self.parent_leave(name, ids)?;
        change(self.make(name, Kind::Dir(BTreeMap::new()), mode as u32 & 0o777, ids)?.1)
    }

    fn rmdir(&mut self, name: &[u8], ids: Ids) -> Outcome {
        if name == b"/" {
            return Err(Errno::Inval);
        }
        let object = self.present(name, ids)?;
        if !self.tree.is_dir(object) {
            return Err(Errno::NotDir);
        }
        self.parent_leave(name, ids)?;
        if !self.is_empty_dir(object) {
            return Err(Errno::NotEmpty);
        }
        self.tree.remove(name);
        change(Change::Removed(name.to_vec()))
    }

    fn chdir(&mut self, pid: usize, name: &[u8], ids: Ids) -> Outcome {
        let object = self.present(name, ids)?;
        if !self.tree.is_dir(object) {
            return Err(Errno::NotDir);
        }
        if !self.tree.allowed(object, ids.euid, ids.egid, Want::Search) {
            return Err(Errno::Acces);
        }
        self.processes[pid].cwd = name.to_vec();
        change(Change::Cwd(name.to_vec()))
    }

    fn chmod(&mut self, name: &[u8], mode: u64, ids: Ids) -> Outcome {
        let object = self.present(name, ids)?;
        let node = self.tree.node_mut(object);
        if ids.euid != 0 && ids.euid != node.uid {
            return Err(Errno::Perm);
        }
        node.mode = mode as u32 & 0o777;
        change(Change::Moded(object, node.mode))
    }

    fn chown(&mut self, name: &[u8], regs: &Regs, ids: Ids) -> Outcome {
        let (uid, gid) = (id(regs[1])?, id(regs[2])?);
        let object = self.present(name, ids)?;
        if ids.euid != 0 {
            return Err(Errno::Perm);
        }
        let node = self.tree.node_mut(object);
        (node.uid, node.gid) = (uid, gid);
        change(Change::Owned(object, uid, gid))
    }

    fn truncate(&mut self, name: &[u8], len: u64, ids: Ids) -> Outcome {
        if len > MOST_BYTES {
            return Err(Errno::Inval);
        }
        let object = self.present(name, ids)?;
        if self.tree.is_dir(object) {
            return Err(Errno::IsDir);
        }
        if !self.tree.allowed(object, ids.euid, ids.egid, Want::Write) {
            return Err(Errno::Acces);
        }
        change(self.cut(object, len))
    }

    // Processes.

    fn fork(&mut self, pid: usize, tid: usize) -> Outcome {
        let space = self.new_space();
        let parent = &self.processes[pid];
        let child = Process {
            traced: parent.traced,
            policy: Arc::clone(&parent.policy),
            ids: parent.ids,
            cwd: parent.cwd.clone(),
            alive: true,
            threads: 0,
            space,
            memory: parent.memory.clone(),
            descriptors: parent.descriptors.clone(),
        };
        for &file in child.descriptors.iter().flatten() {
            self.files[file].users += 1;
        }
        let pid = self.processes.len();
        self.processes.push(child);
        Ok(Done { value: pid as u64 + 1, changes: vec![Change::Forked { pid, space, tid }] })
    }

    fn execve(&mut self, pid: usize, name: &[u8], ids: Ids) -> Outcome {
        let object = self.present(name, ids)?;
        let Kind::File(content) = &self.tree.node(object).kind else { return Err(Errno::Acces) };
        if !self.tree.allowed(object, ids.euid, ids.egid, Want::Execute) {
            return Err(Errno::Acces);
        }
        if content.is_empty() {
            return Err(Errno::NoExec);
        }
        let space = self.new_space();
        let process = &mut self.processes[pid];
        process.space = space;
        process.memory = vec![0; MEMORY];
        let mut changes = vec![Change::Execed(name.to_vec(), space)];
        if !self.inherit {
            process.policy = self.policies.get(name);
            changes.push(Change::Policy(name.to_vec()));
        }
        Ok(Done { value: 0, changes })
    }

    fn kill(&mut self, regs: &Regs, ids: Ids) -> Outcome {
        let [target, signal, ..] = *regs;
        if signal != 0 && signal != 9 {
            return Err(Errno::Inval);
        }
        let pid = target.checked_sub(1).and_then(|pid| usize::try_from(pid).ok()).ok_or(Errno::Srch)?;
        let process = self.processes.get(pid).filter(|process| process.alive).ok_or(Errno::Srch)?;
        if ids.euid != 0 && ids.ruid != process.ids.ruid && ids.euid != process.ids.ruid {
            return Err(Errno::Perm);
        }
        if signal == 9 { change(Change::Dying(pid)) } else { value(0) }
    }

    fn set_ids(&mut self, pid: usize, call: Call, register: u64) -> Outcome {
        let new = id(register)?;
        let ids = &mut self.processes[pid].ids;
        let is_root = ids.euid == 0;
        let (real, effective) = match call {
            Call::Setuid | Call::Seteuid => (&mut ids.ruid, &mut ids.euid),
            _ => (&mut ids.rgid, &mut ids.egid),
        };
        let sets_real = matches!(call, Call::Setuid | Call::Setgid);
        if !is_root && new != *real && (sets_real || new != *effective) {
            return Err(Errno::Perm);
        }
        *effective = new;
        if is_root && sets_real {
            *real = new;
        }
        let ids = *ids;
        change(Change::SetIds(ids))
    }

    // Sockets.

    fn socket(&mut self, pid: usize) -> Outcome {
        if self.is_full(pid) {
            return Err(Errno::MFile);
        }
        let kind = FileKind::Socket { port: None, connected: false };
        let file = self.add_file(OpenFile { kind, read: true, write: true, append: false, offset: 0, users: 1 });
        value(self.describe(pid, file))
    }

    fn bind(&mut self, pid: usize, fd: u64, port: u16, ids: Ids) -> Outcome {
        let file = self.file(pid, fd)?;
        let FileKind::Socket { port: own @ None, .. } = &mut self.files[file].kind else { return Err(Errno::Inval) };
        if port == 0 {
            return Err(Errno::Inval);
        }
        if port < 1024 && ids.euid != 0 {
            return Err(Errno::Acces);
        }
        if !self.ports.insert(port) {
            return Err(Errno::AddrInUse);
        }
        *own = Some(port);
        value(0)
    }

    fn connect(&mut self, pid: usize, fd: u64, port: u16) -> Outcome {
        let file = self.file(pid, fd)?;
        let FileKind::Socket { connected: connected @ false, .. } = &mut self.files[file].kind else {
            return Err(Errno::Inval);
        };
        if !self.ports.contains(&port) {
            return Err(Errno::ConnRefused);
        }
        *connected = true;
        value(0)
    }
}

/// The port of an address's text, which is after its last colon.
fn port_of(text: &[u8]) -> u16 {
    let digits = text.rsplit(|&b| b == b':').next().unwrap_or_default();
    std::str::from_utf8(digits).ok().and_then(|digits| digits.parse().ok()).unwrap_or(0)
}
