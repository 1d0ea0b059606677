//! The machine: threads, messages and workers, one step at a time.
use crate::args::{Gathering, Need};
use crate::calls::{self, Arg, ArgKind, Call, Errno, Ids, Regs, Rule};
use crate::operator::{Mode, Operator};
use crate::policy::{Action, Filter, Policies, Policy, Verdict};
use crate::print::{Audit, Cause, Choice, Entry, How, Judged, Printer, Used, Way};
use crate::script::{Instr, Script};
use crate::system::{Change, System};
use crate::tree;
use std::collections::BTreeSet;
use std::sync::Arc;

pub struct Options {
    pub mode: Mode,
    pub inherit: bool,
    pub aliasing: bool,
    pub ids: Option<(u32, u32)>,
    pub workers: usize,
    /// Whether the programs are those of Linux.
    pub linux: bool,
}

struct Thread {
    body: Vec<Instr>,
    next: usize,
    pid: Option<usize>,
    dying: bool,
    ended: bool,
    pending: Option<Pending>,
}

/// A call that was entered.
#[derive(Clone, Copy)]
struct Pending {
    call: Call,
    regs: Regs,
    child: Option<usize>,
    way: Way,
}

/// What a message keeps of its call.
#[derive(Clone)]
struct Head {
    tid: usize,
    pid: usize,
    ids: Ids,
    cwd: Vec<u8>,
    policy: Arc<Policy>,
    rule: Rule,
    call: Call,
    regs: Regs,
}

struct Message {
    head: Arc<Head>,
    /// What it was answered with. A question has none until the operator has answered it.
    answer: Option<Answer>,
}

/// All messages, by their drawings, which count from 1.
struct Messages {
    /// Those that live no more are none.
    all: Vec<Option<Message>>,
    /// The live ones that no worker has claimed.
    waiting: BTreeSet<u64>,
    /// The number of each message.
    numbers: Vec<u16>,
    /// A bit for each number, whether it is in use. At most 72 are.
    in_use: Vec<u64>,
}

impl Default for Messages {
    fn default() -> Self {
        Messages { all: Vec::new(), waiting: BTreeSet::new(), numbers: Vec::new(), in_use: vec![0; 1024] }
    }
}

impl Messages {
    fn next_drawing(&self) -> u64 {
        self.all.len() as u64 + 1
    }

    fn post(&mut self, head: Head) -> u64 {
        let drawing = self.next_drawing();
        let number = self.next_number();
        self.numbers.push(number);
        self.in_use[number as usize / 64] |= 1 << (number % 64);
        self.all.push(Some(Message { head: Arc::new(head), answer: None }));
        self.waiting.insert(drawing);
        drawing
    }

    /// The first number after the last one, in a circle, that isn't in use.
    fn next_number(&self) -> u16 {
        let mut number = self.numbers.last().copied().unwrap_or(0);
        loop {
            number = number.checked_add(1).unwrap_or(1);
            if self.in_use[number as usize / 64] >> (number % 64) & 1 == 0 {
                return number;
            }
        }
    }

    fn number(&self, drawing: u64) -> u16 {
        self.numbers[drawing as usize - 1]
    }

    /// The number of a message is free again.
    fn free(&mut self, drawing: u64) {
        let number = self.number(drawing);
        self.in_use[number as usize / 64] &= !(1 << (number % 64));
    }

    fn get(&self, drawing: u64) -> Option<&Message> {
        self.all.get(drawing as usize - 1)?.as_ref()
    }

    /// Answers a message, if it lives.
    fn answer(&mut self, drawing: u64, answer: Answer) {
        if let Some(Some(message)) = self.all.get_mut(drawing as usize - 1) {
            message.answer = Some(answer);
        }
    }

    fn remove(&mut self, drawing: u64) -> Option<Message> {
        self.waiting.remove(&drawing);
        self.all.get_mut(drawing as usize - 1)?.take()
    }
}

enum Answer {
    Fault(Errno),
    Verdict(Verdict, Arc<[Arg]>),
}

/// What a worker has at hand.
struct Turn {
    drawing: u64,
    head: Arc<Head>,
    gathering: Gathering,
}

/// A call whose arguments are there, to be judged.
pub struct Judging {
    drawing: u64,
    head: Arc<Head>,
    args: Arc<[Arg]>,
}

impl Judging {
    pub fn judge(&self) -> Verdict {
        self.head.policy.decide(self.head.rule, &self.args, self.head.ids)
    }
}

/// What the runner of a thread does next.
pub enum Next {
    Move,
    /// Its call waits, and this worker is idle.
    Claim(usize),
    /// The operator is asked about its call.
    Ask,
    Wait,
    End,
}

pub struct Kernel {
    system: System,
    threads: Vec<Thread>,
    messages: Messages,
    workers: Vec<Option<Turn>>,
    operator: Operator,
    aliasing: bool,
    /// The script's policies, and the texts of their filters.
    policies: Vec<(Arc<Policy>, String)>,
    printer: Printer,
    /// The thread that the last step started, and those that it let go on.
    started: Option<usize>,
    released: Vec<usize>,
}

impl Kernel {
    pub fn start(script: Script, mut policies: Policies, options: &Options, printer: Printer) -> Kernel {
        let operator = Operator::new(options.mode, script.replies, &mut policies);
        let texts = script.policies.into_iter().zip(1..).map(|(mut policy, version)| {
            let text = std::mem::take(&mut policy.text);
            (policies.of_script(policy, version), text)
        });
        let script_policies = texts.collect();
        let mut system = System::new(script.tree, policies, options.inherit);
        for row in script.processes {
            let given = options.ids.filter(|_| row.traced);
            let (uid, gid) = given.unwrap_or((row.uid, row.gid));
            system.start(row.traced, &row.binary, Ids { ruid: uid, euid: uid, rgid: gid, egid: gid }, row.cwd);
        }
        let mut threads = Vec::new();
        for row in script.threads {
            if let Some(pid) = row.process {
                system.processes[pid].threads += 1;
            }
            let (body, pid) = (row.body, row.process);
            threads.push(Thread { body, next: 0, pid, dying: false, ended: false, pending: None });
        }
        Kernel {
            system,
            threads,
            messages: Messages::default(),
            workers: (0..options.workers).map(|_| None).collect(),
            operator,
            aliasing: options.aliasing,
            policies: script_policies,
            printer,
            started: None,
            released: Vec::new(),
        }
    }

    /// The text of the run.
    pub fn finish(self) -> String {
        self.printer.finish()
    }

    /// What was written since the last call.
    pub fn take_text(&mut self) -> String {
        self.printer.take_text()
    }

    /// The worker that is at the message of this number.
    pub fn worker_at(&self, seq: u16) -> Option<usize> {
        let is_at_it = |turn: &Turn| self.messages.number(turn.drawing) == seq;
        self.workers.iter().position(|turn| turn.as_ref().is_some_and(is_at_it))
    }

    fn is_enabled(&self, choice: Choice) -> bool {
        match choice {
            Choice::Thread(tid) => self.threads.get(tid).is_some_and(|thread| self.can_move(thread)),
            Choice::Worker(worker) => match self.workers.get(worker) {
                None => false,
                Some(None) => !self.messages.waiting.is_empty(),
                Some(Some(_)) => true,
            },
            Choice::Operator => self.operator.is_asked(),
        }
    }

    fn can_move(&self, thread: &Thread) -> bool {
        if thread.pid.is_none() || thread.ended {
            return false;
        }
        match thread.pending {
            Some(Pending { way: Way::Held(drawing), .. }) if !thread.dying => {
                self.messages.get(drawing).is_some_and(|message| message.answer.is_some())
            }
            _ => true,
        }
    }

    /// Makes a choice, if it is enabled.
    pub fn advance(&mut self, choice: Choice) -> bool {
        if !self.is_enabled(choice) {
            return false;
        }
        self.started = None;
        self.released.clear();
        match choice {
            Choice::Thread(tid) => self.thread_step(tid),
            Choice::Worker(worker) => self.worker_step(worker),
            Choice::Operator => self.operator_step(),
        }
        self.printer.choice(choice);
        true
    }

    /// Goes on with the first enabled choice until there is none.
    pub fn rest(&mut self) {
        loop {
            let threads = (0..self.threads.len()).map(Choice::Thread);
            let workers = (0..self.workers.len()).map(Choice::Worker);
            let choices = threads.chain(workers).chain([Choice::Operator]);
            let Some(choice) = choices.into_iter().find(|&choice| self.is_enabled(choice)) else { return };
            self.advance(choice);
        }
    }

    // What those need who run the machine by threads.

    pub fn threads(&self) -> usize {
        self.threads.len()
    }

    pub fn has_started(&self, tid: usize) -> bool {
        self.threads[tid].pid.is_some()
    }

    pub fn next(&self, tid: usize) -> Next {
        let thread = &self.threads[tid];
        if thread.ended {
            return Next::End;
        }
        if self.can_move(thread) {
            return Next::Move;
        }
        let Some(Pending { way: Way::Held(drawing), .. }) = thread.pending else { return Next::Wait };
        if self.messages.waiting.contains(&drawing) {
            return self.workers.iter().position(Option::is_none).map_or(Next::Wait, Next::Claim);
        }
        if self.operator.is_asked_about(drawing) { Next::Ask } else { Next::Wait }
    }

    /// The threads whose calls wait, if a worker is idle.
    pub fn claimable(&self) -> impl Iterator<Item = usize> {
        let most = if self.workers.iter().any(Option::is_none) { usize::MAX } else { 0 };
        self.messages.waiting.iter().take(most).filter_map(|&drawing| Some(self.messages.get(drawing)?.head.tid))
    }

    /// The message that a worker is at.
    pub fn working_on(&self, worker: usize) -> Option<u64> {
        self.workers[worker].as_ref().map(|turn| turn.drawing)
    }

    pub fn take_started(&mut self) -> Option<usize> {
        self.started.take()
    }

    pub fn take_released(&mut self) -> Vec<usize> {
        std::mem::take(&mut self.released)
    }

    /// What a worker is to judge, if it is ready. It is the one who is given this that answers for the worker.
    pub fn ready(&mut self, worker: usize) -> Option<Judging> {
        let turn = self.workers[worker].as_mut()?;
        if !matches!(turn.gathering.need(), Need::Ready) {
            return None;
        }
        let args = std::mem::take(&mut turn.gathering.args).into();
        Some(Judging { drawing: turn.drawing, head: Arc::clone(&turn.head), args })
    }

    /// Makes the step of a worker that answers what it had to judge.
    pub fn answer(&mut self, worker: usize, judging: Judging, verdict: Verdict) {
        self.give_answer(worker, judging, verdict);
        self.printer.choice(Choice::Worker(worker));
    }

    // Threads.

    fn thread_step(&mut self, tid: usize) {
        let thread = &mut self.threads[tid];
        let Some(pid) = thread.pid else { return };
        if thread.dying {
            return self.end(tid, pid);
        }
        if let Some(pending) = thread.pending.take() {
            return self.go_on(tid, pid, pending);
        }
        let Some(&instr) = thread.body.get(thread.next) else { return self.end(tid, pid) };
        thread.next += 1;
        match instr {
            Instr::Store(place, word) => {
                self.system.store(pid, place, word);
                self.printer.entry(Entry::Stored { tid, place, word });
            }
            Instr::Call(call, regs) => self.enter(tid, pid, call, regs, None),
            Instr::Fork(child) => self.enter(tid, pid, Call::Fork, [0; 6], Some(child)),
            Instr::Reload(policy) => self.reload(tid, pid, policy),
        }
    }

    fn end(&mut self, tid: usize, pid: usize) {
        self.threads[tid].ended = true;
        self.system.end_thread(pid);
        self.printer.entry(Entry::Ended { tid });
    }

    fn enter(&mut self, tid: usize, pid: usize, call: Call, regs: Regs, child: Option<usize>) {
        let process = &self.system.processes[pid];
        let rule = Rule::of_call(call, &regs, self.aliasing);
        let way = match self.operator.first_filter(&process.policy, rule) {
            _ if !process.traced => Way::Untraced,
            Some(filter) if filter.is_plain() => match filter.action {
                Action::Permit => Way::Fast,
                Action::Deny(errno) => Way::Barred(errno),
                Action::Ask => Way::Held(self.messages.next_drawing()),
            },
            _ => Way::Held(self.messages.next_drawing()),
        };
        if matches!(way, Way::Held(_)) {
            let (cwd, policy) = (process.cwd.clone(), Arc::clone(&process.policy));
            self.messages.post(Head { tid, pid, ids: process.ids, cwd, policy, rule, call, regs });
        }
        self.threads[tid].pending = Some(Pending { call, regs, child, way });
        let number = self.messages.numbers.last().copied().unwrap_or(0);
        self.printer.entry(Entry::Entered { tid, call, regs: &regs, way, number });
    }

    /// Ends a message's life. A worker that still copies for it is idle then.
    fn close(&mut self, drawing: u64) -> Option<Message> {
        for worker in &mut self.workers {
            let is_at_it = |turn: &Turn| turn.drawing == drawing && !matches!(turn.gathering.need(), Need::Ready);
            if worker.as_ref().is_some_and(is_at_it) {
                *worker = None;
            }
        }
        self.operator.withdraw(drawing);
        self.messages.remove(drawing)
    }

    /// Frees the number of a message whose life has ended, unless a worker is ready with it.
    fn let_go(&mut self, drawing: u64) {
        let is_kept = self.workers.iter().flatten().any(|turn| turn.drawing == drawing);
        if self.messages.get(drawing).is_none() && !is_kept {
            self.messages.free(drawing);
        }
    }

    // Workers.

    fn worker_step(&mut self, worker: usize) {
        let Some(turn) = &mut self.workers[worker] else { return self.claim(worker) };
        let (drawing, part) = (turn.drawing, turn.gathering.part());
        let seq = self.messages.number(drawing);
        match turn.gathering.need() {
            Need::Word(place) => {
                let word = self.system.word(turn.head.pid, place);
                turn.gathering.take_word(word);
                self.printer.entry(Entry::Copied { seq, part, place, word });
            }
            Need::Look => {
                let name = turn.gathering.look_name();
                let seen = self.system.tree.look(&name);
                turn.gathering.take_look(&seen);
                self.printer.entry(Entry::Looked { seq, part, name: &name, seen: &seen });
            }
            Need::Fault(errno) => {
                self.released.push(turn.head.tid);
                self.workers[worker] = None;
                self.messages.answer(drawing, Answer::Fault(errno));
                self.printer.entry(Entry::Faulted { seq, errno });
            }
            Need::Ready => {
                if let Some(judging) = self.ready(worker) {
                    let verdict = judging.judge();
                    self.give_answer(worker, judging, verdict);
                }
            }
        }
    }

    fn claim(&mut self, worker: usize) {
        let Some(drawing) = self.messages.waiting.pop_first() else { return };
        let Some(head) = self.messages.get(drawing).map(|message| Arc::clone(&message.head)) else { return };
        let gathering = Gathering::new(head.call, head.regs, head.cwd.clone());
        self.workers[worker] = Some(Turn { drawing, head, gathering });
        self.printer.entry(Entry::Claimed { worker, seq: self.messages.number(drawing) });
    }

    fn give_answer(&mut self, worker: usize, judging: Judging, verdict: Verdict) {
        let Judging { drawing, head, args } = judging;
        self.workers[worker] = None;
        let judged = Judged {
            pid: head.pid,
            ids: head.ids,
            policy: &head.policy.binary,
            version: head.policy.version,
            rule: head.rule,
            call: head.call,
            regs: &head.regs,
            args: &args,
        };
        let applied = self.messages.get(drawing).is_some();
        let seq = self.messages.number(drawing);
        self.printer.entry(Entry::Answered { worker, seq, judged: &judged, verdict, applied });
        if !applied {
            return self.let_go(drawing);
        }
        self.released.push(head.tid);
        let verdict = match verdict {
            Verdict::Unmatched => self.operator.decide((drawing, seq), &head.policy, head.rule, &args, head.ids),
            _ => Some(verdict),
        };
        if let Some(verdict) = verdict {
            self.messages.answer(drawing, Answer::Verdict(verdict, args));
        }
    }

    // The operator.

    fn operator_step(&mut self) {
        for (drawing, verdict, args) in self.operator.answer(&mut self.printer) {
            self.released.extend(self.messages.get(drawing).map(|message| message.head.tid));
            self.messages.answer(drawing, Answer::Verdict(verdict, args));
        }
    }

    // Threads with a call.

    fn go_on(&mut self, tid: usize, pid: usize, pending: Pending) {
        match pending.way {
            Way::Fast | Way::Untraced => self.use_at_once(tid, pid, pending),
            Way::Barred(errno) => {
                let policy = Arc::clone(&self.system.processes[pid].policy);
                let rule = Rule::of_call(pending.call, &pending.regs, self.aliasing);
                self.printer.entry(Entry::Denied { tid, seq: None, errno, cause: Cause::Filter(1) });
                let (policy, how, result) = (&policy.binary, How::Barred, Err(errno));
                self.printer.audit(Audit { pid, tid, policy, rule, args: &[], how, result, log: false });
            }
            Way::Held(drawing) => {
                self.use_held(tid, drawing, pending);
                self.let_go(drawing);
            }
        }
    }

    /// Makes a call that is not held, with its arguments as they are now.
    fn use_at_once(&mut self, tid: usize, pid: usize, pending: Pending) {
        let Pending { call, regs, child, way } = pending;
        let process = &self.system.processes[pid];
        let (ids, policy) = (process.ids, Arc::clone(&process.policy));
        let gathered = self.gather(pid, call, regs, process.cwd.clone());
        let (args, outcome) = match gathered {
            Err(errno) => (Vec::new(), Err(errno)),
            Ok(args) => {
                let outcome = self.system.execute(pid, call, &regs, &args, ids, child);
                (args, outcome)
            }
        };
        let (result, mut changes) = match outcome {
            Ok(done) => (Ok(done.value), done.changes),
            Err(errno) => (Err(errno), Vec::new()),
        };
        if result.is_ok() {
            changes.extend(self.follow_up(tid, pid, call, &regs, child));
        }
        let used = Used { call, regs: &regs, ids, args: &args, result, changes: &changes };
        self.printer.entry(Entry::Used { tid, seq: None, used: &used });
        if matches!(way, Way::Fast) {
            let rule = Rule::of_call(call, &regs, self.aliasing);
            let (policy, how) = (&policy.binary, How::Fast);
            self.printer.audit(Audit { pid, tid, policy, rule, args: &[], how, result, log: false });
        }
    }

    fn gather(&self, pid: usize, call: Call, regs: Regs, cwd: Vec<u8>) -> Result<Vec<Arg>, Errno> {
        let mut gathering = Gathering::new(call, regs, cwd);
        loop {
            match gathering.need() {
                Need::Word(place) => gathering.take_word(self.system.word(pid, place)),
                Need::Look => {
                    let name = gathering.look_name();
                    gathering.take_look(&self.system.tree.look(&name));
                }
                Need::Fault(errno) => return Err(errno),
                Need::Ready if self.link_met(call, &regs, &gathering.args).is_some() => return Err(Errno::Loop),
                Need::Ready => return Ok(gathering.args),
            }
        }
    }

    /// The first link on the way to a name of the call.
    fn link_met<'a>(&self, call: Call, regs: &Regs, args: &'a [Arg]) -> Option<&'a [u8]> {
        for (spec, arg) in calls::args_of(call).iter().zip(args).filter(|(spec, _)| spec.kind == ArgKind::Name) {
            let own = calls::follows(call, regs, spec.register).then_some(&arg.text[..]);
            let met = tree::proper_prefixes(&arg.text).chain(own).find(|name| self.system.tree.is_link(name));
            if met.is_some() {
                return met;
            }
        }
        None
    }

    fn use_held(&mut self, tid: usize, drawing: u64, pending: Pending) {
        let Some(Message { head, answer: Some(answer) }) = self.close(drawing) else { return };
        let (verdict, args) = match answer {
            Answer::Fault(errno) => return self.deny(tid, drawing, &head, &[], errno, Cause::Fault, false),
            Answer::Verdict(verdict, args) => (verdict, args),
        };
        let (number, ids) = match verdict {
            Verdict::Unmatched => return self.deny(tid, drawing, &head, &args, Errno::Perm, Cause::NoFilter, false),
            Verdict::Refuse(number, errno) => {
                let log = self.operator.filter(&head.policy, head.rule, number).log;
                return self.deny(tid, drawing, &head, &args, errno, Cause::Filter(number), log);
            }
            Verdict::Permit(number, ids) => (number, ids),
        };
        let &Filter { log, grant, .. } = self.operator.filter(&head.policy, head.rule, number);
        if let Some(name) = self.link_met(head.call, &head.regs, &args) {
            return self.deny(tid, drawing, &head, &args, Errno::Loop, Cause::Link(name), log);
        }
        let (result, mut changes) =
            match self.system.execute(head.pid, head.call, &head.regs, &args, ids, pending.child) {
                Ok(done) => (Ok(done.value), done.changes),
                Err(errno) => (Err(errno), Vec::new()),
            };
        if result.is_ok() {
            changes.extend(self.follow_up(tid, head.pid, head.call, &head.regs, pending.child));
        }
        let used = Used { call: head.call, regs: &head.regs, ids, args: &args, result, changes: &changes };
        self.printer.entry(Entry::Used { tid, seq: Some(self.messages.number(drawing)), used: &used });
        let how = How::Permit { number, granted: grant.map(|_| ids) };
        let (pid, policy, rule) = (head.pid, &head.policy.binary, head.rule);
        self.printer.audit(Audit { pid, tid, policy, rule, args: &args, how, result, log });
    }

    #[allow(clippy::too_many_arguments)]
    fn deny(&mut self, tid: usize, drawing: u64, head: &Head, args: &[Arg], errno: Errno, cause: Cause, log: bool) {
        self.printer.entry(Entry::Denied { tid, seq: Some(self.messages.number(drawing)), errno, cause });
        let (pid, policy, rule) = (head.pid, &head.policy.binary, head.rule);
        self.printer.audit(Audit { pid, tid, policy, rule, args, how: How::Denied(cause), result: Err(errno), log });
    }

    /// What a call that went well does to threads and messages.
    fn follow_up(&mut self, tid: usize, pid: usize, call: Call, regs: &Regs, child: Option<usize>) -> Vec<Change> {
        match call {
            Call::Exit => self.end_threads(pid, None),
            Call::Kill if regs[1] == 9 => self.end_threads(regs[0] as usize - 1, None),
            Call::Execve => self.end_threads(pid, Some(tid)),
            Call::Fork => self.start_child(child),
            Call::Setuid | Call::Seteuid | Call::Setgid | Call::Setegid => return self.renew(|_, own| own == pid),
            _ => {}
        }
        Vec::new()
    }

    fn start_child(&mut self, child: Option<usize>) {
        let pid = self.system.processes.len() - 1;
        if let Some(thread) = child.map(|tid| &mut self.threads[tid]).filter(|thread| thread.pid.is_none()) {
            thread.pid = Some(pid);
            self.system.processes[pid].threads = 1;
            self.started = child;
        }
    }

    fn end_threads(&mut self, pid: usize, but: Option<usize>) {
        for tid in 0..self.threads.len() {
            let thread = &mut self.threads[tid];
            if thread.pid == Some(pid) && !thread.ended && Some(tid) != but {
                thread.dying = true;
                self.released.push(tid);
                if let Some(Pending { way: Way::Held(drawing), .. }) = thread.pending.take() {
                    self.close(drawing);
                    self.let_go(drawing);
                }
            }
        }
    }

    /// A thread that is free to do so puts a policy in force for its binary. Held calls are judged again under it.
    fn reload(&mut self, tid: usize, pid: usize, policy: usize) {
        let process = &self.system.processes[pid];
        let done = !process.traced && process.ids.euid == 0;
        let mut changes = Vec::new();
        if done {
            let (new, text) = &self.policies[policy];
            let number = new.number;
            self.system.reload(new);
            self.printer.reload(number, &new.binary, text);
            changes = self.renew(|system, pid| system.processes[pid].policy.number == number);
        }
        self.printer.entry(Entry::Reloaded { tid, policy, done, changes: &changes });
    }

    /// Makes a new message of each held call of the processes that are meant. A caller is past being held. The old number is in
    /// use until the new one is drawn.
    fn renew(&mut self, is_meant: impl Fn(&System, usize) -> bool) -> Vec<Change> {
        let mut changes = Vec::new();
        for tid in 0..self.threads.len() {
            let thread = &self.threads[tid];
            let Some(pid) = thread.pid.filter(|&pid| is_meant(&self.system, pid) && !thread.dying) else { continue };
            let Some(Pending { way: Way::Held(old), .. }) = thread.pending else { continue };
            let Some(message) = self.close(old) else { continue };
            let process = &self.system.processes[pid];
            let (ids, cwd, policy) = (process.ids, process.cwd.clone(), Arc::clone(&process.policy));
            let new = self.messages.post(Head { ids, cwd, policy, ..(*message.head).clone() });
            if let Some(pending) = &mut self.threads[tid].pending {
                pending.way = Way::Held(new);
            }
            changes.push(Change::Renewed(self.messages.number(old), self.messages.number(new)));
            self.let_go(old);
        }
        changes
    }
}
