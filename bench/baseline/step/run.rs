//! Each thread of the script is run by a thread of the host. They share the machine under one lock: who has it makes
//! one step. A thread whose call is held does the work of an idle worker. Calls are judged outside the lock.
use crate::kernel::{Kernel, Next};
use crate::print::Choice;
use std::sync::{Condvar, Mutex, MutexGuard, PoisonError};
use std::thread::{self, Scope};

struct Desk {
    kernel: Kernel,
    is_asleep: Vec<bool>,
    /// Who does the work of a worker.
    is_serving: Vec<bool>,
}

/// What the runners share. Each sleeps on a condition variable of its own, so that only those are woken who can go on.
struct Shared {
    desk: Mutex<Desk>,
    bells: Vec<Condvar>,
}

/// Runs the machine until nobody can move.
pub fn run(kernel: Kernel) -> Kernel {
    let threads = kernel.threads();
    let started: Vec<usize> = (0..threads).filter(|&tid| kernel.has_started(tid)).collect();
    let desk = Mutex::new(Desk { kernel, is_asleep: vec![false; threads], is_serving: vec![false; threads] });
    let shared = Shared { desk, bells: (0..threads).map(|_| Condvar::new()).collect() };
    thread::scope(|scope| {
        for tid in started {
            shared.start(scope, tid);
        }
    });
    shared.desk.into_inner().unwrap_or_else(PoisonError::into_inner).kernel
}

impl Shared {
    fn start<'scope>(&'scope self, scope: &'scope Scope<'scope, '_>, tid: usize) {
        scope.spawn(move || self.run_thread(scope, tid));
    }

    fn lock(&self) -> MutexGuard<'_, Desk> {
        self.desk.lock().unwrap_or_else(PoisonError::into_inner)
    }

    fn sleep<'a>(&self, mut desk: MutexGuard<'a, Desk>, tid: usize) -> MutexGuard<'a, Desk> {
        desk.is_asleep[tid] = true;
        self.bells[tid].wait_while(desk, |desk| desk.is_asleep[tid]).unwrap_or_else(PoisonError::into_inner)
    }

    fn run_thread<'scope>(&'scope self, scope: &'scope Scope<'scope, '_>, tid: usize) {
        loop {
            let mut desk = self.lock();
            while matches!(desk.kernel.next(tid), Next::Wait) {
                desk = self.sleep(desk, tid);
            }
            match desk.kernel.next(tid) {
                Next::Move => {
                    desk.kernel.advance(Choice::Thread(tid));
                    let child = desk.kernel.take_started();
                    self.leave(desk, tid);
                    if let Some(child) = child {
                        self.start(scope, child);
                    }
                }
                Next::Claim(worker) => {
                    desk.kernel.advance(Choice::Worker(worker));
                    let drawing = desk.kernel.working_on(worker);
                    desk.is_serving[tid] = true;
                    self.leave_to_others(desk);
                    while self.work(tid, worker, drawing) {}
                }
                Next::Ask => {
                    desk.kernel.advance(Choice::Operator);
                    self.leave(desk, tid);
                }
                Next::Wait | Next::End => return,
            }
        }
    }

    /// Makes a step of a worker that is at this message, and says whether it still is then.
    fn work(&self, tid: usize, worker: usize, drawing: Option<u64>) -> bool {
        let mut desk = self.lock();
        // The message may have been withdrawn since, and the worker may be at another one, for another thread.
        if desk.kernel.working_on(worker) == drawing {
            match desk.kernel.ready(worker) {
                None => {
                    desk.kernel.advance(Choice::Worker(worker));
                }
                Some(judging) => {
                    drop(desk);
                    let verdict = judging.judge();
                    desk = self.lock();
                    desk.kernel.answer(worker, judging, verdict);
                }
            }
        }
        let goes_on = desk.kernel.working_on(worker) == drawing;
        if goes_on {
            self.leave_to_others(desk);
        } else {
            desk.is_serving[tid] = false;
            self.leave(desk, tid);
        }
        goes_on
    }

    /// Lets go of the lock. Nobody is woken for a message that the one who leaves claims next.
    fn leave(&self, mut desk: MutexGuard<Desk>, tid: usize) {
        if matches!(desk.kernel.next(tid), Next::Claim(_)) {
            let released = desk.kernel.take_released();
            self.wake(desk, released);
        } else {
            self.leave_to_others(desk);
        }
    }

    /// Lets go of the lock. If a worker can claim a message, then somebody is awake who does it.
    fn leave_to_others(&self, mut desk: MutexGuard<Desk>) {
        let mut released = desk.kernel.take_released();
        released.extend(desk.kernel.claimable().find(|&tid| !desk.is_serving[tid]));
        self.wake(desk, released);
    }

    fn wake(&self, mut desk: MutexGuard<Desk>, mut threads: Vec<usize>) {
        threads.retain(|&tid| std::mem::take(&mut desk.is_asleep[tid]));
        drop(desk);
        for tid in threads {
            self.bells[tid].notify_one();
        }
    }
}
