//! Plays inputs that were valid before they were changed through two programs: `hostile_inputs PROVED UNVERIFIED INPUTS SEED TABLE..`.
//!
//! Each input is one of the tables with some changes of its files and words. Both programs have to end in time with the same status, and to
//! write the same. A refusal has a line on standard error. Inputs that differ are kept, and then the program ends with 1. Input N of a seed
//! is always the same.
mod cases;
mod limits;
mod programs;
mod random;
mod texts;
mod words;

use cases::Case;
use programs::{NO_END, Players, Watch};
use random::Random;
use std::collections::BTreeMap;
use std::num::NonZero;
use std::process::ExitCode;
use std::sync::atomic::{AtomicU64, Ordering};
use std::sync::{Mutex, MutexGuard};
use std::{env, fs, thread};

/// How many inputs that differ are kept before the rest are given up.
const MOST_KEPT: usize = 20;

/// What the players share: the inputs that are tried.
struct Trial {
    seed: u64,
    inputs: u64,
    /// The number of the next input.
    next: AtomicU64,
    tally: Mutex<Tally>,
}

#[derive(Default)]
struct Tally {
    /// How many inputs ended with each status, by the command.
    by_status: BTreeMap<(&'static str, i32), u64>,
    /// How many were kept since they differ.
    kept: usize,
}

fn main() -> ExitCode {
    let words: Vec<String> = env::args().skip(1).collect();
    let [proved, unverified, inputs, seed, tables @ ..] = words.as_slice() else { return ExitCode::from(2) };
    let (Ok(inputs), Ok(seed)) = (inputs.parse(), seed.parse()) else { return ExitCode::from(2) };
    let trial = Trial { seed, inputs, next: AtomicU64::new(0), tally: Mutex::default() };
    let watch = Watch::new();
    watch.over(|| {
        let corpus = trial.corpus(cases::read_all(tables), &Players::new(proved, unverified, 0, &watch));
        thread::scope(|scope| {
            for place in 0..thread::available_parallelism().map_or(1, NonZero::get) {
                let players = Players::new(proved, unverified, place, &watch);
                let (trial, corpus) = (&trial, &corpus);
                scope.spawn(move || trial.play_all(&players, corpus));
            }
        });
    });
    trial.report()
}

/// What inputs are made of.
struct Corpus {
    valid: Vec<Case>,
    refused: Vec<Case>,
}

impl Corpus {
    /// A case, which most often is valid.
    fn pick(&self, random: &mut Random) -> &Case {
        let from = if random.one_in(6) && !self.refused.is_empty() { &self.refused } else { &self.valid };
        random.pick(from)
    }
}

impl Trial {
    /// The cases, each after it was played as it stands.
    fn corpus(&self, cases: Vec<Case>, players: &Players) -> Corpus {
        let mut corpus = Corpus { valid: Vec::new(), refused: Vec::new() };
        for (number, case) in cases.into_iter().filter(Case::is_served).enumerate() {
            match players.play(&case) {
                Ok(0) => corpus.valid.push(case),
                Ok(_) => corpus.refused.push(case),
                Err(difference) => self.keep(players, case, &format!("unchanged-{number}"), &difference),
            }
        }
        corpus
    }

    fn play_all(&self, players: &Players, corpus: &Corpus) {
        loop {
            let number = self.next.fetch_add(1, Ordering::Relaxed);
            if number >= self.inputs || corpus.valid.is_empty() || self.tally().kept >= MOST_KEPT {
                return;
            }
            let case = input(corpus, self.seed, number);
            match players.play(&case) {
                Ok(status) => *self.tally().by_status.entry((case.command(), status)).or_default() += 1,
                Err(difference) => self.keep(players, case, &format!("{}-{number}", self.seed), &difference),
            }
        }
    }

    fn tally(&self) -> MutexGuard<'_, Tally> {
        self.tally.lock().expect("no player panics")
    }

    /// Keeps an input that differs, after what isn't needed for it was taken away. That isn't tried if a program doesn't end.
    fn keep(&self, players: &Players, case: Case, name: &str, difference: &str) {
        let differs = |case: &Case| matches!(players.play(case), Err(other) if kind(&other) == kind(difference));
        let small = if difference.ends_with(NO_END) { case } else { texts::shrink(case, differs) };
        let folder = env::temp_dir().join(format!("hostile-{name}"));
        small.write(&folder);
        let words: Vec<String> = small.words.iter().map(|word| format!("{word:?}")).collect();
        let _ = fs::write(folder.join("words"), words.join(" ") + "\n");
        eprintln!("{}: {difference}", folder.display());
        self.tally().kept += 1;
    }

    fn report(&self) -> ExitCode {
        let tally = self.tally();
        println!("| command | status | inputs |\n|---|---|---|");
        for ((command, status), count) in &tally.by_status {
            println!("| {command} | {status} | {count} |");
        }
        if tally.kept > 0 {
            println!("{} inputs differ", tally.kept);
            return ExitCode::FAILURE;
        }
        println!("{} inputs differ nowhere", tally.by_status.values().sum::<u64>());
        ExitCode::SUCCESS
    }
}

/// The input of this number: a case, changed.
fn input(corpus: &Corpus, seed: u64, number: u64) -> Case {
    let mut random = Random::new(seed, number);
    loop {
        let mut case = corpus.pick(&mut random).clone();
        if random.one_in(12) {
            limits::put(&mut random, &mut case);
        }
        if case.command() == "step" && random.one_in(16) {
            words::run_instead(&mut case);
        }
        if case.may_be_linux() && random.one_in(5) {
            words::linux_instead(&mut case);
        }
        if random.one_in(8) {
            words::change(&mut random, &mut case);
        }
        if !random.one_in(8) {
            texts::change(&mut random, &corpus.valid, &mut case);
        }
        if random.one_in(300) {
            limits::fill(&mut random, &mut case);
        }
        if case.is_served() {
            return case;
        }
    }
}

/// What kind of difference it is: all before the first colon.
fn kind(difference: &str) -> &str {
    difference.split(':').next().unwrap_or(difference)
}
