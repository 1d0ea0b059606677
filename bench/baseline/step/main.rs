//! `systrace` in plain Rust, of which nothing is proved: what the proved program is measured against.
mod args;
mod calls;
mod generator;
mod glob;
mod kernel;
mod operator;
mod policy;
mod print;
mod replay;
mod run;
mod script;
mod system;
mod tokens;
mod tree;

use kernel::{Kernel, Options};
use operator::Mode;
use policy::{Env, Policies};
use print::{Choice, PrintKind, Printer};
use replay::Mover;
use script::SchedLine;
use std::ffi::OsString;
use std::io::{self, Read, Write};
use std::process::ExitCode;

const MOST_BYTES: u64 = 1_048_576;
const MOST_POLICIES: usize = 8;

#[derive(Clone, Copy, Debug)]
enum Status {
    Missing,
    Usage,
    Policy,
    Script,
    ReadFault,
    WriteFault,
    Schedule,
    TooLong,
    /// The first line that the machine can't have written.
    Illegal(u32),
}

impl Status {
    fn number(self) -> u8 {
        match self {
            Status::Missing => 1,
            Status::Usage => 2,
            Status::Policy => 3,
            Status::Script => 4,
            Status::ReadFault => 5,
            Status::WriteFault => 6,
            Status::Schedule => 8,
            Status::TooLong => 9,
            Status::Illegal(_) => 10,
        }
    }
}

struct Command {
    policies: Vec<String>,
    options: Options,
    /// What `step` and `run` print.
    kind: Option<PrintKind>,
    script: String,
    /// The schedule of `step`, the trace of `replay`.
    last: Option<String>,
}

fn main() -> ExitCode {
    // A word that is no text is no word of a command.
    let words: Result<Vec<String>, _> = std::env::args_os().skip(1).map(OsString::into_string).collect();
    let text = words.map_err(|_| Status::Usage).and_then(|words| text_of(&words));
    match text.and_then(|text| io::stdout().lock().write_all(text.as_bytes()).map_err(|_| Status::WriteFault)) {
        Ok(()) => ExitCode::SUCCESS,
        Err(status) => {
            match status {
                Status::Illegal(line) => eprintln!("unverified: line {line} is illegal"),
                _ => eprintln!("unverified: {status:?}"),
            }
            ExitCode::from(status.number())
        }
    }
}

fn text_of(words: &[String]) -> Result<String, Status> {
    let (name, rest) = words.split_first().ok_or(Status::Usage)?;
    match name.as_str() {
        "step" => play(&parse(rest, true).ok_or(Status::Usage)?),
        "run" => play(&parse(rest, false).ok_or(Status::Usage)?),
        "replay" => replay(&parse(rest, true).ok_or(Status::Usage)?),
        "check" => check(rest),
        "gen" => generate(rest),
        _ => Err(Status::Usage),
    }
}

/// The canonical text of the policies of one file. The script, where there is one, is read first.
fn check(words: &[String]) -> Result<String, Status> {
    let (mut ids, mut linux, mut operands) = (None, false, words);
    loop {
        operands = match operands {
            [option, given, rest @ ..] if option == "-c" && ids.is_none() => {
                ids = Some(both_ids(given).ok_or(Status::Usage)?);
                rest
            }
            [option, rest @ ..] if option == "--linux" && !linux => {
                linux = true;
                rest
            }
            _ => break,
        };
    }
    let (file, script) = match operands {
        [file] => (file, None),
        [file, script] => (file, Some(script)),
        _ => return Err(Status::Usage),
    };
    if operands.iter().any(|word| word.starts_with('-')) {
        return Err(Status::Usage);
    }
    let options = Options { mode: Mode::Enforce, inherit: false, aliasing: true, ids, workers: 1, linux };
    let env = match script {
        Some(name) => script::read_script(&fetch(name)?, &options).map_err(|_| Status::Script)?.env,
        None => Env { elevate: ids.is_some(), linux, ..Env::default() },
    };
    let mut printer = Printer::new(PrintKind::Policy, linux);
    Policies::default().read(&fetch(file)?, &env, &mut printer).map_err(|_| Status::Policy)?;
    Ok(printer.finish())
}

/// What is counted in the run of a script that is generated.
fn generate(words: &[String]) -> Result<String, Status> {
    let [number] = words else { return Err(Status::Usage) };
    let number = decimal(number).filter(|n| (1..=512).contains(n)).ok_or(Status::Usage)?;
    let options = Options { mode: Mode::Enforce, inherit: false, aliasing: true, ids: None, workers: 1, linux: false };
    let script = script::read_script(generator::script(number).as_bytes(), &options).map_err(|_| Status::Script)?;
    let mut printer = Printer::new(PrintKind::Summary, false);
    let mut policies = Policies::default();
    policies.read(generator::POLICY.as_bytes(), &script.env, &mut printer).map_err(|_| Status::Policy)?;
    let mut kernel = Kernel::start(script, policies, &options, printer);
    kernel.rest();
    Ok(kernel.finish())
}

/// The machine before its first step, by the files of a command.
fn machine(command: &Command, kind: PrintKind) -> Result<Kernel, Status> {
    let script = script::read_script(&fetch(&command.script)?, &command.options).map_err(|_| Status::Script)?;
    let mut printer = Printer::new(kind, command.options.linux);
    let mut policies = Policies::default();
    for name in &command.policies {
        policies.read(&fetch(name)?, &script.env, &mut printer).map_err(|_| Status::Policy)?;
    }
    Ok(Kernel::start(script, policies, &command.options, printer))
}

/// The text of the run that a schedule gives, or that threads make where there is none.
fn play(command: &Command) -> Result<String, Status> {
    let mut kernel = machine(command, command.kind.unwrap_or(PrintKind::Audit))?;
    let Some(name) = &command.last else { return Ok(run::run(kernel).finish()) };
    let schedule = script::read_schedule(&fetch(name)?).map_err(|_| Status::Schedule)?;
    for line in schedule {
        match line {
            SchedLine::Rest => kernel.rest(),
            SchedLine::Choose(choice, count) => {
                for _ in 0..count {
                    if !kernel.advance(choice) {
                        return Err(Status::Schedule);
                    }
                }
            }
        }
    }
    Ok(kernel.finish())
}

/// Whether the machine writes a trace line by line, where the one moves who moved by the line.
fn replay(command: &Command) -> Result<String, Status> {
    let (None, Some(name)) = (command.kind, &command.last) else { return Err(Status::Usage) };
    let mut kernel = machine(command, PrintKind::Trace)?;
    for (line, number) in replay::lines(&fetch(name)?).zip(1..) {
        if !is_written(&mut kernel, line) {
            return Err(Status::Illegal(number));
        }
    }
    Ok("lawful\n".to_string())
}

/// Whether the machine makes a step that it writes as this line.
fn is_written(kernel: &mut Kernel, line: &[u8]) -> bool {
    let at = |number: u32| (number as usize).wrapping_sub(1);
    let choice = match replay::mover(line) {
        None => return false,
        Some(Mover::Thread(tid)) => Choice::Thread(at(tid)),
        Some(Mover::Worker(worker)) => Choice::Worker(at(worker)),
        Some(Mover::WorkerAt(seq)) => match kernel.worker_at(seq) {
            None => return false,
            Some(worker) => Choice::Worker(worker),
        },
        Some(Mover::Operator) => Choice::Operator,
    };
    kernel.advance(choice) && kernel.take_text().strip_suffix('\n').is_some_and(|text| text.as_bytes() == line)
}

fn fetch(name: &str) -> Result<Vec<u8>, Status> {
    let file = std::fs::File::open(name).map_err(|error| match error.kind() {
        io::ErrorKind::NotFound => Status::Missing,
        _ => Status::ReadFault,
    })?;
    let mut text = Vec::new();
    file.take(MOST_BYTES + 1).read_to_end(&mut text).map_err(|_| Status::ReadFault)?;
    if text.len() as u64 > MOST_BYTES { Err(Status::TooLong) } else { Ok(text) }
}

/// What `step`, `run` or `replay` is asked to do by the words after it, or none where they are none that is served.
fn parse(words: &[String], has_last: bool) -> Option<Command> {
    let mut words = words.iter().map(String::as_str);
    let mut policies = Vec::new();
    let (mut inherit, mut whole_names, mut linux) = (false, false, false);
    let (mut mode, mut ids, mut workers, mut kind) = (None, None, None, None);
    let script = loop {
        let word = words.next()?;
        let is_again = match word {
            "-f" => {
                policies.push(words.next()?.to_string());
                policies.len() > MOST_POLICIES
            }
            "-a" => mode.replace(Mode::Enforce).is_some(),
            "-A" => mode.replace(Mode::Learn).is_some(),
            "-t" => mode.replace(Mode::Ask).is_some(),
            "-i" => std::mem::replace(&mut inherit, true),
            "-u" => std::mem::replace(&mut whole_names, true),
            "--linux" => std::mem::replace(&mut linux, true),
            "-c" => ids.replace(both_ids(words.next()?)?).is_some(),
            "-w" => workers.replace(decimal(words.next()?).filter(|n| (1..=8).contains(n))?).is_some(),
            "--print" => {
                let named = match words.next()? {
                    "audit" => PrintKind::Audit,
                    "trace" => PrintKind::Trace,
                    "schedule" => PrintKind::Schedule,
                    "policy" => PrintKind::Policy,
                    _ => return None,
                };
                kind.replace(named).is_some()
            }
            _ => break word,
        };
        if is_again {
            return None;
        }
    };
    let last = if has_last { Some(words.next()?) } else { None };
    if words.next().is_some() || script.starts_with('-') || last.is_some_and(|word| word.starts_with('-')) {
        return None;
    }
    let mode = mode.unwrap_or(Mode::Enforce);
    let workers = workers.unwrap_or(1) as usize;
    let options = Options { mode, inherit, aliasing: !whole_names, ids, workers, linux };
    Some(Command { policies, options, kind, script: script.to_string(), last: last.map(String::from) })
}

/// A user and a group, with a colon between them.
fn both_ids(word: &str) -> Option<(u32, u32)> {
    let (uid, gid) = word.split_once(':')?;
    Some((decimal(uid)?, decimal(gid)?))
}

/// A decimal without a sign and without zeros in front.
fn decimal(word: &str) -> Option<u32> {
    let is_plain = word.bytes().all(|b| b.is_ascii_digit()) && (word == "0" || !word.starts_with('0'));
    if is_plain { word.parse().ok() } else { None }
}
