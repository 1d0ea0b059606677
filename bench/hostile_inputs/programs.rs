//! The two programs, and how they end.
use crate::cases::Case;
use std::collections::HashMap;
use std::ffi::OsString;
use std::path::{Path, PathBuf};
use std::process::{Command, Stdio};
use std::sync::Mutex;
use std::sync::atomic::{AtomicBool, Ordering};
use std::time::{Duration, Instant};
use std::{env, fs, thread};

const MOST_SECONDS: u64 = 10;
/// How the difference ends that a program doesn't end.
pub const NO_END: &str = "doesn't end";
const OUT_OF_MEMORY: i32 = 7;
/// The status of a trace that isn't lawful.
const ILLEGAL: i32 = 10;

/// Ends the programs that don't end by themselves.
pub struct Watch {
    deadlines: Mutex<HashMap<u32, Instant>>,
    ended: AtomicBool,
}

impl Watch {
    pub fn new() -> Watch {
        Watch { deadlines: Mutex::new(HashMap::new()), ended: AtomicBool::new(false) }
    }

    /// Does something while it watches.
    pub fn over(&self, act: impl FnOnce()) {
        thread::scope(|scope| {
            scope.spawn(|| self.keep());
            act();
            self.ended.store(true, Ordering::Relaxed);
        });
    }

    fn keep(&self) {
        while !self.ended.load(Ordering::Relaxed) {
            thread::sleep(Duration::from_millis(250));
            let now = Instant::now();
            self.deadlines.lock().expect("nobody panics").retain(|pid, deadline| {
                let is_late = *deadline < now;
                if is_late {
                    let _ = Command::new("kill").args(["-KILL", &pid.to_string()]).status();
                }
                !is_late
            });
        }
    }

    fn begin(&self, pid: u32) {
        self.deadlines.lock().expect("nobody panics").insert(pid, Instant::now() + Duration::from_secs(MOST_SECONDS));
    }

    /// Whether the program ended in time.
    fn release(&self, pid: u32) -> bool {
        self.deadlines.lock().expect("nobody panics").remove(&pid).is_some()
    }
}

/// Both programs, in a folder of their own.
pub struct Players<'a> {
    proved: &'a str,
    unverified: &'a str,
    folder: PathBuf,
    watch: &'a Watch,
}

struct Ended {
    status: i32,
    text: Vec<u8>,
    message: Vec<u8>,
}

impl<'a> Players<'a> {
    pub fn new(proved: &'a str, unverified: &'a str, place: usize, watch: &'a Watch) -> Players<'a> {
        let folder = env::current_dir().expect("there is a folder").join(format!("player-{place}"));
        Players { proved, unverified, folder, watch }
    }

    /// Plays an input through both programs. Returns the status that they end with, or how they differ.
    pub fn play(&self, case: &Case) -> Result<i32, String> {
        case.write(&self.folder);
        let proved = self.end(self.proved, &case.words)?;
        let unverified = self.end(self.unverified, &case.words)?;
        is_told(&proved)?;
        if proved.status != unverified.status {
            return Err(format!(
                "statuses: {} of the proved program, {} of the other",
                proved.status, unverified.status
            ));
        }
        if proved.status == ILLEGAL {
            let lines = [illegal_line(&proved.message, case), illegal_line(&unverified.message, case)];
            if lines[0] != lines[1] {
                return Err(format!("lines of the trace: {lines:?}"));
            }
        }
        let is_run = case.command() == "run";
        if is_run && proved.status == 0 {
            self.play_again(case)?;
        } else if proved.text != unverified.text {
            return Err(format!("texts: line {} differs", first_line(&proved.text, &unverified.text)));
        }
        Ok(proved.status)
    }

    /// Makes a run by threads, and plays its choices through both programs by `step`.
    fn play_again(&self, case: &Case) -> Result<(), String> {
        let mut words = case.words.clone();
        if let Some(at) = words.iter().position(|word| word == "--print") {
            words.drain(at..(at + 2).min(words.len()));
        }
        words.splice(1..1, ["--print", "schedule"].map(OsString::from));
        let made = self.end(self.proved, &words)?;
        fs::write(self.folder.join("made"), [&made.text, b"rest\n".as_slice()].concat())
            .map_err(|error| error.to_string())?;
        words[0] = "step".into();
        words[2] = "trace".into();
        words.push("made".into());
        let traces = [self.end(self.proved, &words)?, self.end(self.unverified, &words)?];
        if traces[0].status != 0 || traces[1].status != 0 || traces[0].text != traces[1].text {
            let line = first_line(&traces[0].text, &traces[1].text);
            return Err(format!("runs: {} and {} by its schedule, line {line}", traces[0].status, traces[1].status));
        }
        Ok(())
    }

    fn end(&self, program: &str, words: &[OsString]) -> Result<Ended, String> {
        let name = Path::new(program).file_name().map_or("", |name| name.to_str().unwrap_or(""));
        let child = Command::new(program)
            .args(words)
            .current_dir(&self.folder)
            .stdin(Stdio::null())
            .stdout(Stdio::piped())
            .stderr(Stdio::piped())
            .spawn()
            .map_err(|error| format!("{name} isn't started: {error}"))?;
        let pid = child.id();
        self.watch.begin(pid);
        let output = child.wait_with_output();
        if !self.watch.release(pid) {
            return Err(format!("{name} {NO_END}"));
        }
        let output = output.map_err(|error| format!("{name} isn't read: {error}"))?;
        match output.status.code() {
            Some(status @ 0..=10) if status != OUT_OF_MEMORY => {
                Ok(Ended { status, text: output.stdout, message: output.stderr })
            }
            _ => Err(format!("{name} crashes: {}", output.status)),
        }
    }
}

/// Whether a refusal has a message of whole lines, and nothing but a refusal has one.
fn is_told(ended: &Ended) -> Result<(), String> {
    let has_line = ended.message.len() > 1 && ended.message.ends_with(b"\n");
    match ended.status {
        0 if !ended.message.is_empty() => Err("a message: the status is 0".to_string()),
        0 => Ok(()),
        status if !has_line => Err(format!("no message: the status is {status}")),
        status if status != 6 && !ended.text.is_empty() => Err(format!("a text: the status is {status}")),
        _ => Ok(()),
    }
}

/// The first line in which two texts differ.
fn first_line(one: &[u8], other: &[u8]) -> usize {
    let same = one.iter().zip(other).take_while(|(a, b)| a == b).count();
    one[..same].iter().filter(|&&byte| byte == b'\n').count() + 1
}

/// The line of the trace that a message names: the proved program's after the name of the file.
fn illegal_line<'a>(message: &'a [u8], case: &Case) -> Option<&'a str> {
    let text = std::str::from_utf8(message).ok()?;
    let name = case.words.last()?.to_str()?;
    let after = match text.strip_prefix("unverified: line ") {
        Some(after) => after,
        None => text.strip_prefix("systrace: ")?.strip_prefix(name)?.strip_prefix(':')?,
    };
    Some(&after[..after.bytes().take_while(u8::is_ascii_digit).count()])
}
