//! The valid inputs: the calls of the tables of tests, with the files that they are made over.
use std::ffi::OsString;
use std::fs;
use std::path::Path;

#[derive(Clone)]
pub struct Case {
    pub words: Vec<OsString>,
    pub files: Vec<(String, Vec<u8>)>,
}

impl Case {
    /// Writes the files into a folder of their own.
    pub fn write(&self, folder: &Path) {
        let _ = fs::remove_dir_all(folder);
        fs::create_dir_all(folder.join("dir")).expect("a folder can be made");
        for (name, content) in &self.files {
            fs::write(folder.join(name), content).expect("a file can be written");
        }
    }

    /// The name of the command, or `others` for words that begin with none.
    pub fn command(&self) -> &'static str {
        let names = ["step", "run", "replay", "check", "gen"];
        names.into_iter().find(|name| self.words.first().is_some_and(|word| word == name)).unwrap_or("others")
    }

    /// Whether the command has native emulation and may have that of Linux.
    pub fn may_be_linux(&self) -> bool {
        matches!(self.command(), "step" | "run" | "replay" | "check")
            && !self.words.iter().any(|word| word == "--linux")
    }

    /// Whether both programs serve the words: the unverified one has no help and no version.
    pub fn is_served(&self) -> bool {
        self.words != ["--help"] && self.words != ["--version"]
    }

    /// Puts a file in the place of that of the same name.
    pub fn put(&mut self, name: &str, content: Vec<u8>) {
        match self.files.iter_mut().find(|(other, _)| other == name) {
            Some(file) => file.1 = content,
            None => self.files.push((name.to_string(), content)),
        }
    }

    /// The name of the file of this role: the policy, the script, and the schedule or the trace. None if a word that has it is missing.
    pub fn name_of(&self, role: Role) -> Option<String> {
        let is_step = matches!(self.command(), "step" | "replay");
        let is_check = self.command() == "check";
        let last = self.words.len().checked_sub(1)?;
        let place = match role {
            Role::Policy if is_check => last,
            Role::Policy => self.words.iter().position(|word| word == "-f")? + 1,
            Role::Script if is_step => last.checked_sub(1)?,
            Role::Script => last,
            Role::Schedule => last,
        };
        Some(self.words.get(place)?.to_str()?.to_string())
    }
}

#[derive(Clone, Copy)]
pub enum Role {
    Policy,
    Script,
    Schedule,
}

pub fn read_all(names: &[String]) -> Vec<Case> {
    names.iter().flat_map(|name| read(&fs::read(name).expect("a table can be read"))).collect()
}

/// The calls of a table. A file begins with its name after `=`, and has the lines after `|`, and the bytes after `.`.
/// `x` says how often the next of them are repeated. `b` keeps the file so far, and `<` and `>` add its lines before a line and from it on.
/// `@` drops all files.
fn read(table: &[u8]) -> Vec<Case> {
    let (mut cases, mut files, mut times) = (Vec::new(), Vec::<(String, Vec<u8>)>::new(), 1);
    let mut kept: Vec<Vec<u8>> = Vec::new();
    for line in table.split(|&byte| byte == b'\n') {
        let Some((&mark, rest)) = line.split_first() else { continue };
        let text = String::from_utf8_lossy(rest).into_owned();
        match mark {
            b'@' => files.clear(),
            b'=' => {
                files.retain(|(name, _)| *name != text);
                files.push((text, Vec::new()));
            }
            b'x' => times = text.parse().unwrap_or(1),
            b'|' | b'.' => {
                let end: &[u8] = if mark == b'|' { b"\n" } else { b"" };
                let added = [rest, end].concat().repeat(times);
                times = 1;
                if let Some((_, content)) = files.last_mut() {
                    content.extend(added);
                }
            }
            b'b' => {
                let content = files.last().map_or(&[][..], |(_, content)| content);
                kept = content.split_inclusive(|&byte| byte == b'\n').map(<[u8]>::to_vec).collect();
            }
            b'<' | b'>' => {
                let (before, from) = kept.split_at(text.parse().unwrap_or(1usize).saturating_sub(1).min(kept.len()));
                if let Some((_, content)) = files.last_mut() {
                    content.extend((if mark == b'<' { before } else { from }).concat());
                }
            }
            b'$' | b'&' | b'?' | b'!' | b'^' => {
                let words = text.split(' ').skip(1).map(OsString::from).collect();
                cases.push(Case { words, files: files.clone() });
            }
            _ => {}
        }
    }
    cases
}
