//! The calls, their rules and their arguments.
use std::fmt;

macro_rules! named {
    ($type:ident { $($variant:ident = $name:literal),* $(,)? }) => {
        #[derive(Clone, Copy, PartialEq, Eq, Hash, Debug)]
        pub enum $type { $($variant),* }

        impl $type {
            pub fn name(self) -> &'static str {
                match self { $($type::$variant => $name),* }
            }

            pub fn of(name: &str) -> Option<Self> {
                match name { $($name => Some($type::$variant),)* _ => None }
            }
        }

        impl fmt::Display for $type {
            fn fmt(&self, f: &mut fmt::Formatter<'_>) -> fmt::Result {
                f.write_str(self.name())
            }
        }
    };
}

named!(Call {
    Open = "open", Close = "close", Read = "read", Write = "write", Lseek = "lseek", Dup = "dup", Stat = "stat",
    Lstat = "lstat", Access = "access", Readlink = "readlink", Unlink = "unlink", Link = "link",
    Symlink = "symlink", Rename = "rename", Mkdir = "mkdir", Rmdir = "rmdir", Chdir = "chdir", Chmod = "chmod",
    Chown = "chown", Truncate = "truncate", Fork = "fork", Execve = "execve", Exit = "exit", Kill = "kill",
    Getpid = "getpid", Getuid = "getuid", Geteuid = "geteuid", Setuid = "setuid", Seteuid = "seteuid",
    Setgid = "setgid", Setegid = "setegid", Socket = "socket", Bind = "bind", Connect = "connect",
});

named!(Errno {
    Perm = "EPERM", NoEnt = "ENOENT", Srch = "ESRCH", TooBig = "E2BIG", NoExec = "ENOEXEC", BadF = "EBADF",
    Acces = "EACCES", Fault = "EFAULT", Exist = "EEXIST", NotDir = "ENOTDIR", IsDir = "EISDIR", Inval = "EINVAL",
    MFile = "EMFILE", NoSpc = "ENOSPC", Again = "EAGAIN", AddrInUse = "EADDRINUSE", ConnRefused = "ECONNREFUSED",
    Loop = "ELOOP", NameTooLong = "ENAMETOOLONG", NotEmpty = "ENOTEMPTY", NoSys = "ENOSYS",
});

impl Errno {
    /// The error's number in Linux.
    pub fn linux_number(self) -> u32 {
        match self {
            Errno::Perm => 1,
            Errno::NoEnt => 2,
            Errno::Srch => 3,
            Errno::TooBig => 7,
            Errno::NoExec => 8,
            Errno::BadF => 9,
            Errno::Again => 11,
            Errno::Acces => 13,
            Errno::Fault => 14,
            Errno::Exist => 17,
            Errno::NotDir => 20,
            Errno::IsDir => 21,
            Errno::Inval => 22,
            Errno::MFile => 24,
            Errno::NoSpc => 28,
            Errno::NameTooLong => 36,
            Errno::NoSys => 38,
            Errno::NotEmpty => 39,
            Errno::Loop => 40,
            Errno::AddrInUse => 98,
            Errno::ConnRefused => 111,
        }
    }
}

#[derive(Clone, Copy, PartialEq, Eq, Hash, Debug)]
pub enum Rule {
    FsRead,
    FsWrite,
    Call(Call),
}

impl Rule {
    pub fn name(self) -> &'static str {
        match self {
            Rule::FsRead => "fsread",
            Rule::FsWrite => "fswrite",
            Rule::Call(call) => call.name(),
        }
    }

    pub fn of(name: &str) -> Option<Rule> {
        match name {
            "fsread" => Some(Rule::FsRead),
            "fswrite" => Some(Rule::FsWrite),
            _ => Call::of(name).map(Rule::Call),
        }
    }

    /// The rule that a call is judged by.
    pub fn of_call(call: Call, regs: &Regs, aliasing: bool) -> Rule {
        let flags = regs[1];
        match call {
            _ if !aliasing => Rule::Call(call),
            Call::Open if flags & 3 == 0 && flags & (O_CREAT | O_TRUNC) == 0 => Rule::FsRead,
            Call::Stat | Call::Lstat | Call::Access | Call::Readlink => Rule::FsRead,
            Call::Open | Call::Unlink | Call::Mkdir | Call::Rmdir => Rule::FsWrite,
            _ => Rule::Call(call),
        }
    }

    pub fn args(self) -> &'static [ArgSpec] {
        match self {
            Rule::FsRead | Rule::FsWrite => ONE_NAME,
            Rule::Call(call) => args_of(call),
        }
    }
}

pub type Regs = [u64; 6];

pub const O_APPEND: u64 = 8;
pub const O_CREAT: u64 = 0x200;
pub const O_TRUNC: u64 = 0x400;
pub const O_EXCL: u64 = 0x800;

/// The flags of `open` in Linux, each with the native one.
const LINUX_FLAGS: [(u64, u64); 4] = [(0x40, O_CREAT), (0x80, O_EXCL), (0x200, O_TRUNC), (0x400, O_APPEND)];

/// The native flags for flags of Linux: the access is the same, and bits that are no flag are dropped.
pub fn native_flags(flags: u64) -> u64 {
    let set = LINUX_FLAGS.iter().filter(|(linux, _)| flags & linux != 0);
    set.fold(flags & 3, |all, (_, native)| all | native)
}

/// The emulation's word.
pub fn emulation(linux: bool) -> &'static str {
    if linux { "linux" } else { "native" }
}

#[derive(Clone, Copy, PartialEq, Eq)]
pub enum ArgKind {
    Name,
    Plain,
    Addr,
    Argv,
    Decimal,
    Octal,
    Domain,
    SockType,
}

pub struct ArgSpec {
    pub label: &'static str,
    pub index: u32,
    pub register: usize,
    pub kind: ArgKind,
}

/// An argument as a policy sees it.
#[derive(Clone, PartialEq, Eq, Hash)]
pub struct Arg {
    pub label: &'static str,
    pub index: u32,
    pub text: Vec<u8>,
}

const fn arg(label: &'static str, index: u32, register: usize, kind: ArgKind) -> ArgSpec {
    ArgSpec { label, index, register, kind }
}

const FILENAME: ArgSpec = arg("filename", 0, 0, ArgKind::Name);
const ONE_NAME: &[ArgSpec] = &[FILENAME];
const TWO_NAMES: &[ArgSpec] = &[FILENAME, arg("filename", 1, 1, ArgKind::Name)];

pub fn args_of(call: Call) -> &'static [ArgSpec] {
    use ArgKind::*;
    match call {
        Call::Open | Call::Stat | Call::Lstat | Call::Access | Call::Readlink | Call::Unlink => ONE_NAME,
        Call::Mkdir | Call::Rmdir | Call::Chdir | Call::Truncate => ONE_NAME,
        Call::Link | Call::Rename => TWO_NAMES,
        Call::Symlink => const { &[arg("string", 0, 0, Plain), arg("filename", 0, 1, Name)] },
        Call::Chmod => const { &[FILENAME, arg("mode", 0, 1, Octal)] },
        Call::Chown => const { &[FILENAME, arg("uid", 0, 1, Decimal), arg("gid", 0, 2, Decimal)] },
        Call::Execve => const { &[FILENAME, arg("argv", 0, 1, Argv)] },
        Call::Kill => const { &[arg("pid", 0, 0, Decimal), arg("signum", 0, 1, Decimal)] },
        Call::Setuid | Call::Seteuid => const { &[arg("uid", 0, 0, Decimal)] },
        Call::Setgid | Call::Setegid => const { &[arg("gid", 0, 0, Decimal)] },
        Call::Socket => const { &[arg("sockdom", 0, 0, Domain), arg("socktype", 0, 1, SockType)] },
        Call::Bind | Call::Connect => const { &[arg("sockaddr", 0, 1, Addr)] },
        Call::Close | Call::Read | Call::Write | Call::Lseek | Call::Dup => &[],
        Call::Fork | Call::Exit | Call::Getpid | Call::Getuid | Call::Geteuid => &[],
    }
}

/// Whether a link at the end of the name in this register is followed.
pub fn follows(call: Call, regs: &Regs, register: usize) -> bool {
    match call {
        Call::Open => regs[1] & O_CREAT == 0 || regs[1] & O_EXCL == 0,
        Call::Link => register == 0,
        Call::Stat | Call::Access | Call::Chdir | Call::Chmod | Call::Chown | Call::Truncate | Call::Execve => true,
        _ => false,
    }
}

/// The text of an argument that lies in its register.
pub fn register_text(kind: ArgKind, value: u64) -> String {
    match (kind, value) {
        (ArgKind::Octal, _) => format!("{:o}", value & 0o777),
        (ArgKind::Domain, 1) => "AF_UNIX".into(),
        (ArgKind::Domain, 2) => "AF_INET".into(),
        (ArgKind::SockType, 1) => "SOCK_STREAM".into(),
        (ArgKind::SockType, 2) => "SOCK_DGRAM".into(),
        _ => value.to_string(),
    }
}

#[derive(Clone, Copy, PartialEq, Eq)]
pub struct Ids {
    pub ruid: u32,
    pub euid: u32,
    pub rgid: u32,
    pub egid: u32,
}

impl fmt::Display for Ids {
    fn fmt(&self, f: &mut fmt::Formatter<'_>) -> fmt::Result {
        write!(f, "{} {} {} {}", self.ruid, self.euid, self.rgid, self.egid)
    }
}
