//! Policies: their text, and what their filters decide.
use crate::calls::{self, Arg, ArgSpec, Call, Errno, Ids, Rule};
use crate::glob::Pattern;
use crate::print::Printer;
use crate::tokens::{self, Dollars, Kind, Quoted, Token};
use std::borrow::Cow;
use std::collections::HashMap;
use std::fmt::{self, Display, Formatter, Write};
use std::sync::Arc;

const MOST_FILTERS: usize = 4096;
const MOST_OPERATORS: usize = 64;

/// A text that is refused.
#[derive(Debug)]
pub struct PolicyError;

type Parsed<T> = Result<T, PolicyError>;

/// What a policy is read with.
pub struct Env {
    pub users: HashMap<Vec<u8>, u32>,
    pub groups: HashMap<Vec<u8>, u32>,
    pub dollars: Dollars,
    pub elevate: bool,
    pub may_ask: bool,
    pub linux: bool,
}

impl Default for Env {
    /// What is known without a script: one user and one group.
    fn default() -> Env {
        Env {
            users: HashMap::from([(b"root".to_vec(), 0)]),
            groups: HashMap::from([(b"wheel".to_vec(), 0)]),
            dollars: Dollars::default(),
            elevate: false,
            may_ask: true,
            linux: false,
        }
    }
}

pub struct Policy {
    /// Binaries are numbered from 0 on, as their policies come.
    pub number: usize,
    pub binary: Vec<u8>,
    /// The script's number of the policy; 0 where it was read from a file.
    pub version: usize,
    rules: HashMap<Rule, Vec<Filter>>,
}

impl Policy {
    pub fn filters(&self, rule: Rule) -> &[Filter] {
        self.rules.get(&rule).map_or(&[], Vec::as_slice)
    }

    /// The verdict of the first filter of a rule that holds.
    pub fn decide(&self, rule: Rule, args: &[Arg], ids: Ids) -> Verdict {
        decide(self.filters(rule), 1, args, ids)
    }
}

/// The verdict of the first of these filters that holds. They are numbered on from the number of the first.
pub fn decide(filters: &[Filter], first: usize, args: &[Arg], ids: Ids) -> Verdict {
    match filters.iter().position(|filter| filter.holds(args, ids)) {
        None => Verdict::Unmatched,
        Some(at) => filters[at].verdict(first + at, ids),
    }
}

#[derive(Clone, Copy)]
pub enum Verdict {
    Permit(usize, Ids),
    Refuse(usize, Errno),
    Unmatched,
}

pub struct Filter {
    expr: Expr,
    pub action: Action,
    pub grant: Option<Grant>,
    pub log: bool,
    predicate: Option<Predicate>,
}

#[derive(Clone, Copy)]
pub enum Action {
    Permit,
    Deny(Errno),
    Ask,
}

#[derive(Clone, Copy)]
pub struct Grant {
    user: Option<u32>,
    group: Option<u32>,
}

enum Expr {
    True,
    /// A test of the argument at this place of the rule's, which has this label and index.
    Test {
        place: usize,
        label: Cow<'static, str>,
        index: u32,
        test: Test,
    },
    Not(Box<Expr>),
    And(Box<Expr>, Box<Expr>),
    Or(Box<Expr>, Box<Expr>),
}

enum Test {
    Match(Box<Pattern>),
    Eq(Vec<u8>),
    Neq(Vec<u8>),
    Sub(Vec<u8>),
    Nsub(Vec<u8>),
    Inpath(Vec<u8>),
}

struct Predicate {
    is_user: bool,
    compare: Kind,
    id: u32,
}

impl Filter {
    /// The plain permit of the calls that have exactly these arguments.
    pub fn learnt(args: &[Arg]) -> Filter {
        let tests = args.iter().enumerate().map(|(place, arg)| Expr::Test {
            place,
            label: Cow::Borrowed(arg.label),
            index: arg.index,
            test: Test::Eq(arg.text.clone()),
        });
        let expr = tests.reduce(|left, right| Expr::And(Box::new(left), Box::new(right))).unwrap_or(Expr::True);
        Filter { expr, action: Action::Permit, grant: None, log: false, predicate: None }
    }

    pub fn holds(&self, args: &[Arg], ids: Ids) -> bool {
        self.expr.is_true(args) && self.predicate.as_ref().is_none_or(|predicate| predicate.holds(ids))
    }

    /// Whether the kernel may answer by this filter alone, without copies.
    pub fn is_plain(&self) -> bool {
        matches!(self.expr, Expr::True) && self.grant.is_none() && !self.log && self.predicate.is_none()
    }

    /// What the filter says under this number, where it holds.
    pub fn verdict(&self, number: usize, ids: Ids) -> Verdict {
        match self.action {
            Action::Permit => Verdict::Permit(number, self.granted(ids)),
            Action::Deny(errno) => Verdict::Refuse(number, errno),
            Action::Ask => Verdict::Unmatched,
        }
    }

    fn granted(&self, ids: Ids) -> Ids {
        match self.grant {
            None => ids,
            Some(grant) => Ids { euid: grant.user.unwrap_or(ids.euid), egid: grant.group.unwrap_or(ids.egid), ..ids },
        }
    }
}

impl Expr {
    fn is_join(&self) -> bool {
        matches!(self, Expr::And(..) | Expr::Or(..))
    }

    fn is_true(&self, args: &[Arg]) -> bool {
        match self {
            Expr::True => true,
            Expr::Not(inner) => !inner.is_true(args),
            Expr::And(left, right) => left.is_true(args) && right.is_true(args),
            Expr::Or(left, right) => left.is_true(args) || right.is_true(args),
            Expr::Test { place, test, .. } => args.get(*place).is_some_and(|arg| test.is_true(&arg.text)),
        }
    }
}

impl Test {
    fn is_true(&self, arg: &[u8]) -> bool {
        match self {
            Test::Match(pattern) => pattern.matches(arg),
            Test::Eq(text) => arg == text,
            Test::Neq(text) => arg != text,
            Test::Sub(text) => contains(arg, text),
            Test::Nsub(text) => !contains(arg, text),
            Test::Inpath(text) => match text.strip_prefix(arg) {
                Some(rest) => rest.is_empty() || rest[0] == b'/' || arg == b"/",
                None => false,
            },
        }
    }
}

fn contains(arg: &[u8], text: &[u8]) -> bool {
    text.is_empty() || arg.windows(text.len()).any(|window| window == text)
}

impl Predicate {
    fn holds(&self, ids: Ids) -> bool {
        let own = if self.is_user { ids.euid } else { ids.egid };
        match self.compare {
            Kind::Equal => own == self.id,
            Kind::NotEqual => own != self.id,
            Kind::Less => own < self.id,
            _ => own > self.id,
        }
    }
}

/// The policies in force.
#[derive(Default)]
pub struct Policies {
    by_binary: HashMap<Vec<u8>, Arc<Policy>>,
    filters: usize,
}

impl Policies {
    /// The policy of a binary, which is empty where none was read.
    pub fn get(&mut self, binary: &[u8]) -> Arc<Policy> {
        match self.by_binary.get(binary) {
            Some(policy) => Arc::clone(policy),
            None => self.add(binary.to_vec(), HashMap::new()),
        }
    }

    fn add(&mut self, binary: Vec<u8>, rules: HashMap<Rule, Vec<Filter>>) -> Arc<Policy> {
        let policy = Arc::new(Policy { number: self.by_binary.len(), binary, version: 0, rules });
        self.put_in_force(&policy);
        policy
    }

    /// The policy of a script, with its number. It is not in force yet.
    pub fn of_script(&mut self, policy: ScriptPolicy, version: usize) -> Arc<Policy> {
        let number = self.get(&policy.binary).number;
        Arc::new(Policy { number, binary: policy.binary, version, rules: policy.rules })
    }

    pub fn put_in_force(&mut self, policy: &Arc<Policy>) {
        self.by_binary.insert(policy.binary.clone(), Arc::clone(policy));
    }

    pub fn read(&mut self, text: &[u8], env: &Env, printer: &mut Printer) -> Parsed<()> {
        let tokens = tokens::tokens(text).map_err(|_| PolicyError)?;
        let mut parser = Parser { rest: &tokens, env, operators: 0 };
        parser.skip_lines();
        while !parser.rest.is_empty() {
            let binary = parser.header()?;
            if self.by_binary.contains_key(&binary) {
                return Err(PolicyError);
            }
            let number = self.by_binary.len();
            printer.policy(number, &binary);
            let mut rules: HashMap<Rule, Vec<Filter>> = HashMap::new();
            parser.skip_lines();
            while !parser.rest.is_empty() && !parser.is_word("Policy") {
                let (name, rule, filter) = parser.filter()?;
                self.filters += 1;
                if self.filters > MOST_FILTERS {
                    return Err(PolicyError);
                }
                printer.filter(number, name, &filter);
                if let Some(rule) = rule {
                    rules.entry(rule).or_default().push(filter);
                }
                parser.skip_lines();
            }
            self.add(binary, rules);
        }
        Ok(())
    }
}

/// A policy that stands in a script, for a reload.
pub struct ScriptPolicy {
    pub binary: Vec<u8>,
    rules: HashMap<Rule, Vec<Filter>>,
    /// Its filters as they are printed.
    pub text: String,
}

/// Reads a policy that stands in a script, a filter in each line.
pub fn read_script_policy(binary: Vec<u8>, lines: &[&[Token]], env: &Env) -> Parsed<ScriptPolicy> {
    let mut policy = ScriptPolicy { binary, rules: HashMap::new(), text: String::new() };
    if !policy.binary.starts_with(b"/") {
        return Err(PolicyError);
    }
    for line in lines {
        let (name, rule, filter) = read_filter(line, env)?;
        // Writing to a String does not fail.
        let _ = writeln!(policy.text, "{}-{name}: {filter}", calls::emulation(env.linux));
        if let Some(rule) = rule {
            policy.rules.entry(rule).or_default().push(filter);
        }
    }
    Ok(policy)
}

/// Reads a line that is one filter.
fn read_filter<'a>(line: &'a [Token<'a>], env: &'a Env) -> Parsed<(&'a str, Option<Rule>, Filter)> {
    let mut parser = Parser { rest: line, env, operators: 0 };
    let filter = parser.filter()?;
    if parser.rest.is_empty() { Ok(filter) } else { Err(PolicyError) }
}

/// The operator's answer to a question of this binary's policy.
pub struct Reply {
    pub binary: Vec<u8>,
    /// None where the model has no such call.
    pub rule: Option<Rule>,
    pub filter: Filter,
}

/// Reads the filter of a reply. It may not ask.
pub fn read_reply(binary: Vec<u8>, tokens: &[Token], env: &Env) -> Parsed<Reply> {
    let (_, rule, filter) = read_filter(tokens, env)?;
    if matches!(filter.action, Action::Ask) {
        return Err(PolicyError);
    }
    Ok(Reply { binary, rule, filter })
}

// The canonical text.

impl Display for Filter {
    fn fmt(&self, f: &mut Formatter<'_>) -> fmt::Result {
        if !matches!(self.expr, Expr::True) {
            write!(f, "{} then ", self.expr)?;
        }
        match self.action {
            Action::Permit => f.write_str("permit")?,
            Action::Deny(Errno::Perm) => f.write_str("deny")?,
            Action::Deny(errno) => write!(f, "deny[{}]", errno.name().to_ascii_lowercase())?,
            Action::Ask => f.write_str("ask")?,
        }
        if let Some(grant) = self.grant {
            f.write_str(" as ")?;
            grant.user.map_or(Ok(()), |user| write!(f, "{user}"))?;
            grant.group.map_or(Ok(()), |group| write!(f, ":{group}"))?;
        }
        if self.log {
            f.write_str(" log")?;
        }
        self.predicate.as_ref().map_or(Ok(()), |predicate| write!(f, ", if {predicate}"))
    }
}

impl Display for Expr {
    fn fmt(&self, f: &mut Formatter<'_>) -> fmt::Result {
        match self {
            Expr::True => f.write_str("true"),
            Expr::Test { label, index: 0, test, .. } => write!(f, "{label} {test}"),
            Expr::Test { label, index, test, .. } => write!(f, "{label}[{index}] {test}"),
            Expr::Not(inner) => write!(f, "not {}", Within(inner, inner.is_join())),
            Expr::And(left, right) => {
                let (left, right) = (Within(left, matches!(**left, Expr::Or(..))), Within(right, right.is_join()));
                write!(f, "{left} and {right}")
            }
            Expr::Or(left, right) => write!(f, "{left} or {}", Within(right, matches!(**right, Expr::Or(..)))),
        }
    }
}

/// An operand, and whether it has parentheses.
struct Within<'a>(&'a Expr, bool);

impl Display for Within<'_> {
    fn fmt(&self, f: &mut Formatter<'_>) -> fmt::Result {
        if self.1 { write!(f, "({})", self.0) } else { self.0.fmt(f) }
    }
}

impl Display for Test {
    fn fmt(&self, f: &mut Formatter<'_>) -> fmt::Result {
        let (operator, text) = match self {
            Test::Match(pattern) => ("match", &pattern.text),
            Test::Eq(text) => ("eq", text),
            Test::Neq(text) => ("neq", text),
            Test::Sub(text) => ("sub", text),
            Test::Nsub(text) => ("nsub", text),
            Test::Inpath(text) => ("inpath", text),
        };
        write!(f, "{operator} {}", Quoted(text))
    }
}

impl Display for Predicate {
    fn fmt(&self, f: &mut Formatter<'_>) -> fmt::Result {
        let sign = match self.compare {
            Kind::Equal => "=",
            Kind::NotEqual => "!=",
            Kind::Less => "<",
            _ => ">",
        };
        write!(f, "{} {sign} {}", if self.is_user { "user" } else { "group" }, self.id)
    }
}

struct Parser<'a> {
    rest: &'a [Token<'a>],
    env: &'a Env,
    operators: usize,
}

impl<'a> Parser<'a> {
    fn peek(&self) -> Option<Kind> {
        self.rest.first().map(|token| token.kind)
    }

    fn is_word(&self, word: &str) -> bool {
        self.rest.first().is_some_and(|token| token.is_word(word))
    }

    fn next(&mut self) -> Parsed<Token<'a>> {
        let (first, rest) = self.rest.split_first().ok_or(PolicyError)?;
        self.rest = rest;
        Ok(*first)
    }

    fn take(&mut self, kind: Kind) -> Parsed<&'a [u8]> {
        let token = self.next()?;
        if token.kind == kind { Ok(token.text) } else { Err(PolicyError) }
    }

    fn take_word(&mut self, word: &str) -> Parsed<()> {
        if self.next()?.is_word(word) { Ok(()) } else { Err(PolicyError) }
    }

    fn accept(&mut self, kind: Kind) -> bool {
        let is_next = self.peek() == Some(kind);
        if is_next {
            self.rest = &self.rest[1..];
        }
        is_next
    }

    fn accept_word(&mut self, word: &str) -> bool {
        let is_next = self.is_word(word);
        if is_next {
            self.rest = &self.rest[1..];
        }
        is_next
    }

    fn skip_lines(&mut self) {
        while self.accept(Kind::Line) {}
    }

    fn eol(&mut self) -> Parsed<()> {
        if self.rest.is_empty() || self.accept(Kind::Line) { Ok(()) } else { Err(PolicyError) }
    }

    fn header(&mut self) -> Parsed<Vec<u8>> {
        self.take_word("Policy")?;
        self.take(Kind::Colon)?;
        let token = self.next()?;
        let binary = match token.kind {
            Kind::Word => token.text.to_vec(),
            Kind::Quoted => tokens::unquote(token.text, Some(&self.env.dollars)),
            _ => return Err(PolicyError),
        };
        if !binary.starts_with(b"/") {
            return Err(PolicyError);
        }
        self.take(Kind::Comma)?;
        self.take_word("Emulation")?;
        self.take(Kind::Colon)?;
        self.take_word(calls::emulation(self.env.linux))?;
        self.eol()?;
        Ok(binary)
    }

    /// One filter, after the name that it is for, and its rule where the model has it.
    fn filter(&mut self) -> Parsed<(&'a str, Option<Rule>, Filter)> {
        let word = std::str::from_utf8(self.take(Kind::Word)?).map_err(|_| PolicyError)?;
        let name = word.strip_prefix(calls::emulation(self.env.linux)).and_then(|word| word.strip_prefix('-'));
        let name = name.ok_or(PolicyError)?;
        if name.is_empty() || !name.bytes().all(|b| b.is_ascii_alphanumeric() || b == b'_') {
            return Err(PolicyError);
        }
        let rule = Rule::of(name);
        self.take(Kind::Colon)?;
        self.operators = 0;
        let mut expr = Expr::True;
        if !["permit", "deny", "ask"].iter().any(|word| self.is_word(word)) {
            expr = self.expr(rule)?;
            self.take_word("then")?;
        }
        let action = self.action()?;
        let (grant, log) = self.tail(rule, action)?;
        let predicate = if self.accept(Kind::Comma) { Some(self.predicate()?) } else { None };
        self.eol()?;
        Ok((name, rule, Filter { expr, action, grant, log, predicate }))
    }

    fn count_operator(&mut self) -> Parsed<()> {
        self.operators += 1;
        if self.operators > MOST_OPERATORS { Err(PolicyError) } else { Ok(()) }
    }

    fn expr(&mut self, rule: Option<Rule>) -> Parsed<Expr> {
        let mut left = self.conjunction(rule)?;
        while self.accept_word("or") {
            self.count_operator()?;
            left = Expr::Or(Box::new(left), Box::new(self.conjunction(rule)?));
        }
        Ok(left)
    }

    fn conjunction(&mut self, rule: Option<Rule>) -> Parsed<Expr> {
        let mut left = self.operand(rule)?;
        while self.accept_word("and") {
            self.count_operator()?;
            left = Expr::And(Box::new(left), Box::new(self.operand(rule)?));
        }
        Ok(left)
    }

    fn operand(&mut self, rule: Option<Rule>) -> Parsed<Expr> {
        if self.accept_word("not") {
            self.count_operator()?;
            return Ok(Expr::Not(Box::new(self.operand(rule)?)));
        }
        if self.accept(Kind::Open) {
            self.count_operator()?;
            let inner = self.expr(rule)?;
            self.take(Kind::Close)?;
            return Ok(inner);
        }
        if self.accept_word("true") {
            return Ok(Expr::True);
        }
        self.test(rule)
    }

    fn test(&mut self, rule: Option<Rule>) -> Parsed<Expr> {
        let label = std::str::from_utf8(self.take(Kind::Word)?).map_err(|_| PolicyError)?;
        if ["and", "or", "then", "permit", "deny", "ask"].contains(&label) {
            return Err(PolicyError);
        }
        let mut index = 0;
        if self.accept(Kind::OpenBracket) {
            let number = tokens::number(self.take(Kind::Word)?).ok_or(PolicyError)?;
            index = u32::try_from(number).map_err(|_| PolicyError)?;
            self.take(Kind::CloseBracket)?;
        }
        let (place, label) = match rule {
            // A call outside the model has any argument, and its filters are never asked.
            None => (0, Cow::Owned(label.to_string())),
            Some(rule) => {
                let is_meant = |arg: &ArgSpec| arg.label == label && arg.index == index;
                let place = rule.args().iter().position(is_meant).ok_or(PolicyError)?;
                (place, Cow::Borrowed(rule.args()[place].label))
            }
        };
        let operator = self.take(Kind::Word)?;
        let text = tokens::unquote(self.take(Kind::Quoted)?, Some(&self.env.dollars));
        let test = match operator {
            b"match" => Test::Match(Box::new(Pattern::new(text))),
            b"eq" => Test::Eq(text),
            b"neq" => Test::Neq(text),
            b"sub" => Test::Sub(text),
            b"nsub" => Test::Nsub(text),
            b"inpath" => Test::Inpath(text),
            _ => return Err(PolicyError),
        };
        Ok(Expr::Test { place, label, index, test })
    }

    fn action(&mut self) -> Parsed<Action> {
        match self.take(Kind::Word)? {
            b"permit" => Ok(Action::Permit),
            b"ask" if self.env.may_ask => Ok(Action::Ask),
            b"deny" if self.accept(Kind::OpenBracket) => {
                let word = std::str::from_utf8(self.take(Kind::Word)?).map_err(|_| PolicyError)?;
                let is_lower = !word.bytes().any(|b| b.is_ascii_uppercase());
                let errno = Errno::of(&word.to_ascii_uppercase()).filter(|_| is_lower).ok_or(PolicyError)?;
                self.take(Kind::CloseBracket)?;
                Ok(Action::Deny(errno))
            }
            b"deny" => Ok(Action::Deny(Errno::Perm)),
            _ => Err(PolicyError),
        }
    }

    fn tail(&mut self, rule: Option<Rule>, action: Action) -> Parsed<(Option<Grant>, bool)> {
        let mut log = self.accept_word("log");
        let mut grant = None;
        if matches!(action, Action::Permit) && self.accept_word("as") {
            let sets_ids =
                matches!(rule, Some(Rule::Call(Call::Setuid | Call::Seteuid | Call::Setgid | Call::Setegid)));
            if !self.env.elevate || sets_ids {
                return Err(PolicyError);
            }
            grant = Some(self.grant()?);
            log = log || self.accept_word("log");
        }
        Ok((grant, log))
    }

    fn grant(&mut self) -> Parsed<Grant> {
        if self.accept(Kind::Colon) {
            return Ok(Grant { user: None, group: Some(self.id(&self.env.groups)?) });
        }
        let user = Some(self.id(&self.env.users)?);
        let group = if self.accept(Kind::Colon) { Some(self.id(&self.env.groups)?) } else { None };
        Ok(Grant { user, group })
    }

    fn id(&mut self, names: &HashMap<Vec<u8>, u32>) -> Parsed<u32> {
        let word = self.take(Kind::Word)?;
        let number = tokens::decimal(word).and_then(|number| u32::try_from(number).ok());
        number.or_else(|| names.get(word).copied()).ok_or(PolicyError)
    }

    fn predicate(&mut self) -> Parsed<Predicate> {
        self.take_word("if")?;
        let is_user = match self.take(Kind::Word)? {
            b"user" => true,
            b"group" => false,
            _ => return Err(PolicyError),
        };
        let compare = self.next()?.kind;
        if !matches!(compare, Kind::Equal | Kind::NotEqual | Kind::Less | Kind::Greater) {
            return Err(PolicyError);
        }
        let id = self.id(if is_user { &self.env.users } else { &self.env.groups })?;
        Ok(Predicate { is_user, compare, id })
    }
}
