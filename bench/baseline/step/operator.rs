//! The operator: the calls that it is asked about, and the filters that it keeps.
use crate::calls::{Arg, Ids, Rule};
use crate::policy::{self, Filter, Policies, Policy, Reply, Verdict};
use crate::print::{Entry, Printer};
use std::collections::{BTreeMap, HashMap, VecDeque};
use std::slice;
use std::sync::Arc;

/// What becomes of a call that no filter decides.
#[derive(Clone, Copy, PartialEq, Eq)]
pub enum Mode {
    /// It is denied.
    Enforce,
    /// It is learnt.
    Learn,
    /// The script's replies are asked.
    Ask,
}

/// The number of a policy, and a rule.
type Topic = (usize, Rule);

/// What there is for a policy and a rule beside the filters that were read.
#[derive(Default)]
struct Session {
    /// The filters that are kept, in order.
    filters: Vec<Filter>,
    /// Which of them was learnt from a call with these arguments.
    learnt: HashMap<Arc<[Arg]>, usize>,
    /// The replies that are left, with their numbers.
    replies: VecDeque<(usize, Filter)>,
}

/// A held call about which the operator is asked.
struct Question {
    seq: u16,
    policy: Arc<Policy>,
    rule: Rule,
    args: Arc<[Arg]>,
    ids: Ids,
}

pub struct Operator {
    mode: Mode,
    sessions: HashMap<Topic, Session>,
    /// By the numbers of the messages.
    questions: BTreeMap<u64, Question>,
}

impl Operator {
    pub fn new(mode: Mode, replies: Vec<Reply>, policies: &mut Policies) -> Operator {
        let mut sessions: HashMap<Topic, Session> = HashMap::new();
        if mode == Mode::Ask {
            for (number, reply) in (1..).zip(replies) {
                if let Some(rule) = reply.rule {
                    let topic = (policies.get(&reply.binary).number, rule);
                    sessions.entry(topic).or_default().replies.push_back((number, reply.filter));
                }
            }
        }
        Operator { mode, sessions, questions: BTreeMap::new() }
    }

    fn kept(&self, policy: &Policy, rule: Rule) -> &[Filter] {
        self.sessions.get(&(policy.number, rule)).map_or(&[], |session| &session.filters)
    }

    /// The first filter of a rule, by which the kernel may answer by itself.
    pub fn first_filter<'a>(&'a self, policy: &'a Policy, rule: Rule) -> Option<&'a Filter> {
        policy.filters(rule).first().or_else(|| self.kept(policy, rule).first())
    }

    /// The filter of a number, which counts those that were read and then those that are kept.
    pub fn filter<'a>(&'a self, policy: &'a Policy, rule: Rule, number: usize) -> &'a Filter {
        let read = policy.filters(rule);
        read.get(number - 1).unwrap_or_else(|| &self.kept(policy, rule)[number - 1 - read.len()])
    }

    /// What the kept filters decide on a held call that those which were read leave open. There is no verdict where it is
    /// a question now.
    pub fn decide(
        &mut self,
        (drawing, seq): (u64, u16),
        policy: &Arc<Policy>,
        rule: Rule,
        args: &Arc<[Arg]>,
        ids: Ids,
    ) -> Option<Verdict> {
        if self.mode == Mode::Enforce {
            return Some(Verdict::Unmatched);
        }
        let session = self.sessions.entry((policy.number, rule)).or_default();
        let first = policy.filters(rule).len() + 1;
        let (verdict, is_asked) = match self.mode {
            Mode::Learn => match session.learnt.get(args) {
                Some(at) => (Verdict::Permit(first + at, ids), false),
                None => (Verdict::Unmatched, true),
            },
            _ => (policy::decide(&session.filters, first, args, ids), !session.replies.is_empty()),
        };
        if !is_asked || !matches!(verdict, Verdict::Unmatched) {
            return Some(verdict);
        }
        let (policy, args) = (Arc::clone(policy), Arc::clone(args));
        self.questions.insert(drawing, Question { seq, policy, rule, args, ids });
        None
    }

    pub fn is_asked(&self) -> bool {
        !self.questions.is_empty()
    }

    pub fn is_asked_about(&self, drawing: u64) -> bool {
        self.questions.contains_key(&drawing)
    }

    /// This message lives no more.
    pub fn withdraw(&mut self, drawing: u64) {
        self.questions.remove(&drawing);
    }

    /// Answers the first question, and gives those that are none any more.
    pub fn answer(&mut self, printer: &mut Printer) -> Vec<(u64, Verdict, Arc<[Arg]>)> {
        let Some(question) = self.questions.values().next() else { return Vec::new() };
        let (seq, policy, rule) = (question.seq, Arc::clone(&question.policy), question.rule);
        let topic = (policy.number, rule);
        let session = self.sessions.entry(topic).or_default();
        let number = policy.filters(rule).len() + session.filters.len() + 1;
        let filter = match session.replies.pop_front() {
            Some((reply, filter)) => {
                printer.entry(Entry::Replied { seq, reply, number });
                filter
            }
            // In the mode that asks there is a reply left for each question.
            None => {
                session.learnt.insert(Arc::clone(&question.args), session.filters.len());
                printer.entry(Entry::Learned { seq, number });
                Filter::learnt(&question.args)
            }
        };
        printer.policy(policy.number, &policy.binary);
        printer.session_filter(policy.number, rule.name(), &filter);
        // Others of this policy and rule may be decided by the filter too, or have no reply left.
        let is_last = self.mode == Mode::Ask && session.replies.is_empty();
        let mut ended = Vec::new();
        self.questions.retain(|&drawing, other| {
            if (other.policy.number, other.rule) != topic {
                return true;
            }
            let verdict = policy::decide(slice::from_ref(&filter), number, &other.args, other.ids);
            let goes_on = matches!(verdict, Verdict::Unmatched) && !is_last;
            if !goes_on {
                ended.push((drawing, verdict, Arc::clone(&other.args)));
            }
            goes_on
        });
        session.filters.push(filter);
        ended
    }
}
