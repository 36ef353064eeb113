//! Contracts as flat tables of numbered nodes, equal ones once, and their text: children first, from the left, each list counted from 0.
use crate::tree::*;
use crate::writing::{choice_id, party, payee, token};
use serde_json::Value as Json;
use std::collections::HashMap;
use std::hash::Hash;
use std::io::Write;

#[derive(Clone, PartialEq, Eq, Hash)]
enum ValueNode<'a> {
    AvailableMoney(&'a Token, &'a Party),
    Constant(i128),
    One(&'static str, u32),
    Two(&'static str, u32, u32),
    Choice(&'a ChoiceId),
    Word(&'static str),
    Use(&'a str),
    Cond(u32, u32, u32),
}

#[derive(Clone, PartialEq, Eq, Hash)]
enum ObservationNode<'a> {
    Not(u32),
    Both(&'static str, u32, u32),
    Compare(&'static str, u32, u32),
    Chose(&'a ChoiceId),
    Word(&'static str),
}

#[derive(Clone, PartialEq, Eq, Hash)]
enum CaseNode<'a> {
    Deposit(&'a Party, &'a Party, &'a Token, u32, u32),
    Choice(&'a ChoiceId, &'a [(i128, i128)], u32),
    Notify(u32, u32),
}

#[derive(Clone, PartialEq, Eq, Hash)]
enum ContNode<'a> {
    Close,
    Pay(u32, &'a Token, &'a Party, &'a Payee, u32),
    If(u32, u32, u32),
    When(Vec<u32>, i64, u32),
    Let(&'a str, u32, u32),
    Assert(u32, u32),
}

#[derive(Default)]
pub struct Table<'a> {
    values: Nodes<ValueNode<'a>>,
    observations: Nodes<ObservationNode<'a>>,
    cases: Nodes<CaseNode<'a>>,
    conts: Nodes<ContNode<'a>>,
}

struct Nodes<N> {
    list: Vec<N>,
    index: HashMap<N, u32>,
}

impl<N> Default for Nodes<N> {
    fn default() -> Self {
        Nodes { list: Vec::new(), index: HashMap::new() }
    }
}

impl<N: Clone + Eq + Hash> Nodes<N> {
    // The number of the node, which is new or stands already.
    fn put(&mut self, node: N) -> u32 {
        if let Some(number) = self.index.get(&node) {
            return *number;
        }
        let number = self.list.len() as u32;
        self.list.push(node.clone());
        self.index.insert(node, number);
        number
    }
}

impl<'a> Table<'a> {
    fn value(&mut self, v: &'a Value) -> u32 {
        let node = match v {
            Value::AvailableMoney(t, p) => ValueNode::AvailableMoney(t, p),
            Value::Constant(n) => ValueNode::Constant(*n),
            Value::Neg(a) => ValueNode::One("negate", self.value(a)),
            Value::Add(a, b) => ValueNode::Two("add", self.value(a), self.value(b)),
            Value::Sub(a, b) => ValueNode::Two("minus", self.value(a), self.value(b)),
            Value::Mul(a, b) => ValueNode::Two("multiply", self.value(a), self.value(b)),
            Value::Div(a, b) => ValueNode::Two("divide", self.value(a), self.value(b)),
            Value::Choice(id) => ValueNode::Choice(id),
            Value::TimeIntervalStart => ValueNode::Word("time_interval_start"),
            Value::TimeIntervalEnd => ValueNode::Word("time_interval_end"),
            Value::Use(name) => ValueNode::Use(name),
            Value::Cond(o, a, b) => ValueNode::Cond(self.observation(o), self.value(a), self.value(b)),
        };
        self.values.put(node)
    }

    fn observation(&mut self, o: &'a Observation) -> u32 {
        let node = match o {
            Observation::And(a, b) => ObservationNode::Both("both", self.observation(a), self.observation(b)),
            Observation::Or(a, b) => ObservationNode::Both("either", self.observation(a), self.observation(b)),
            Observation::Not(a) => ObservationNode::Not(self.observation(a)),
            Observation::Chose(id) => ObservationNode::Chose(id),
            Observation::GE(a, b) => ObservationNode::Compare("ge_than", self.value(a), self.value(b)),
            Observation::GT(a, b) => ObservationNode::Compare("gt", self.value(a), self.value(b)),
            Observation::LT(a, b) => ObservationNode::Compare("lt", self.value(a), self.value(b)),
            Observation::LE(a, b) => ObservationNode::Compare("le_than", self.value(a), self.value(b)),
            Observation::EQ(a, b) => ObservationNode::Compare("equal_to", self.value(a), self.value(b)),
            Observation::True => ObservationNode::Word("true"),
            Observation::False => ObservationNode::Word("false"),
        };
        self.observations.put(node)
    }

    fn case(&mut self, action: &'a Action, then: &'a Contract) -> u32 {
        let node = match action {
            Action::Deposit { account, party, token, value } => {
                let value = self.value(value);
                CaseNode::Deposit(account, party, token, value, self.cont(then))
            }
            Action::Choice(id, bounds) => CaseNode::Choice(id, bounds, self.cont(then)),
            Action::Notify(o) => {
                let o = self.observation(o);
                CaseNode::Notify(o, self.cont(then))
            }
        };
        self.cases.put(node)
    }

    pub fn cont(&mut self, contract: &'a Contract) -> u32 {
        let node = match contract {
            Contract::Close => ContNode::Close,
            Contract::Pay { account, payee, token, value, then } => {
                let value = self.value(value);
                ContNode::Pay(value, token, account, payee, self.cont(then))
            }
            Contract::If(o, then, otherwise) => ContNode::If(self.observation(o), self.cont(then), self.cont(otherwise)),
            Contract::When(cases, timeout, then) => {
                let cases = cases.iter().map(|(action, then)| self.case(action, then)).collect();
                ContNode::When(cases, *timeout, self.cont(then))
            }
            Contract::Let(name, value, then) => ContNode::Let(name, self.value(value), self.cont(then)),
            Contract::Assert(o, then) => ContNode::Assert(self.observation(o), self.cont(then)),
        };
        self.conts.put(node)
    }

    pub fn text(&self, root: u32) -> std::io::Result<Vec<u8>> {
        let mut out = Vec::new();
        for (i, node) in self.values.list.iter().enumerate() {
            write!(out, "v{i} ")?;
            match node {
                ValueNode::AvailableMoney(t, p) => writeln!(out, "amount_of_token {} {}", token(t), party(p))?,
                ValueNode::Constant(n) => writeln!(out, "constant {n}")?,
                ValueNode::One(word, a) => writeln!(out, "{word} v{a}")?,
                ValueNode::Two(word, a, b) => writeln!(out, "{word} v{a} v{b}")?,
                ValueNode::Choice(id) => writeln!(out, "value_of_choice {}", choice_id(id))?,
                ValueNode::Word(word) => writeln!(out, "{word}")?,
                ValueNode::Use(name) => writeln!(out, "use_value {}", Json::from(*name))?,
                ValueNode::Cond(o, a, b) => writeln!(out, "if o{o} v{a} v{b}")?,
            }
        }
        for (i, node) in self.observations.list.iter().enumerate() {
            write!(out, "o{i} ")?;
            match node {
                ObservationNode::Not(a) => writeln!(out, "not o{a}")?,
                ObservationNode::Both(word, a, b) => writeln!(out, "{word} o{a} o{b}")?,
                ObservationNode::Compare(word, a, b) => writeln!(out, "{word} v{a} v{b}")?,
                ObservationNode::Chose(id) => writeln!(out, "chose_something_for {}", choice_id(id))?,
                ObservationNode::Word(word) => writeln!(out, "{word}")?,
            }
        }
        for (i, node) in self.cases.list.iter().enumerate() {
            write!(out, "c{i} ")?;
            match node {
                CaseNode::Deposit(a, p, t, v, k) => writeln!(out, "deposit {} {} {} v{v} k{k}", party(a), party(p), token(t))?,
                CaseNode::Choice(id, bounds, k) => {
                    let bounds: Vec<String> = bounds.iter().map(|(from, to)| format!("{{\"from\":{from},\"to\":{to}}}")).collect();
                    writeln!(out, "choice {} [{}] k{k}", choice_id(id), bounds.join(","))?
                }
                CaseNode::Notify(o, k) => writeln!(out, "notify o{o} k{k}")?,
            }
        }
        for (i, node) in self.conts.list.iter().enumerate() {
            write!(out, "k{i} ")?;
            match node {
                ContNode::Close => writeln!(out, "close")?,
                ContNode::Pay(v, t, a, p, k) => writeln!(out, "pay v{v} {} {} {} k{k}", token(t), party(a), payee(p))?,
                ContNode::If(o, k, l) => writeln!(out, "if o{o} k{k} k{l}")?,
                ContNode::When(cases, timeout, k) => {
                    let cases: Vec<String> = cases.iter().map(|c| format!("c{c}")).collect();
                    writeln!(out, "when [{}] {timeout} k{k}", cases.join(","))?
                }
                ContNode::Let(name, v, k) => writeln!(out, "let {} v{v} k{k}", Json::from(*name))?,
                ContNode::Assert(o, k) => writeln!(out, "assert o{o} k{k}")?,
            }
        }
        writeln!(out, "root k{root}")?;
        Ok(out)
    }
}
