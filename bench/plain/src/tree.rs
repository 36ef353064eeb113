//! Contracts, states and transactions.
use std::collections::BTreeMap;

#[derive(Clone, PartialEq, Eq, PartialOrd, Ord, Hash)]
pub enum Party {
    Address(String),
    Role(String),
}

#[derive(Clone, PartialEq, Eq, PartialOrd, Ord, Hash)]
pub struct Token {
    pub symbol: Vec<u8>,
    pub name: String,
}

#[derive(Clone, PartialEq, Eq, PartialOrd, Ord, Hash)]
pub struct ChoiceId {
    pub name: String,
    pub owner: Party,
}

#[derive(Clone, PartialEq, Eq, Hash)]
pub enum Payee {
    Account(Party),
    Party(Party),
}

pub enum Value {
    AvailableMoney(Token, Party),
    Constant(i128),
    Neg(Box<Value>),
    Add(Box<Value>, Box<Value>),
    Sub(Box<Value>, Box<Value>),
    Mul(Box<Value>, Box<Value>),
    Div(Box<Value>, Box<Value>),
    Choice(ChoiceId),
    TimeIntervalStart,
    TimeIntervalEnd,
    Use(String),
    Cond(Box<Observation>, Box<Value>, Box<Value>),
}

pub enum Observation {
    And(Box<Observation>, Box<Observation>),
    Or(Box<Observation>, Box<Observation>),
    Not(Box<Observation>),
    Chose(ChoiceId),
    GE(Value, Value),
    GT(Value, Value),
    LT(Value, Value),
    LE(Value, Value),
    EQ(Value, Value),
    True,
    False,
}

pub enum Action {
    Deposit { account: Party, party: Party, token: Token, value: Value },
    Choice(ChoiceId, Vec<(i128, i128)>),
    Notify(Observation),
}

pub enum Contract {
    Close,
    Pay { account: Party, payee: Payee, token: Token, value: Value, then: Box<Contract> },
    If(Observation, Box<Contract>, Box<Contract>),
    When(Vec<(Action, Contract)>, i64, Box<Contract>),
    Let(String, Value, Box<Contract>),
    Assert(Observation, Box<Contract>),
}

pub struct State {
    pub accounts: BTreeMap<(Party, Token), i128>,
    pub choices: BTreeMap<ChoiceId, i128>,
    pub bound_values: BTreeMap<String, i128>,
    pub min_time: i64,
}

pub enum Input {
    Deposit { account: Party, party: Party, token: Token, amount: i128 },
    Choice(ChoiceId, i128),
    Notify,
}

pub struct Transaction {
    pub from: i64,
    pub to: i64,
    pub inputs: Vec<Input>,
}

pub enum Warning {
    NonPositiveDeposit { party: Party, account: Party, token: Token, amount: i128 },
    NonPositivePay { account: Party, payee: Payee, token: Token, amount: i128 },
    PartialPay { account: Party, payee: Payee, token: Token, paid: i128, expected: i128 },
    Shadowing { name: String, old: i128, new: i128 },
    AssertionFailed,
}

pub struct Payment {
    pub from: Party,
    pub to: Payee,
    pub token: Token,
    pub amount: i128,
}

pub struct Outcome<'a> {
    pub warnings: Vec<Warning>,
    pub payments: Vec<Payment>,
    pub state: State,
    pub contract: &'a Contract,
}
