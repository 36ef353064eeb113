//! Outcomes as JSON values.
use crate::tree::*;
use serde_json::{json, Value as Json};

fn number(n: i128) -> Json {
    if let Ok(n) = i64::try_from(n) {
        return Json::from(n);
    }
    if let Ok(n) = u64::try_from(n) {
        return Json::from(n);
    }
    Json::from(n.to_string())
}

fn hex(bytes: &[u8]) -> String {
    bytes.iter().map(|byte| format!("{byte:02x}")).collect()
}

pub fn party(p: &Party) -> Json {
    match p {
        Party::Address(text) => json!({ "address": text }),
        Party::Role(text) => json!({ "role_token": text }),
    }
}

pub fn token(t: &Token) -> Json {
    json!({ "currency_symbol": hex(&t.symbol), "token_name": t.name })
}

pub fn choice_id(id: &ChoiceId) -> Json {
    json!({ "choice_name": id.name, "choice_owner": party(&id.owner) })
}

pub fn payee(p: &Payee) -> Json {
    match p {
        Payee::Account(p) => json!({ "account": party(p) }),
        Payee::Party(p) => json!({ "party": party(p) }),
    }
}

fn value(v: &Value) -> Json {
    match v {
        Value::AvailableMoney(t, p) => json!({ "amount_of_token": token(t), "in_account": party(p) }),
        Value::Constant(n) => number(*n),
        Value::Neg(a) => json!({ "negate": value(a) }),
        Value::Add(a, b) => json!({ "add": value(a), "and": value(b) }),
        Value::Sub(a, b) => json!({ "value": value(a), "minus": value(b) }),
        Value::Mul(a, b) => json!({ "multiply": value(a), "times": value(b) }),
        Value::Div(a, b) => json!({ "divide": value(a), "by": value(b) }),
        Value::Choice(id) => json!({ "value_of_choice": choice_id(id) }),
        Value::TimeIntervalStart => json!("time_interval_start"),
        Value::TimeIntervalEnd => json!("time_interval_end"),
        Value::Use(name) => json!({ "use_value": name }),
        Value::Cond(o, a, b) => json!({ "if": observation(o), "then": value(a), "else": value(b) }),
    }
}

fn observation(o: &Observation) -> Json {
    match o {
        Observation::And(a, b) => json!({ "both": observation(a), "and": observation(b) }),
        Observation::Or(a, b) => json!({ "either": observation(a), "or": observation(b) }),
        Observation::Not(a) => json!({ "not": observation(a) }),
        Observation::Chose(id) => json!({ "chose_something_for": choice_id(id) }),
        Observation::GE(a, b) => json!({ "value": value(a), "ge_than": value(b) }),
        Observation::GT(a, b) => json!({ "value": value(a), "gt": value(b) }),
        Observation::LT(a, b) => json!({ "value": value(a), "lt": value(b) }),
        Observation::LE(a, b) => json!({ "value": value(a), "le_than": value(b) }),
        Observation::EQ(a, b) => json!({ "value": value(a), "equal_to": value(b) }),
        Observation::True => json!(true),
        Observation::False => json!(false),
    }
}

fn action(a: &Action) -> Json {
    match a {
        Action::Deposit { account, party: p, token: t, value: v } => json!({
            "party": party(p), "deposits": value(v), "of_token": token(t), "into_account": party(account)
        }),
        Action::Choice(id, bounds) => {
            let bounds: Vec<Json> =
                bounds.iter().map(|(from, to)| json!({ "from": number(*from), "to": number(*to) })).collect();
            json!({ "for_choice": choice_id(id), "choose_between": bounds })
        }
        Action::Notify(o) => json!({ "notify_if": observation(o) }),
    }
}

fn contract(c: &Contract) -> Json {
    match c {
        Contract::Close => json!("close"),
        Contract::Pay { account, payee: p, token: t, value: v, then } => json!({
            "pay": value(v), "token": token(t), "from_account": party(account), "to": payee(p), "then": contract(then)
        }),
        Contract::If(o, a, b) => json!({ "if": observation(o), "then": contract(a), "else": contract(b) }),
        Contract::When(cases, timeout, late) => {
            let cases: Vec<Json> =
                cases.iter().map(|(a, c)| json!({ "case": action(a), "then": contract(c) })).collect();
            json!({ "when": cases, "timeout": timeout, "timeout_continuation": contract(late) })
        }
        Contract::Let(name, v, then) => json!({ "let": name, "be": value(v), "then": contract(then) }),
        Contract::Assert(o, then) => json!({ "assert": observation(o), "then": contract(then) }),
    }
}

fn warning(w: &Warning) -> Json {
    match w {
        Warning::NonPositiveDeposit { party: p, account, token: t, amount } => json!({
            "warning": "NonPositiveDeposit", "party": party(p), "account": party(account), "token": token(t), "amount": number(*amount)
        }),
        Warning::NonPositivePay { account, payee: p, token: t, amount } => json!({
            "warning": "NonPositivePay", "account": party(account), "payee": payee(p), "token": token(t), "amount": number(*amount)
        }),
        Warning::PartialPay { account, payee: p, token: t, paid, expected } => json!({
            "warning": "PartialPay", "account": party(account), "payee": payee(p), "token": token(t),
            "paid": number(*paid), "expected": number(*expected)
        }),
        Warning::Shadowing { name, old, new } => {
            json!({ "warning": "Shadowing", "name": name, "old": number(*old), "new": number(*new) })
        }
        Warning::AssertionFailed => json!({ "warning": "AssertionFailed" }),
    }
}

pub fn outcome(o: &Outcome) -> Json {
    let accounts: Vec<Json> =
        o.state.accounts.iter().map(|((p, t), n)| json!([[party(p), token(t)], number(*n)])).collect();
    let choices: Vec<Json> = o.state.choices.iter().map(|(id, n)| json!([choice_id(id), number(*n)])).collect();
    let bound: Vec<Json> = o.state.bound_values.iter().map(|(name, n)| json!([name, number(*n)])).collect();
    let payments: Vec<Json> = o
        .payments
        .iter()
        .map(|p| {
            json!({ "payment_from": party(&p.from), "to": payee(&p.to), "token": token(&p.token), "amount": number(p.amount) })
        })
        .collect();
    let warnings: Vec<Json> = o.warnings.iter().map(warning).collect();
    json!({
        "contract": contract(o.contract),
        "payments": payments,
        "state": { "accounts": accounts, "choices": choices, "boundValues": bound, "minTime": o.state.min_time },
        "warnings": warnings
    })
}
