//! Readers of JSON values: none where the value has no form.
use crate::tree::*;
use serde_json::Value as Json;
use std::collections::BTreeMap;

fn number(json: &Json) -> Option<i128> {
    json.as_u64().map(i128::from).or_else(|| json.as_i64().map(i128::from))
}

fn time(json: &Json) -> Option<i64> {
    json.as_i64()
}

fn text(json: &Json) -> Option<String> {
    json.as_str().map(String::from)
}

fn hex(digits: &str) -> Option<Vec<u8>> {
    if digits.len() % 2 != 0 {
        return None;
    }
    digits
        .as_bytes()
        .chunks(2)
        .map(|pair| Some((char::from(pair[0]).to_digit(16)? * 16 + char::from(pair[1]).to_digit(16)?) as u8))
        .collect()
}

fn party(json: &Json) -> Option<Party> {
    if let Some(address) = json.get("address") {
        return Some(Party::Address(text(address)?));
    }
    Some(Party::Role(text(json.get("role_token")?)?))
}

fn token(json: &Json) -> Option<Token> {
    Some(Token { symbol: hex(json.get("currency_symbol")?.as_str()?)?, name: text(json.get("token_name")?)? })
}

fn choice_id(json: &Json) -> Option<ChoiceId> {
    Some(ChoiceId { name: text(json.get("choice_name")?)?, owner: party(json.get("choice_owner")?)? })
}

fn payee(json: &Json) -> Option<Payee> {
    if let Some(account) = json.get("account") {
        return Some(Payee::Account(party(account)?));
    }
    Some(Payee::Party(party(json.get("party")?)?))
}

fn boxed(json: &Json) -> Option<Box<Value>> {
    value(json).map(Box::new)
}

fn value(json: &Json) -> Option<Value> {
    if json.is_number() {
        return number(json).map(Value::Constant);
    }
    match json.as_str() {
        Some("time_interval_start") => return Some(Value::TimeIntervalStart),
        Some("time_interval_end") => return Some(Value::TimeIntervalEnd),
        _ => {}
    }
    let get = |key| json.get(key);
    if let (Some(t), Some(p)) = (get("amount_of_token"), get("in_account")) {
        return Some(Value::AvailableMoney(token(t)?, party(p)?));
    }
    if let Some(v) = get("negate") {
        return Some(Value::Neg(boxed(v)?));
    }
    if let (Some(a), Some(b)) = (get("add"), get("and")) {
        return Some(Value::Add(boxed(a)?, boxed(b)?));
    }
    if let (Some(a), Some(b)) = (get("value"), get("minus")) {
        return Some(Value::Sub(boxed(a)?, boxed(b)?));
    }
    if let (Some(a), Some(b)) = (get("multiply"), get("times")) {
        return Some(Value::Mul(boxed(a)?, boxed(b)?));
    }
    if let (Some(a), Some(b)) = (get("divide"), get("by")) {
        return Some(Value::Div(boxed(a)?, boxed(b)?));
    }
    if let Some(id) = get("value_of_choice") {
        return Some(Value::Choice(choice_id(id)?));
    }
    if let Some(name) = get("use_value") {
        return Some(Value::Use(text(name)?));
    }
    Some(Value::Cond(Box::new(observation(get("if")?)?), boxed(get("then")?)?, boxed(get("else")?)?))
}

fn observation(json: &Json) -> Option<Observation> {
    if let Some(truth) = json.as_bool() {
        return Some(if truth { Observation::True } else { Observation::False });
    }
    let get = |key| json.get(key);
    let both = |a, b| Some((Box::new(observation(a)?), Box::new(observation(b)?)));
    if let (Some(a), Some(b)) = (get("both"), get("and")) {
        return both(a, b).map(|(a, b)| Observation::And(a, b));
    }
    if let (Some(a), Some(b)) = (get("either"), get("or")) {
        return both(a, b).map(|(a, b)| Observation::Or(a, b));
    }
    if let Some(o) = get("not") {
        return Some(Observation::Not(Box::new(observation(o)?)));
    }
    if let Some(id) = get("chose_something_for") {
        return Some(Observation::Chose(choice_id(id)?));
    }
    let left = value(get("value")?);
    type Comparison = fn(Value, Value) -> Observation;
    let forms: [(&str, Comparison); 5] = [
        ("ge_than", Observation::GE),
        ("gt", Observation::GT),
        ("lt", Observation::LT),
        ("le_than", Observation::LE),
        ("equal_to", Observation::EQ),
    ];
    for (key, form) in forms {
        if let Some(right) = get(key) {
            return Some(form(left?, value(right)?));
        }
    }
    None
}

fn action(json: &Json) -> Option<Action> {
    let get = |key| json.get(key);
    if let (Some(p), Some(v), Some(t), Some(a)) = (get("party"), get("deposits"), get("of_token"), get("into_account")) {
        return Some(Action::Deposit { account: party(a)?, party: party(p)?, token: token(t)?, value: value(v)? });
    }
    if let (Some(id), Some(bounds)) = (get("for_choice"), get("choose_between")) {
        let bounds = bounds.as_array()?.iter().map(|b| Some((number(b.get("from")?)?, number(b.get("to")?)?)));
        return Some(Action::Choice(choice_id(id)?, bounds.collect::<Option<_>>()?));
    }
    Some(Action::Notify(observation(get("notify_if")?)?))
}

pub fn contract(json: &Json) -> Option<Contract> {
    if json.as_str() == Some("close") {
        return Some(Contract::Close);
    }
    let get = |key| json.get(key);
    let on = |json| contract(json).map(Box::new);
    if let (Some(v), Some(t), Some(a), Some(p), Some(then)) =
        (get("pay"), get("token"), get("from_account"), get("to"), get("then"))
    {
        return Some(Contract::Pay {
            value: value(v)?,
            token: token(t)?,
            account: party(a)?,
            payee: payee(p)?,
            then: on(then)?,
        });
    }
    if let (Some(o), Some(a), Some(b)) = (get("if"), get("then"), get("else")) {
        return Some(Contract::If(observation(o)?, on(a)?, on(b)?));
    }
    if let (Some(cases), Some(timeout), Some(late)) = (get("when"), get("timeout"), get("timeout_continuation")) {
        let cases = cases.as_array()?.iter().map(|c| Some((action(c.get("case")?)?, contract(c.get("then")?)?)));
        return Some(Contract::When(cases.collect::<Option<_>>()?, time(timeout)?, on(late)?));
    }
    if let (Some(name), Some(v), Some(then)) = (get("let"), get("be"), get("then")) {
        return Some(Contract::Let(text(name)?, value(v)?, on(then)?));
    }
    Some(Contract::Assert(observation(get("assert")?)?, on(get("then")?)?))
}

fn rows<K: Ord>(json: &Json, key: impl Fn(&Json) -> Option<K>) -> Option<BTreeMap<K, i128>> {
    let mut map = BTreeMap::new();
    for row in json.as_array()? {
        let [k, n] = row.as_array()?.as_slice() else { return None };
        if map.insert(key(k)?, number(n)?).is_some() {
            return None;
        }
    }
    Some(map)
}

pub fn state(json: &Json) -> Option<State> {
    let accounts = rows(json.get("accounts")?, |key| {
        let [p, t] = key.as_array()?.as_slice() else { return None };
        Some((party(p)?, token(t)?))
    })?;
    if accounts.values().any(|amount| *amount <= 0) {
        return None;
    }
    Some(State {
        accounts,
        choices: rows(json.get("choices")?, choice_id)?,
        bound_values: rows(json.get("boundValues")?, text)?,
        min_time: time(json.get("minTime")?)?,
    })
}

fn input(json: &Json) -> Option<Input> {
    if json.as_str() == Some("input_notify") {
        return Some(Input::Notify);
    }
    let get = |key| json.get(key);
    if let (Some(p), Some(n), Some(t), Some(a)) =
        (get("input_from_party"), get("that_deposits"), get("of_token"), get("into_account"))
    {
        return Some(Input::Deposit { account: party(a)?, party: party(p)?, token: token(t)?, amount: number(n)? });
    }
    Some(Input::Choice(choice_id(get("for_choice_id")?)?, number(get("input_that_chooses_num")?)?))
}

pub fn transaction(json: &Json) -> Option<Transaction> {
    let interval = json.get("tx_interval")?;
    Some(Transaction {
        from: time(interval.get("from")?)?,
        to: time(interval.get("to")?)?,
        inputs: json.get("tx_inputs")?.as_array()?.iter().map(input).collect::<Option<_>>()?,
    })
}
