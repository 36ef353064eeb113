//! Marlowe's transaction function, in 128 bits.
use crate::tree::*;

type Fault = &'static str;

const LEAVES: Fault = "Leaves128";

struct Environment {
    from: i64,
    to: i64,
}

fn value(env: &Environment, s: &State, v: &Value) -> Result<i128, Fault> {
    let of = |v: &Value| value(env, s, v);
    match v {
        Value::AvailableMoney(token, party) => {
            Ok(s.accounts.get(&(party.clone(), token.clone())).copied().unwrap_or(0))
        }
        Value::Constant(n) => Ok(*n),
        Value::Neg(a) => of(a)?.checked_neg().ok_or(LEAVES),
        Value::Add(a, b) => of(a)?.checked_add(of(b)?).ok_or(LEAVES),
        Value::Sub(a, b) => of(a)?.checked_sub(of(b)?).ok_or(LEAVES),
        Value::Mul(a, b) => of(a)?.checked_mul(of(b)?).ok_or(LEAVES),
        Value::Div(a, b) => {
            let (a, b) = (of(a)?, of(b)?);
            if b == 0 { Ok(0) } else { a.checked_div(b).ok_or(LEAVES) }
        }
        Value::Choice(id) => Ok(s.choices.get(id).copied().unwrap_or(0)),
        Value::TimeIntervalStart => Ok(i128::from(env.from)),
        Value::TimeIntervalEnd => Ok(i128::from(env.to)),
        Value::Use(name) => Ok(s.bound_values.get(name).copied().unwrap_or(0)),
        Value::Cond(o, a, b) => if holds(env, s, o)? { of(a) } else { of(b) },
    }
}

fn holds(env: &Environment, s: &State, o: &Observation) -> Result<bool, Fault> {
    let of = |v: &Value| value(env, s, v);
    Ok(match o {
        Observation::And(a, b) => holds(env, s, a)? && holds(env, s, b)?,
        Observation::Or(a, b) => holds(env, s, a)? || holds(env, s, b)?,
        Observation::Not(a) => !holds(env, s, a)?,
        Observation::Chose(id) => s.choices.contains_key(id),
        Observation::GE(a, b) => of(a)? >= of(b)?,
        Observation::GT(a, b) => of(a)? > of(b)?,
        Observation::LT(a, b) => of(a)? < of(b)?,
        Observation::LE(a, b) => of(a)? <= of(b)?,
        Observation::EQ(a, b) => of(a)? == of(b)?,
        Observation::True => true,
        Observation::False => false,
    })
}

struct Run<'a> {
    env: Environment,
    state: State,
    contract: &'a Contract,
    warnings: Vec<Warning>,
    payments: Vec<Payment>,
    moved: bool,
}

fn credit(s: &mut State, account: &Party, token: &Token, amount: i128) -> Result<(), Fault> {
    let held = s.accounts.entry((account.clone(), token.clone())).or_insert(0);
    *held = held.checked_add(amount).ok_or(LEAVES)?;
    if *held == 0 {
        s.accounts.remove(&(account.clone(), token.clone()));
    }
    Ok(())
}

impl<'a> Run<'a> {
    fn pay(&mut self, account: &Party, payee: &Payee, token: &Token, v: &Value) -> Result<(), Fault> {
        let expected = value(&self.env, &self.state, v)?;
        if expected <= 0 {
            self.warnings.push(Warning::NonPositivePay {
                account: account.clone(),
                payee: payee.clone(),
                token: token.clone(),
                amount: expected,
            });
            return Ok(());
        }
        let key = (account.clone(), token.clone());
        let held = self.state.accounts.get(&key).copied().unwrap_or(0);
        let paid = held.min(expected);
        if paid < expected {
            self.warnings.push(Warning::PartialPay {
                account: account.clone(),
                payee: payee.clone(),
                token: token.clone(),
                paid,
                expected,
            });
        }
        if held == paid {
            self.state.accounts.remove(&key);
        } else {
            self.state.accounts.insert(key, held - paid);
        }
        if let Payee::Account(other) = payee {
            credit(&mut self.state, other, token, paid)?;
        }
        self.payments.push(Payment { from: account.clone(), to: payee.clone(), token: token.clone(), amount: paid });
        Ok(())
    }

    fn settle(&mut self) -> Result<(), Fault> {
        loop {
            self.contract = match self.contract {
                Contract::Close => {
                    for ((owner, token), amount) in std::mem::take(&mut self.state.accounts) {
                        self.moved = true;
                        self.payments.push(Payment { to: Payee::Party(owner.clone()), from: owner, token, amount });
                    }
                    return Ok(());
                }
                Contract::Pay { account, payee, token, value, then } => {
                    self.pay(account, payee, token, value)?;
                    then
                }
                Contract::If(o, a, b) => if holds(&self.env, &self.state, o)? { a } else { b },
                Contract::When(_, timeout, late) => {
                    if self.env.to < *timeout {
                        return Ok(());
                    }
                    if self.env.from < *timeout {
                        return Err("Ambiguous");
                    }
                    late
                }
                Contract::Let(name, v, then) => {
                    let new = value(&self.env, &self.state, v)?;
                    if let Some(old) = self.state.bound_values.insert(name.clone(), new) {
                        self.warnings.push(Warning::Shadowing { name: name.clone(), old, new });
                    }
                    then
                }
                Contract::Assert(o, then) => {
                    if !holds(&self.env, &self.state, o)? {
                        self.warnings.push(Warning::AssertionFailed);
                    }
                    then
                }
            };
            self.moved = true;
        }
    }

    fn matches(&self, input: &Input, action: &Action) -> Result<bool, Fault> {
        match (input, action) {
            (
                Input::Deposit { account, party, token, amount },
                Action::Deposit { account: a, party: p, token: t, value: v },
            ) if account == a && party == p && token == t => Ok(*amount == value(&self.env, &self.state, v)?),
            (Input::Choice(id, n), Action::Choice(i, bounds)) => {
                Ok(id == i && bounds.iter().any(|(from, to)| from <= n && n <= to))
            }
            (Input::Notify, Action::Notify(o)) => holds(&self.env, &self.state, o),
            _ => Ok(false),
        }
    }

    fn apply(&mut self, input: &Input) -> Result<(), Fault> {
        let Contract::When(cases, _, _) = self.contract else { return Err("NoMatch") };
        for (action, then) in cases {
            if self.matches(input, action)? {
                match input {
                    Input::Deposit { account, party, token, amount } if *amount <= 0 => {
                        self.warnings.push(Warning::NonPositiveDeposit {
                            party: party.clone(),
                            account: account.clone(),
                            token: token.clone(),
                            amount: *amount,
                        });
                    }
                    Input::Deposit { account, token, amount, .. } => {
                        credit(&mut self.state, account, token, *amount)?;
                    }
                    Input::Choice(id, n) => {
                        self.state.choices.insert(id.clone(), *n);
                    }
                    Input::Notify => {}
                }
                self.contract = then;
                self.moved = true;
                return Ok(());
            }
        }
        Err("NoMatch")
    }
}

pub fn compute<'a>(contract: &'a Contract, mut state: State, tx: &Transaction) -> Result<Outcome<'a>, Fault> {
    if tx.to < tx.from {
        return Err("InvalidInterval");
    }
    if tx.to < state.min_time {
        return Err("IntervalInPast");
    }
    let from = tx.from.max(state.min_time);
    state.min_time = from;
    let env = Environment { from, to: tx.to };
    let mut run = Run { env, state, contract, warnings: Vec::new(), payments: Vec::new(), moved: false };
    run.settle()?;
    for input in &tx.inputs {
        run.apply(input)?;
        run.settle()?;
    }
    if !run.moved {
        return Err("Useless");
    }
    Ok(Outcome { warnings: run.warnings, payments: run.payments, state: run.state, contract: run.contract })
}
