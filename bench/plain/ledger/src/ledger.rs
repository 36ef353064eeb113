//! A ledger whose outputs are all under keys, by the rules of docs/ledger.md that such transactions meet: 1 to 6, 8 and 18. It keeps
//! each call with its reply, as the chain does.
use crate::spelling::id_of;
use crate::tree::Token;
use std::collections::{BTreeMap, HashMap, HashSet};

pub type Id = [u8; 32];

#[derive(Clone, PartialEq, Eq, Hash)]
pub enum Reference {
    Genesis(u64),
    Made(Id, u64),
}

#[derive(Clone)]
pub struct Output {
    pub address: String,
    /// In the order of the tokens, each once and above 0.
    pub amount: Vec<(Token, i128)>,
}

pub struct Transaction {
    pub inputs: Vec<Reference>,
    pub outputs: Vec<Output>,
    pub from: i64,
    pub to: i64,
    pub signers: Vec<String>,
}

#[derive(Clone)]
pub enum Fault {
    NoInputs,
    TooMany,
    RepeatedInput(usize),
    NotUnspent(usize),
    IdInUse,
    OutsideInterval,
    NotSigned(usize),
    NotPreserved(Token),
}

#[derive(Clone)]
pub enum Reply {
    Accepted(Id),
    Refused(Fault),
}

/// An answered call: who made it, how many entries of the same seat stand before it, the call and the reply.
pub struct Entry {
    pub seat: u64,
    pub number: u64,
    pub transaction: Transaction,
    pub reply: Reply,
}

/// What stands, and the history.
pub struct Ledger {
    tick: i64,
    /// Each with the number of its making.
    unspent: HashMap<Reference, (u64, Output)>,
    made: u64,
    ids: HashSet<Id>,
    counts: HashMap<u64, u64>,
    entries: Vec<Entry>,
}

/// A sum of any size, in two halves.
#[derive(Default, PartialEq)]
struct Sum {
    high: u64,
    low: u128,
}

impl Sum {
    fn add(&mut self, amount: i128) {
        let (low, carries) = self.low.overflowing_add(amount as u128);
        self.low = low;
        self.high += u64::from(carries);
    }
}

/// The sums of each token of these outputs.
fn sums<'a>(outputs: impl Iterator<Item = &'a Output>) -> BTreeMap<&'a Token, Sum> {
    let mut sums: BTreeMap<&Token, Sum> = BTreeMap::new();
    for (token, amount) in outputs.flat_map(|output| &output.amount) {
        sums.entry(token).or_default().add(*amount);
    }
    sums
}

/// The least token of which what is spent and what is made differ.
fn not_preserved(spent: &[&Output], made: &[Output]) -> Option<Token> {
    let (spent, made) = (sums(spent.iter().copied()), sums(made.iter()));
    let lost = spent.iter().filter(|(token, sum)| made.get(*token) != Some(sum)).map(|(token, _)| *token);
    let gained = made.keys().filter(|token| !spent.contains_key(*token)).copied();
    lost.chain(gained).min().cloned()
}

impl Ledger {
    pub fn new(outputs: Vec<Output>, tick: i64) -> Ledger {
        let made = outputs.len() as u64;
        let unspent = (0..).zip(outputs).map(|(place, output)| (Reference::Genesis(place), (place, output)));
        Ledger {
            tick,
            unspent: unspent.collect(),
            made,
            ids: HashSet::new(),
            counts: HashMap::new(),
            entries: Vec::new(),
        }
    }

    /// The id of a transaction that no rule refuses, else the first fault.
    fn judge(&self, tx: &Transaction) -> Result<Id, Fault> {
        if tx.inputs.is_empty() {
            return Err(Fault::NoInputs);
        }
        if tx.inputs.len() > 256 {
            return Err(Fault::TooMany);
        }
        if let Some(place) = (1..tx.inputs.len()).find(|&place| tx.inputs[..place].contains(&tx.inputs[place])) {
            return Err(Fault::RepeatedInput(place));
        }
        let mut spent = Vec::with_capacity(tx.inputs.len());
        for (place, input) in tx.inputs.iter().enumerate() {
            spent.push(self.unspent.get(input).map(|(_, output)| output).ok_or(Fault::NotUnspent(place))?);
        }
        let id = id_of(tx);
        if self.ids.contains(&id) {
            return Err(Fault::IdInUse);
        }
        if self.tick < tx.from || tx.to < self.tick {
            return Err(Fault::OutsideInterval);
        }
        if let Some(place) = spent.iter().position(|output| !tx.signers.contains(&output.address)) {
            return Err(Fault::NotSigned(place));
        }
        match not_preserved(&spent, &tx.outputs) {
            Some(token) => Err(Fault::NotPreserved(token)),
            None => Ok(id),
        }
    }

    /// Judges a transaction, accepts it where no rule refuses it, and keeps the call with its reply.
    pub fn submit(&mut self, seat: u64, transaction: Transaction) -> Reply {
        let reply = match self.judge(&transaction) {
            Ok(id) => {
                for input in &transaction.inputs {
                    self.unspent.remove(input);
                }
                for (place, output) in (0..).zip(&transaction.outputs) {
                    self.unspent.insert(Reference::Made(id, place), (self.made, output.clone()));
                    self.made += 1;
                }
                self.ids.insert(id);
                Reply::Accepted(id)
            }
            Err(fault) => Reply::Refused(fault),
        };
        let count = self.counts.entry(seat).or_insert(0);
        self.entries.push(Entry { seat, number: *count, transaction, reply: reply.clone() });
        *count += 1;
        reply
    }

    pub fn entries(&self) -> &[Entry] {
        &self.entries
    }

    /// What is unspent, in order of creation.
    pub fn unspent(&self) -> Vec<(Reference, Output)> {
        let mut found: Vec<_> = self.unspent.iter().collect();
        found.sort_by_key(|(_, (number, _))| *number);
        found.into_iter().map(|(reference, (_, output))| (reference.clone(), output.clone())).collect()
    }
}
