//! A ledger of key outputs over a `HashMap`, in plain Rust, as an expert would write it without proofs: what
//! `bench/beside_plain_ledger.py` measures the chain beside. `payments N` submits so many payments and prints how many were accepted;
//! `payments N shown` prints what is unspent then too: how many outputs, how many lovelace, and a digest of all.
#[allow(dead_code)]
mod ledger;
mod sha256;
mod spelling;
#[allow(dead_code)]
#[path = "../../src/tree.rs"]
mod tree;

use ledger::{Ledger, Output, Reference, Reply, Transaction};
use spelling::id_of;
use tree::Token;

/// How many lovelace the bank begins with.
const HELD: i128 = 1_000_000_000_000;
/// How many addresses are paid, in turn.
const ADDRESSES: u64 = 1_000;
/// The last tick at which a payment may happen.
const LAST: i64 = 1_000_000_000;

fn lovelace(address: String, amount: i128) -> Output {
    let ada = Token { symbol: Vec::new(), name: String::new() };
    Output { address, amount: vec![(ada, amount)] }
}

/// A payment of one lovelace: the bank spends what it holds, and pays the rest to itself.
fn payment(from: Reference, held: i128, number: u64) -> Transaction {
    let paid = lovelace(format!("k{}", number % ADDRESSES), 1);
    Transaction {
        inputs: vec![from],
        outputs: vec![lovelace("bank".into(), held - 1), paid],
        from: 0,
        to: LAST,
        signers: vec!["bank".into()],
    }
}

/// Submits so many payments: the ledger after them, and how many were accepted.
fn pay(count: u64) -> (Ledger, u64) {
    let mut ledger = Ledger::new(vec![lovelace("bank".into(), HELD)], 0);
    let mut from = Reference::Genesis(0);
    let (mut held, mut accepted) = (HELD, 0);
    for number in 0..count {
        if let Reply::Accepted(id) = ledger.submit(number % 16, payment(from.clone(), held, number)) {
            from = Reference::Made(id, 0);
            held -= 1;
            accepted += 1;
        }
    }
    (ledger, accepted)
}

/// The id that a transaction would have which spends all of these outputs and makes them anew.
fn digest(unspent: Vec<(Reference, Output)>) -> String {
    let (inputs, outputs) = unspent.into_iter().unzip();
    let id = id_of(&Transaction { inputs, outputs, from: 0, to: 0, signers: Vec::new() });
    id.iter().map(|byte| format!("{byte:02x}")).collect()
}

fn main() {
    let words: Vec<String> = std::env::args().skip(1).collect();
    let (ledger, accepted) = match words.iter().map(String::as_str).collect::<Vec<_>>()[..] {
        ["payments", count, ..] => pay(count.parse().unwrap()),
        _ => panic!("payments N [shown]"),
    };
    println!("accepted {accepted} of {}", ledger.entries().len());
    if words.len() > 2 {
        let unspent = ledger.unspent();
        let held: i128 = unspent.iter().flat_map(|(_, output)| &output.amount).map(|(_, amount)| amount).sum();
        println!("unspent {} with {held} lovelace, digest {}", unspent.len(), digest(unspent));
    }
}
