//! The bytes of a transaction (docs/formats.md, "Transactions on the ledger"), and its id.
use crate::ledger::{Id, Output, Reference, Transaction};
use crate::sha256::digest;
use crate::tree::Token;

fn put_length(out: &mut Vec<u8>, length: usize) {
    out.extend_from_slice(&(length as u64).to_be_bytes());
}

fn put_bytes(out: &mut Vec<u8>, bytes: &[u8]) {
    put_length(out, bytes.len());
    out.extend_from_slice(bytes);
}

fn put_list<T>(out: &mut Vec<u8>, items: &[T], put: impl Fn(&mut Vec<u8>, &T)) {
    put_length(out, items.len());
    for item in items {
        put(out, item);
    }
}

/// An input: its reference, and no redeemer.
fn put_input(out: &mut Vec<u8>, reference: &Reference) {
    let place = match reference {
        Reference::Genesis(place) => {
            out.push(0x00);
            place
        }
        Reference::Made(id, place) => {
            out.push(0x01);
            out.extend_from_slice(id);
            place
        }
    };
    out.extend_from_slice(&place.to_be_bytes());
    out.push(0x00);
}

fn put_holding(out: &mut Vec<u8>, (token, amount): &(Token, i128)) {
    put_bytes(out, &token.symbol);
    put_bytes(out, token.name.as_bytes());
    out.extend_from_slice(&amount.to_be_bytes());
}

fn put_output(out: &mut Vec<u8>, output: &Output) {
    out.push(0x00);
    put_bytes(out, output.address.as_bytes());
    put_list(out, &output.amount, put_holding);
}

/// The SHA-256 of the transaction's bytes.
pub fn id_of(tx: &Transaction) -> Id {
    let mut out = Vec::new();
    put_list(&mut out, &tx.inputs, put_input);
    put_list(&mut out, &tx.outputs, put_output);
    out.extend_from_slice(&tx.from.to_be_bytes());
    out.extend_from_slice(&tx.to.to_be_bytes());
    put_list(&mut out, &tx.signers, |out, signer| put_bytes(out, signer.as_bytes()));
    // no data are brought
    put_length(&mut out, 0);
    digest(&out)
}
