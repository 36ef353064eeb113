//! One transaction of Marlowe Core, and the table of a contract, in plain Rust over `serde_json::Value`, as an expert would
//! write it without proofs: what `bench/beside_plain.py` measures the engine beside. It takes the words that `marlowe` takes
//! and prints the same outcome or table; a refusal is one line on standard error.
mod reading;
mod semantics;
mod table;
mod tree;
mod writing;

use std::process::ExitCode;

fn run(contract: &[u8], state: &[u8], transaction: &[u8]) -> Option<Result<Vec<u8>, &'static str>> {
    let contract = reading::contract(&serde_json::from_slice(contract).ok()?)?;
    let state = reading::state(&serde_json::from_slice(state).ok()?)?;
    let transaction = reading::transaction(&serde_json::from_slice(transaction).ok()?)?;
    Some(semantics::compute(&contract, state, &transaction).map(|outcome| {
        let mut text = serde_json::to_vec(&writing::outcome(&outcome)).unwrap();
        text.push(b'\n');
        text
    }))
}

fn table(contract: &[u8]) -> Option<Result<Vec<u8>, &'static str>> {
    let contract = reading::contract(&serde_json::from_slice(contract).ok()?)?;
    let mut table = table::Table::default();
    let root = table.cont(&contract);
    Some(Ok(table.text(root).unwrap()))
}

/// Requests of `marlowe serve`, one a line: `define` of one contract, and `run`.
fn serve() -> ExitCode {
    use std::io::{BufRead, Write};
    let mut defined = std::collections::HashMap::new();
    let mut out = std::io::BufWriter::new(std::io::stdout().lock());
    let mut input = std::io::BufReader::with_capacity(65_536, std::io::stdin().lock());
    let mut line = Vec::new();
    loop {
        if !input.buffer().contains(&b'\n') {
            out.flush().unwrap();
        }
        line.clear();
        if input.read_until(b'\n', &mut line).unwrap() == 0 {
            return ExitCode::SUCCESS;
        }
        let request: serde_json::Value = serde_json::from_slice(&line).unwrap();
        let id = serde_json::to_string(&request["id"]).unwrap();
        if let Some(members) = request["define"].as_object() {
            let (name, contract) = members.iter().next().unwrap();
            defined.insert(name.clone(), reading::contract(contract).unwrap());
            writeln!(out, "{{\"id\":{id},\"ok\":true}}").unwrap();
            continue;
        }
        let run = &request["run"];
        let named = run["contract"]["name"].as_str().and_then(|name| defined.get(name));
        let read;
        let contract = match named {
            Some(contract) => contract,
            None => {
                read = reading::contract(&run["contract"]).unwrap();
                &read
            }
        };
        let state = reading::state(&run["state"]).unwrap();
        let transaction = reading::transaction(&run["transaction"]).unwrap();
        match semantics::compute(contract, state, &transaction) {
            Ok(outcome) => {
                let text = serde_json::to_string(&writing::outcome(&outcome)).unwrap();
                writeln!(out, "{{\"id\":{id},\"ok\":{text}}}").unwrap();
            }
            Err(fault) => {
                writeln!(out, "{{\"id\":{id},\"refused\":{{\"of\":\"transaction\",\"name\":\"{fault}\"}}}}").unwrap();
            }
        }
    }
}

fn main() -> ExitCode {
    if std::env::args().nth(1).as_deref() == Some("serve") {
        return serve();
    }
    let words: Vec<String> = std::env::args().collect();
    let texts: Vec<Vec<u8>> = words[2..].iter().map(|path| std::fs::read(path).unwrap()).collect();
    let answer = if words[1] == "table" { table(&texts[0]) } else { run(&texts[0], &texts[1], &texts[2]) };
    match answer {
        Some(Ok(text)) => {
            use std::io::Write;
            std::io::stdout().write_all(&text).unwrap();
            ExitCode::SUCCESS
        }
        Some(Err(fault)) => {
            eprintln!("refused {fault}");
            ExitCode::from(1)
        }
        None => {
            eprintln!("refused a text");
            ExitCode::from(1)
        }
    }
}
