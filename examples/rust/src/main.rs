//! A small mount planner: makes a rule of the records of spoiled mounts, and says which planned mounts it holds back, and why.
//!
//!     planner SPOILED MOUNT..
//!
//! SPOILED holds entries, each a packed length and a packed record; each MOUNT is a packed record.

mod cehmoli;

use cehmoli::{Error, Fault};
use std::error::Error as AnyError;
use std::{env, fs, process};

/// The rule of a session's last line, if it has one.
fn find_rule(text: &str) -> Result<Option<Vec<u8>>, Box<dyn AnyError>> {
    let Some(hex) = text.lines().last().and_then(|line| line.strip_prefix("rule ")) else {
        return Ok(None);
    };
    let mut rule = Vec::new();
    for at in (0..hex.len()).step_by(2) {
        rule.push(u8::from_str_radix(&hex[at..at + 2], 16)?);
    }
    Ok(Some(rule))
}

/// Why a mount is no record.
fn tell_fault(fault: &Fault) -> String {
    let literal = fault.literal.map_or(String::new(), |k| format!(" of literal {k}"));
    let layers: Vec<String> =
        fault.layers.iter().map(|layer| format!("{layer:?}").to_lowercase()).collect();
    format!(
        "no record: question {} at byte {}{literal}, in {}",
        fault.question,
        fault.byte,
        layers.join(" ")
    )
}

/// Whether the rule holds a mount back, and where the mount meets each variable of the rule.
fn plan(rule: &[u8], mount: &[u8]) -> Result<String, Error> {
    if let Err(fault) = cehmoli::read(mount) {
        return Ok(tell_fault(&fault));
    }
    if !cehmoli::covers(rule, mount)? {
        return Ok("may go".to_string());
    }
    let mut text = "held back:".to_string();
    for (x, node) in cehmoli::witness(rule, mount)?.into_iter().flatten().enumerate() {
        text.push_str(&format!(" X{x} at node {node}"));
    }
    Ok(text)
}

/// The join of two records in hexadecimal, or why there is none.
fn tell_join(first: &[u8], second: &[u8]) -> String {
    match cehmoli::join(first, second) {
        Ok(join) => join.iter().map(|byte| format!("{byte:02x}")).collect(),
        Err(Error::Refused(number)) => format!("refused {number}"),
        Err(_) => "no record".to_string(),
    }
}

fn main() -> Result<(), Box<dyn AnyError>> {
    let names: Vec<String> = env::args().skip(1).collect();
    let Some((spoiled, mounts)) = names.split_first() else {
        eprintln!("usage: planner SPOILED MOUNT..");
        process::exit(1);
    };
    let mut out = vec![0; cehmoli::SESSION_BYTES];
    let length = cehmoli::session(&fs::read(spoiled)?, &mut out)
        .map_err(|error| format!("the session: {error:?}"))?;
    let text = std::str::from_utf8(&out[..length])?;
    print!("{text}");

    let Some(rule) = find_rule(text)? else {
        return Ok(());
    };
    let mut before: Option<Vec<u8>> = None;
    for (k, name) in mounts.iter().enumerate() {
        let mount = fs::read(name)?;
        let plan = plan(&rule, &mount).map_err(|error| format!("the rule: {error:?}"))?;
        println!("{name}: {plan}");
        if let (1, Some(before)) = (k, &before) {
            println!("the join of the first two mounts: {}", tell_join(before, &mount));
        }
        before = Some(mount);
    }
    Ok(())
}
