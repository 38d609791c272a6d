//! Compares what step_actions.c writes of each step with the action of the instruction. It prints each instruction that does
//! something else, and how many of each kind do what is told; it exits with 1 if one does not.
use framehop_code::x86_64::action::action_at;
use std::collections::BTreeMap;
use std::io::{stdin, BufRead};
use steps::{bytes_of, difference, kind_of, step_of, told, SIGTRAP};

mod framehop_bytes;
mod framehop_cfi;
mod framehop_code;
mod steps;

fn main() {
    let mut counts: BTreeMap<String, usize> = BTreeMap::new();
    let mut wrong: BTreeMap<String, String> = BTreeMap::new();
    for line in stdin().lock().lines() {
        let line = line.unwrap();
        let fields: Vec<&str> = line.split(' ').collect();
        let code = bytes_of(fields[0]);
        let step = step_of(&fields, code.len() as u64, 16);
        let kind = match action_at(&code, 0) {
            None => format!("no action, signal {}", step.signal),
            Some(_) if step.signal != SIGTRAP => format!("signal {}", step.signal),
            Some(found) => {
                let difference = if found.size != code.len() { Some(format!("size {}", found.size)) } else { difference(&told(&found.action, &step.before), &step) };
                let is_wrong = difference.is_some();
                difference.into_iter().for_each(|text| drop(wrong.entry(fields[0].to_string()).or_insert(text)));
                if is_wrong { "WRONG".to_string() } else { format!("as told: {}", kind_of(&found.action)) }
            }
        };
        *counts.entry(kind).or_default() += 1;
    }
    counts.iter().for_each(|(kind, count)| println!("{count:8} {kind}"));
    wrong.iter().for_each(|(code, text)| println!("{code}: {text}"));
    std::process::exit(i32::from(!wrong.is_empty()));
}
