//! Compares what step_actions_aarch64.c writes of each step with the actions of the instruction. It prints each word that does
//! something else, and how many of each kind do what is told; it exits with 1 if one does not. It counts the words whose actions leave
//! any value in a register or in memory that no step of them changed, too: with an argument it prints them.
use framehop_code::aarch64::action::{actions_at, Actions};
use framehop_code::action::Action;
use std::collections::BTreeMap;
use std::io::{stdin, BufRead};
use steps::{difference, kind_of, step_of, told_of, Step, Told, SIGTRAP};

mod framehop_bytes;
mod framehop_cfi;
mod framehop_code;
mod steps;

const COUNT: usize = 32;

fn list_of(actions: &Actions) -> Vec<Action> {
    [Some(actions.first), actions.second, actions.third].into_iter().flatten().collect()
}

/// The registers and the first and last bytes of memory that may have any value.
fn forgotten(told: &Told) -> Vec<String> {
    let registers = (0..COUNT).filter(|r| told.registers[*r].is_none()).map(|r| format!("register {r}"));
    let memory = told.written.iter().filter(|written| written.2.is_none()).enumerate();
    registers.chain(memory.flat_map(|(i, written)| [format!("first byte of {i}"), format!("last of {} bytes of {i}", written.1)])).collect()
}

/// Those of them that a step changed.
fn changed(told: &Told, step: &Step) -> Vec<String> {
    let registers = (0..COUNT).filter(|r| step.before.registers[*r] != step.after[*r]).map(|r| format!("register {r}"));
    let memory = told.written.iter().filter(|written| written.2.is_none()).enumerate();
    let is_changed = |at: u64| step.changed.contains_key(&at);
    let bytes = memory.flat_map(|(i, (at, size, _))| {
        let first = is_changed(*at).then(|| format!("first byte of {i}"));
        let last = is_changed(at.wrapping_add(size - 1)).then(|| format!("last of {size} bytes of {i}"));
        [first, last].into_iter().flatten()
    });
    registers.chain(bytes).collect()
}

fn main() {
    let mut counts: BTreeMap<String, usize> = BTreeMap::new();
    let mut wrong: BTreeMap<String, String> = BTreeMap::new();
    let mut unseen: BTreeMap<String, Vec<String>> = BTreeMap::new();
    for line in stdin().lock().lines() {
        let line = line.unwrap();
        let fields: Vec<&str> = line.split(' ').collect();
        let word = u32::from_str_radix(fields[0], 16).unwrap();
        let step = step_of(&fields, 4, COUNT);
        let kind = match actions_at(&word.to_le_bytes(), 0) {
            None => format!("no action, signal {}", step.signal),
            Some(_) if step.signal != SIGTRAP => format!("signal {}", step.signal),
            Some(found) => {
                let actions = list_of(&found);
                let told = told_of(&actions, &step.before);
                let difference = difference(&told, &step);
                let is_wrong = difference.is_some();
                difference.into_iter().for_each(|text| drop(wrong.entry(fields[0].to_string()).or_insert(text)));
                let left = unseen.entry(fields[0].to_string()).or_insert_with(|| forgotten(&told));
                let seen = changed(&told, &step);
                left.retain(|name| !seen.contains(name));
                let kinds: Vec<String> = actions.iter().map(kind_of).collect();
                if is_wrong { "WRONG".to_string() } else { format!("as told: {}", kinds.join(", ")) }
            }
        };
        *counts.entry(kind).or_default() += 1;
    }
    counts.iter().for_each(|(kind, count)| println!("{count:8} {kind}"));
    unseen.retain(|_, left| !left.is_empty());
    println!("{:8} words with any value where no step changed one", unseen.len());
    if std::env::args().count() > 1 {
        unseen.iter().for_each(|(word, left)| println!("{word}: unchanged {}", left.join(", ")));
    }
    wrong.iter().for_each(|(word, text)| println!("{word}: {text}"));
    std::process::exit(i32::from(!wrong.is_empty()));
}
