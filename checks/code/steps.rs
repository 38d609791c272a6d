//! What a step of an instruction did, and what its actions tell of it.
use crate::framehop_code::action::{Action, Address, Computation, Operand, Place, Source, Stored, Width};
use std::collections::BTreeMap;

pub const CODE: u64 = 0x7000_0000_0000;
pub const SIGTRAP: i32 = 5;
/// At most so many registers are described.
const COUNT: usize = 32;
const RCX: usize = 2;
const RBP: usize = 6;
const RSP: usize = 7;
const X30: usize = 30;

/// Registers by their DWARF numbers, and the address of the next instruction.
#[derive(Clone)]
pub struct State {
    pub registers: [u64; COUNT],
    pub next: u64,
}

/// Bytes from an address on that may have changed, and their value, if it is told.
type Written = (u64, u64, Option<u64>);

/// What is told of a step: registers, if they are known, bytes that are written, whether others may be, and where it leads.
pub struct Told {
    pub registers: [Option<u64>; COUNT],
    pub written: Vec<Written>,
    pub elsewhere: bool,
    pub leads: Vec<u64>,
}

/// What a step did.
pub struct Step {
    pub signal: i32,
    pub before: State,
    pub after: [u64; COUNT],
    pub next: u64,
    pub changed: BTreeMap<u64, u8>,
}

fn word_at(address: u64) -> u64 {
    let mut v = address.wrapping_mul(0x9E37_79B9_7F4A_7C15);
    v = (v ^ v >> 29).wrapping_mul(0xBF58_476D_1CE4_E5B9);
    v ^= v >> 32;
    if address % 4096 / 8 % 3 == 0 { 0x4000_0000 + (v & 0xffff) } else { v }
}

pub fn load(address: u64, size: u64, changed: &BTreeMap<u64, u8>) -> u64 {
    (0..size).fold(0, |sum, i| {
        let at = address.wrapping_add(i);
        let byte = changed.get(&at).copied().unwrap_or((word_at(at & !7) >> (8 * (at & 7))) as u8);
        sum | u64::from(byte) << (8 * i)
    })
}

fn narrowed(value: u64, size: u64) -> u64 {
    if size == 4 { value & 0xffff_ffff } else { value }
}

/// Whether a word at an address is on the pages of code, of which the second begins with the instruction.
fn is_code(address: u64) -> bool {
    (CODE - 0x1007..CODE + 0x1000).contains(&address)
}

impl State {
    fn address(&self, a: &Address) -> u64 {
        let base = a.base.map_or(0, |r| self.registers[r.0 as usize]);
        let index = a.index.map_or(0, |i| self.registers[i.register.0 as usize].wrapping_mul(i.scale.into()));
        let from = if a.from_next { self.next } else { 0 };
        base.wrapping_add(index).wrapping_add(a.displacement).wrapping_add(from)
    }

    fn operand(&self, operand: &Operand, size: u64) -> Option<u64> {
        match operand {
            Operand::Register(r) => Some(narrowed(self.registers[r.0 as usize], size)),
            Operand::Memory(Place::At(a)) if !is_code(self.address(a)) => Some(load(self.address(a), size, &BTreeMap::new())),
            Operand::Memory(_) => None,
        }
    }

    fn source(&self, source: &Source, size: u64) -> Option<u64> {
        match source {
            Source::Operand(operand) => self.operand(operand, size),
            Source::SignExtended(operand) => self.operand(operand, 4).map(|v| v as u32 as i32 as u64),
            Source::Immediate(v) => Some(*v),
            Source::Address(a) => Some(self.address(a)),
            Source::Unknown => None,
        }
    }
}

impl Told {
    fn set(&mut self, state: &State, operand: &Operand, value: Option<u64>, size: u64) {
        match operand {
            Operand::Register(r) => self.registers[r.0 as usize] = value.map(|v| narrowed(v, size)),
            Operand::Memory(Place::At(a)) => self.written.push((state.address(a), size, value.map(|v| narrowed(v, size)))),
            Operand::Memory(Place::Elsewhere) => self.elsewhere = true,
        }
    }

    fn push(&mut self, state: &State, value: Option<u64>) {
        let sp = state.registers[RSP].wrapping_sub(8);
        self.registers[RSP] = Some(sp);
        self.written.push((sp, 8, value));
    }
}

fn size_of(width: &Width) -> u64 {
    if *width == Width::Four { 4 } else { 8 }
}

fn computed(computation: &Computation, left: u64, right: u64) -> u64 {
    match computation {
        Computation::Add => left.wrapping_add(right),
        Computation::Subtract => left.wrapping_sub(right),
        Computation::And => left & right,
        Computation::Or => left | right,
        Computation::ExclusiveOr => left ^ right,
    }
}

/// Returns what one action tells.
pub fn told(action: &Action, state: &State) -> Told {
    let mut told = Told { registers: state.registers.map(Some), written: Vec::new(), elsewhere: false, leads: vec![state.next] };
    let sp = state.registers[RSP];
    let word = |at| load(at, 8, &BTreeMap::new());
    match action {
        Action::Move { to, from, width } => told.set(state, to, state.source(from, size_of(width)), size_of(width)),
        Action::Compute { computation, to, from, width } => {
            let size = size_of(width);
            let value = state.operand(to, size).zip(state.source(from, size)).map(|(left, right)| computed(computation, left, right));
            told.set(state, to, value, size);
        }
        Action::Push(from) => told.push(state, state.source(from, 8)),
        Action::Pop(to) => {
            let mut popped = State { ..*state };
            popped.registers[RSP] = sp.wrapping_add(8);
            told.registers[RSP] = Some(popped.registers[RSP]);
            told.set(&popped, to, Some(word(sp)), 8);
        }
        Action::Leave => {
            told.registers[RSP] = Some(state.registers[RBP].wrapping_add(8));
            told.registers[RBP] = Some(word(state.registers[RBP]));
        }
        Action::Forget { registers, memory } => {
            (0..COUNT).filter(|r| registers.0 >> r & 1 == 1).for_each(|r| told.registers[r] = None);
            // a step of a repeated instruction, or one that a page was mapped for, may lead to the instruction again
            told.leads.push(CODE);
            match memory {
                Some(Stored { at: Place::At(a), bytes }) => told.written.push((state.address(a), *bytes, None)),
                Some(_) => told.elsewhere = true,
                None => (),
            }
        }
        Action::Branch(to) => told.leads.push(state.address(to)),
        Action::Loop(to) => {
            told.leads.push(state.address(to));
            told.registers[RCX] = Some(state.registers[RCX].wrapping_sub(1));
        }
        Action::Jump(to) => told.leads = state.source(to, 8).into_iter().collect(),
        Action::Call(to) => {
            told.leads = state.source(to, 8).into_iter().collect();
            told.push(state, Some(state.next));
        }
        Action::Return(bytes) => {
            told.leads = vec![word(sp)];
            told.registers[RSP] = Some(sp.wrapping_add(8 + bytes));
        }
        Action::BranchWithLink(to) => {
            told.leads = state.source(to, 8).into_iter().collect();
            told.registers[X30] = Some(state.next);
        }
        Action::ReturnTo(register) => told.leads = vec![state.registers[register.0 as usize]],
    }
    told
}

/// Returns what actions tell that come one after another.
pub fn told_of(actions: &[Action], state: &State) -> Told {
    let mut now = state.clone();
    let mut all = Told { registers: state.registers.map(Some), written: Vec::new(), elsewhere: false, leads: vec![state.next] };
    for action in actions {
        let told = told(action, &now);
        for (number, value) in told.registers.iter().enumerate() {
            if *value != Some(now.registers[number]) {
                all.registers[number] = *value;
            }
            now.registers[number] = value.unwrap_or(now.registers[number]);
        }
        all.written.extend(told.written);
        all.elsewhere |= told.elsewhere;
        all.leads = told.leads;
    }
    all
}

/// Returns what a step did that is not told.
pub fn difference(told: &Told, step: &Step) -> Option<String> {
    if !told.leads.contains(&step.next) {
        return Some(format!("leads to {:x}, not {:x?}", step.next, told.leads));
    }
    for (number, value) in told.registers.iter().enumerate() {
        if value.is_some_and(|value| value != step.after[number]) {
            return Some(format!("register {number} is {:x}, not {value:x?}", step.after[number]));
        }
    }
    let is_told = |at: u64| told.elsewhere || told.written.iter().any(|(from, size, _)| at.wrapping_sub(*from) < *size);
    if let Some(at) = step.changed.keys().find(|at| !is_told(**at)) {
        return Some(format!("writes {at:x}, not {:x?}", told.written));
    }
    let is_other = |(at, size, value): &&Written| value.is_some_and(|value| value != load(*at, *size, &step.changed));
    told.written.iter().find(is_other).map(|other| format!("does not write {other:x?}"))
}

/// Reads a step of a line: the instruction, the signal, so many registers, how far the step led, the registers, and memory.
pub fn step_of(fields: &[&str], size: u64, count: usize) -> Step {
    let number = |text: &&str| u64::from_str_radix(text, 16).unwrap();
    let registers = |from: usize| -> [u64; COUNT] { std::array::from_fn(|i| if i < count { number(&fields[from + i]) } else { 0 }) };
    let mut changed = BTreeMap::new();
    for (at, bytes) in fields[3 + 2 * count..].iter().filter_map(|field| field[1..].split_once(':')) {
        changed.extend((number(&at)..).zip(bytes_of(bytes)));
    }
    Step {
        signal: fields[1].parse().unwrap(),
        before: State { registers: registers(2), next: CODE + size },
        after: registers(3 + count),
        next: CODE.wrapping_add(number(&fields[2 + count])),
        changed,
    }
}

pub fn bytes_of(text: &str) -> Vec<u8> {
    (0..text.len() / 2).map(|i| u8::from_str_radix(&text[2 * i..2 * i + 2], 16).unwrap()).collect()
}

pub fn kind_of(action: &Action) -> String {
    format!("{action:?}").split([' ', '(']).next().unwrap_or_default().to_string()
}
