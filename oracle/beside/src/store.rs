//! Keeps some cases of every call, with the oracle's answers, for the program of crates/replay to run.
use crate::cases::Random;
use crate::named::Named;
use crate::wire::{NAMES, lends, refuses};
use std::collections::BTreeMap;

/// The most that the program takes of a case, each way.
const MOST: usize = 1024;
/// From here on a case is long.
const LONG: usize = 320;

type Case = (Vec<u8>, Vec<u8>);

/// The kinds of case are told apart by call, refusal and whether they are long. Of each kind a few are kept, any with the same chance.
pub struct Store {
    kinds: BTreeMap<(u8, u8, bool), (usize, Vec<Case>)>,
    random: Random,
    /// The paper's cases, all that are short enough.
    named: Vec<(String, u8, Case)>,
}

impl Store {
    pub fn new(seed: u64) -> Self {
        Self { kinds: BTreeMap::new(), random: Random::new(seed), named: Vec::new() }
    }

    /// Keeps a case of the paper, which becomes a part of its own.
    pub fn keep(&mut self, case: Named, answer: Vec<u8>) {
        if case.input.len().max(answer.len()) <= MOST {
            self.named.push((case.name, case.op, (case.input, answer)));
        }
    }

    pub fn see(&mut self, op: u8, input: Vec<u8>, answer: Vec<u8>) {
        let longer = input.len().max(answer.len());
        if longer > MOST {
            return;
        }
        let refusal = if refuses(op) { answer[0] } else { 0 };
        let most = match (longer > LONG, refusal, op) {
            (true, ..) => 2,
            (_, 0, _) => 40,
            (_, _, op) if op < 28 => 32,
            _ => 16,
        };
        let (seen, kept) = self.kinds.entry((op, refusal, longer > LONG)).or_default();
        *seen += 1;
        if kept.len() < most {
            kept.push((input, answer));
        } else {
            let i = self.random.below(*seen);
            if i < most {
                kept[i] = (input, answer);
            }
        }
    }

    /// How many parts there are; a part for each call and one for each of the paper's cases; and what the program tells if all agree.
    pub fn written(self) -> (Vec<u8>, String) {
        let parts = (NAMES.len() + self.named.len()) as u16;
        let (mut all, mut lines) = (parts.to_le_bytes().to_vec(), String::new());
        for (op, name) in NAMES.iter().enumerate() {
            let kept: Vec<&Case> = self.kinds.iter().filter(|k| k.0.0 as usize == op).flat_map(|k| &k.1.1).collect();
            part(&mut all, &mut lines, name, op as u8, &kept);
        }
        for (name, op, case) in &self.named {
            part(&mut all, &mut lines, name, *op, &[case]);
        }
        (all, lines)
    }
}

/// The call's number and its cases' count, their name, the cases; and the line that is told of them.
fn part(all: &mut Vec<u8>, lines: &mut String, name: &str, op: u8, cases: &[&Case]) {
    all.push(op | if lends(op) { 128 } else { 0 });
    all.extend_from_slice(&(cases.len() as u16).to_le_bytes());
    all.push(name.len() as u8);
    all.extend_from_slice(name.as_bytes());
    for (input, answer) in cases {
        all.extend_from_slice(&(input.len() as u16).to_le_bytes());
        all.extend_from_slice(&(answer.len() as u16).to_le_bytes());
        all.extend_from_slice(input);
        all.extend_from_slice(answer);
    }
    *lines += &format!("{name}: {n} of {n}\n", n = cases.len());
}
