//! beside SEED COUNT COMMAND..: asks the Rust and the proved side the same, and tells where they differ.
//! beside SEED COUNT --store CASES LINES: asks the Rust alone, and stores some of the cases and what crates/replay tells of them.
mod cases;
mod named;
mod rust;
mod second;
mod session;
mod store;
mod talk;
mod wire;

use named::{Named, Tally};
use rust::Answer;
use std::collections::BTreeMap;
use store::Store;
use wire::{NAMES, Ours};

/// A call, what it was handed, the Rust's answer and ours.
type Difference = (u8, Vec<u8>, Vec<u8>, Vec<u8>);

/// Sends requests in batches and compares what comes back.
pub struct Compare {
    ours: Option<Ours>,
    store: Option<Store>,
    batch: Vec<u8>,
    asked: Vec<(u8, Vec<u8>, Option<Answer>)>,
    /// How many comparisons each call had, and how often each intended difference was seen.
    calls: [u64; NAMES.len()],
    intended: BTreeMap<&'static str, u64>,
    refused: BTreeMap<(u8, u8), u64>,
    wrong: u64,
    smallest: Option<Difference>,
    paper: Tally,
}

const BATCH: usize = 1 << 20;

impl Compare {
    fn new(ours: Option<Ours>, store: Option<Store>) -> Self {
        let (calls, intended, refused) = ([0; NAMES.len()], BTreeMap::new(), BTreeMap::new());
        Self { ours, store, batch: Vec::new(), asked: Vec::new(), calls, intended, refused, wrong: 0, smallest: None, paper: Tally::default() }
    }

    pub fn ask(&mut self, op: u8, input: Vec<u8>) {
        self.push(op, input, None);
    }

    /// Asks, and tells what the oracle answers: the next call may need it.
    pub fn step(&mut self, op: u8, input: Vec<u8>) -> Vec<u8> {
        let answer = rust::call(op, &input);
        let told = answer.0.0.clone();
        self.push(op, input, Some(answer));
        told
    }

    /// One of the paper's cases. The two sides are held against each other, as in any case, and each against the paper.
    pub fn named(&mut self, case: Named) {
        let (want, difference) = rust::call(case.op, &case.input);
        if let Some(store) = &mut self.store {
            self.paper.judge(&case, &[("the Rust", &want.0)]);
            return store.keep(case, want.0);
        }
        let ours = self.ours.as_mut().unwrap();
        ours.send(&wire::request(case.op, &case.input));
        let got = ours.receive().split_off(4);
        self.paper.judge(&case, &[("the Rust", &want.0), ("ours", &got)]);
        self.compare(case.op, case.input, &want.0, &got, difference);
    }

    fn push(&mut self, op: u8, input: Vec<u8>, answer: Option<Answer>) {
        if let Some(store) = &mut self.store {
            let answer = answer.unwrap_or_else(|| rust::call(op, &input));
            return store.see(op, input, answer.0.0);
        }
        self.batch.extend_from_slice(&wire::request(op, &input));
        self.asked.push((op, input, answer));
        if self.batch.len() >= BATCH {
            self.flush();
        }
    }

    /// A batch is with the proved side while the oracle answers it.
    pub fn flush(&mut self) {
        if self.asked.is_empty() {
            return;
        }
        let ours = self.ours.as_mut().unwrap();
        ours.send(&self.batch);
        let asked = std::mem::take(&mut self.asked);
        let asked: Vec<_> = asked.into_iter().map(|(op, input, answer)| (op, answer.unwrap_or_else(|| rust::call(op, &input)), input)).collect();
        let got = ours.receive();
        let mut at = 0;
        for (op, (want, name), input) in asked {
            let n = wire::u32_at(&got, at);
            self.compare(op, input, &want.0, &got[at + 4..at + 4 + n], name);
            at += 4 + n;
        }
        assert_eq!(at, got.len(), "answers that nobody asked for");
        self.batch.clear();
    }

    fn compare(&mut self, op: u8, input: Vec<u8>, want: &[u8], got: &[u8], name: Option<&'static str>) {
        self.calls[op as usize] += 1;
        if let Some(name) = name {
            *self.intended.entry(name).or_default() += 1;
        }
        if wire::refuses(op) {
            *self.refused.entry((op, got.first().copied().unwrap_or(255))).or_default() += 1;
        }
        if want != got {
            self.wrong += 1;
            if self.smallest.as_ref().is_none_or(|s| input.len() < s.1.len()) {
                self.smallest = Some((op, input, want.to_vec(), got.to_vec()));
            }
        }
    }

    fn report(self) -> bool {
        let named = self.paper.report();
        println!("call: comparisons; answers by refusal number (0: given)");
        for (op, n) in self.calls.iter().enumerate().filter(|c| *c.1 > 0) {
            let kinds: Vec<_> = self.refused.iter().filter(|r| r.0.0 as usize == op).map(|r| format!("{}: {}", r.0.1, r.1)).collect();
            println!("  {}: {n}{}{}", NAMES[op], if kinds.is_empty() { "" } else { "; " }, kinds.join(", "));
        }
        println!("intended differences seen (docs/DIFFERENCES.md):");
        for (name, n) in &self.intended {
            println!("  {name}: {n}");
        }
        let total: u64 = self.calls.iter().sum();
        if let Some((op, input, want, got)) = self.smallest {
            println!("smallest difference, of {} bytes, in {}:", input.len(), NAMES[op as usize]);
            for (what, bytes) in [("input", &input), ("Rust", &want), ("ours", &got)] {
                println!("  {what}: {}", wire::shown(bytes));
            }
        }
        self.ours.unwrap().end();
        println!("{total} comparisons, {} differences that are on no list", self.wrong);
        named && self.wrong == 0
    }
}

fn main() {
    let args: Vec<String> = std::env::args().collect();
    let seed: u64 = args[1].parse().expect("SEED is a number");
    let count: u64 = args[2].parse().expect("COUNT is a number");
    println!("seed {seed}, count {count}");
    if args[3] == "--store" {
        let mut compare = Compare::new(None, Some(Store::new(seed)));
        cases::all(&mut compare, seed, count);
        if !compare.paper.report() {
            std::process::exit(1);
        }
        let (cases, lines) = compare.store.unwrap().written();
        std::fs::write(&args[4], cases).expect("the cases cannot be written");
        std::fs::write(&args[5], lines).expect("the lines cannot be written");
        return;
    }
    let mut compare = Compare::new(Some(Ours::start(&args[3..])), None);
    cases::all(&mut compare, seed, count);
    compare.flush();
    if !compare.report() {
        std::process::exit(1);
    }
}
