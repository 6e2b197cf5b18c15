//! What a run found: calls by function, named differences, and any other difference.

use std::collections::BTreeMap;
use std::time::{Duration, Instant};

/// The list of differences; each rule's name stands in it word for word.
const LISTED: &str = include_str!("../../../docs/DIFFERENCES.md");

pub struct Report {
    pub calls: BTreeMap<&'static str, u64>,
    pub named: BTreeMap<&'static str, u64>,
    pub histories: u64,
    codes: BTreeMap<&'static str, BTreeMap<u8, u64>>,
    found: BTreeMap<&'static str, (u64, String)>,
    started: Instant,
    shown: Instant,
    phase: &'static str,
}

impl Default for Report {
    fn default() -> Self {
        Self {
            calls: BTreeMap::new(),
            named: BTreeMap::new(),
            histories: 0,
            codes: BTreeMap::new(),
            found: BTreeMap::new(),
            started: Instant::now(),
            shown: Instant::now(),
            phase: "",
        }
    }
}

impl Report {
    pub fn phase(&mut self, name: &'static str) {
        self.phase = name;
        eprintln!("{:6.1} s  {name}", self.started.elapsed().as_secs_f64());
    }

    /// A line of progress, at most every three seconds.
    pub fn progress(&mut self, done: u64, all: u64) {
        if self.shown.elapsed() < Duration::from_secs(3) {
            return;
        }
        self.shown = Instant::now();
        let calls: u64 = self.calls.values().sum();
        eprintln!(
            "{:6.1} s  {}: {done} of {all}; {calls} calls, {} histories, {} differences",
            self.started.elapsed().as_secs_f64(),
            self.phase,
            self.histories,
            self.differences()
        );
    }

    pub fn call(&mut self, function: &'static str) {
        *self.calls.entry(function).or_default() += 1;
    }

    /// The refusal that a call met on both sides.
    pub fn refused(&mut self, function: &'static str, code: u8) {
        *self.codes.entry(function).or_default().entry(code).or_default() += 1;
    }

    /// A difference that docs/DIFFERENCES.md lists under this name.
    pub fn named(&mut self, name: &'static str) {
        if !self.named.contains_key(name) && !LISTED.contains(name) {
            self.difference("docs/DIFFERENCES.md", format!("does not list: {name}"));
        }
        *self.named.entry(name).or_default() += 1;
    }

    /// A difference that is not listed; of each function the shortest text is kept.
    pub fn difference(&mut self, function: &'static str, text: String) {
        let (count, shortest) = self.found.entry(function).or_insert_with(|| (0, text.clone()));
        *count += 1;
        if text.len() < shortest.len() {
            *shortest = text;
        }
    }

    /// Whether a further difference of a function is worth making small: the first twenty are.
    pub fn wants(&mut self, function: &'static str) -> bool {
        match self.found.get_mut(function) {
            Some((count, _)) if *count >= 20 => {
                *count += 1;
                false
            }
            _ => true,
        }
    }

    pub fn differences(&self) -> u64 {
        self.found.values().map(|(count, _)| count).sum()
    }

    /// Prints the whole report; true if nothing unlisted was found.
    pub fn end(&self) -> bool {
        println!("calls compared:");
        for (function, count) in &self.calls {
            println!("  {count:>12}  {function}");
        }
        println!(
            "  {:>12}  in all, and {} histories",
            self.calls.values().sum::<u64>(),
            self.histories
        );
        println!("refusals on which both sides agree, as code x calls:");
        for (function, codes) in &self.codes {
            let list: Vec<String> = codes.iter().map(|(code, count)| format!("{code} x {count}")).collect();
            println!("  {function}: {}", list.join(", "));
        }
        println!("differences that docs/DIFFERENCES.md names:");
        for (name, count) in &self.named {
            println!("  {count:>12}  {name}");
        }
        println!("other differences: {}", self.differences());
        for (function, (count, text)) in &self.found {
            println!("  {count:>12}  {function}: the shortest: {text}");
        }
        println!("time: {:.0} s", self.started.elapsed().as_secs_f64());
        self.found.is_empty()
    }
}

/// Takes parts out of an input as long as it still shows the difference.
pub fn shrink<T: Clone>(input: &[T], differs: impl Fn(&[T]) -> bool) -> Vec<T> {
    let mut kept = input.to_vec();
    let mut size = kept.len().div_ceil(2).max(1);
    loop {
        let mut at = 0;
        while at < kept.len() {
            let mut less = kept.clone();
            less.drain(at..(at + size).min(kept.len()));
            if differs(&less) {
                kept = less;
            } else {
                at += size;
            }
        }
        if size == 1 {
            return kept;
        }
        size = size.div_ceil(2);
    }
}

pub fn hex(bytes: &[u8]) -> String {
    bytes.iter().map(|b| format!("{b:02x}")).collect()
}
