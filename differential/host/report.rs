//! Counts comparisons by name, and the numbers that functions answered, and keeps the mismatches with the smallest inputs.

use std::collections::BTreeMap;
use std::fmt::Debug;

/// How many mismatches of a name are printed.
const SHOWN: usize = 3;
/// Where a printed value is cut, in characters.
const TEXT: usize = 400;

struct Mismatch {
    size: usize,
    lines: [String; 3],
}

struct Entry {
    name: &'static str,
    passed: usize,
    failed: usize,
    smallest: Vec<Mismatch>,
    /// How often each number was answered.
    answers: BTreeMap<u32, usize>,
}

#[derive(Default)]
pub struct Report {
    entries: Vec<Entry>,
    /// How often each kind of input was met, by name.
    met: BTreeMap<&'static str, usize>,
}

impl Report {
    pub fn new() -> Self {
        Report::default()
    }

    /// Compares a result with the expected one. `size` orders the inputs; `input` describes this one.
    pub fn compare<T: Debug + PartialEq>(
        &mut self,
        name: &'static str,
        size: usize,
        input: impl FnOnce() -> String,
        result: &T,
        expected: &T,
    ) {
        let entry = self.entry(name);
        if result == expected {
            entry.passed += 1;
            return;
        }
        entry.failed += 1;
        let lines = [
            format!("input {}", input()),
            format!("result {result:?}"),
            format!("expected {expected:?}"),
        ];
        entry.smallest.push(Mismatch { size, lines });
        entry.smallest.sort_by_key(|mismatch| mismatch.size);
        entry.smallest.truncate(SHOWN);
    }

    fn entry(&mut self, name: &'static str) -> &mut Entry {
        let place = self.entries.iter().position(|entry| entry.name == name);
        let place = place.unwrap_or_else(|| {
            self.entries.push(Entry {
                name,
                passed: 0,
                failed: 0,
                smallest: Vec::new(),
                answers: BTreeMap::new(),
            });
            self.entries.len() - 1
        });
        &mut self.entries[place]
    }

    /// Counts an answer of the port.
    pub fn answered(&mut self, name: &'static str, number: u32) {
        *self.entry(name).answers.entry(number).or_default() += 1;
    }

    /// Expects that exactly these numbers, in rising order, were answered.
    pub fn expect_answers(&mut self, name: &'static str, expected: &[u32]) {
        let answers: Vec<u32> = self.entry(name).answers.keys().copied().collect();
        let input = || format!("numbers that {name} answered");
        self.compare("answers", 0, input, &answers, &expected.to_vec());
    }

    /// Expects that exactly these numbers, in rising order, were answered, each so often at least.
    #[cfg(originals)]
    pub fn expect_each(&mut self, name: &'static str, expected: &[u32], least: usize) {
        self.expect_answers(name, expected);
        let answers = self.entry(name).answers.clone();
        let seldom: Vec<u32> = answers
            .into_iter()
            .filter_map(|(number, count)| (count < least).then_some(number))
            .collect();
        let input = || format!("numbers that {name} answered less than {least} times");
        self.compare("answers", 0, input, &seldom, &vec![]);
    }

    /// Counts an input of this kind.
    #[cfg(originals)]
    pub fn meet(&mut self, kind: &'static str) {
        *self.met.entry(kind).or_default() += 1;
    }

    /// Expects that inputs of each of these kinds were met so often at least.
    #[cfg(originals)]
    pub fn expect_met(&mut self, kinds: &[&'static str], least: usize) {
        let count = |kind| self.met.get(kind).copied().unwrap_or_default();
        let seldom = kinds.iter().filter(|kind| count(**kind) < least);
        let seldom: Vec<&str> = seldom.copied().collect();
        let input = || format!("kinds of input met less than {least} times");
        self.compare("inputs", 0, input, &seldom, &vec![]);
    }

    /// Prints a line for each name, mismatches below it, and the sum last. Returns whether all passed.
    pub fn print(&self) -> bool {
        for entry in &self.entries {
            println!(
                "{}: {} passed, {} failed{}",
                entry.name,
                entry.passed,
                entry.failed,
                histogram(&entry.answers)
            );
            for mismatch in &entry.smallest {
                println!("  mismatch, size {}", mismatch.size);
                for line in &mismatch.lines {
                    println!("    {}", line.chars().take(TEXT).collect::<String>());
                }
            }
        }
        for (kind, count) in &self.met {
            println!("{kind}: met {count} times");
        }
        let passed: usize = self.entries.iter().map(|entry| entry.passed).sum();
        let failed: usize = self.entries.iter().map(|entry| entry.failed).sum();
        println!("differential: {passed} passed, {failed} failed");
        failed == 0
    }
}

/// How often each number was answered, or nothing where none is counted.
fn histogram(answers: &BTreeMap<u32, usize>) -> String {
    let counts: Vec<String> = answers
        .iter()
        .map(|(number, count)| format!("{number}: {count}"))
        .collect();
    match counts.is_empty() {
        true => String::new(),
        false => format!(" ({})", counts.join(", ")),
    }
}
