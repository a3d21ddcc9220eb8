//! How many lines there are of each kind, so that a reader sees that the days do real work.
use std::collections::BTreeMap;
use std::fmt;

#[derive(Default)]
pub struct Kinds {
    letters: BTreeMap<char, u64>,
    refusals: BTreeMap<u8, u64>,
    faults: BTreeMap<u8, u64>,
}

impl Kinds {
    pub fn count(&mut self, lines: &[u8]) {
        for line in std::str::from_utf8(lines).expect("a text").lines() {
            let letter = line.chars().next().expect("a letter");
            let first = || line.split(' ').nth(1).and_then(|word| word.parse().ok()).expect("a number");
            *self.letters.entry(letter).or_default() += 1;
            match letter {
                'R' => *self.refusals.entry(first()).or_default() += 1,
                'F' => *self.faults.entry(first()).or_default() += 1,
                _ => {}
            }
        }
    }
}

impl fmt::Display for Kinds {
    fn fmt(&self, f: &mut fmt::Formatter) -> fmt::Result {
        write!(f, "{} lines:", self.letters.values().sum::<u64>())?;
        for letter in "GWRSF".chars() {
            write!(f, " {letter} {}", self.letters.get(&letter).unwrap_or(&0))?;
        }
        for (name, numbers) in [("refusals", &self.refusals), ("faults", &self.faults)] {
            let words: Vec<String> = numbers.iter().map(|(number, count)| format!("{count} with {number}")).collect();
            if !words.is_empty() {
                write!(f, "; {name}: {}", words.join(", "))?;
            }
        }
        Ok(())
    }
}
