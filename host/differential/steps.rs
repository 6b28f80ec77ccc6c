// How often each operation and each step was refused by the numerator, by the denominator and by both: kept in a file
// for each process, printed as one table.
use std::collections::BTreeMap;
use std::fs;
use std::io;

use scope::places::{Halves, Place};

/// By the numerator, by the denominator, by both.
#[derive(Default)]
pub struct Steps(BTreeMap<String, [u64; 3]>);

impl Steps {
    pub fn add(&mut self, place: &Place) {
        let at = match place.halves {
            Halves::Numerator => 0,
            Halves::Denominator => 1,
            Halves::Both => 2,
        };
        let operation = format!("any {}", place.operation);
        for name in [Some(operation), place.step.map(str::to_string)].into_iter().flatten() {
            self.0.entry(name).or_default()[at] += 1;
        }
    }

    /// A line for each: its name and the three numbers, with tabs between.
    pub fn write(&self, file: &str) -> io::Result<()> {
        fs::write(file, self.0.iter().map(|(step, [n, d, b])| format!("{step}\t{n}\t{d}\t{b}\n")).collect::<String>())
    }

    pub fn read_more(&mut self, file: &str) -> io::Result<()> {
        for line in fs::read_to_string(file)?.lines() {
            let parts: Vec<&str> = line.split('\t').collect();
            let [step, numbers @ ..] = &parts[..] else {
                return Err(io::Error::other(format!("no step: {line}")));
            };
            let met = self.0.entry(step.to_string()).or_default();
            for (met, number) in met.iter_mut().zip(numbers) {
                *met += number.parse::<u64>().map_err(io::Error::other)?;
            }
        }
        Ok(())
    }

    pub fn print(&self) {
        println!("| refused here | by the numerator | by the denominator | by both |");
        println!("|---|---|---|---|");
        self.0.iter().for_each(|(step, [n, d, b])| println!("| {step} | {n} | {d} | {b} |"));
    }
}
