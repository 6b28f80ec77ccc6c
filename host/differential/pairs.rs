// Conversions by both rules, 01's and that of 02's order 3: how often each pair of outcomes was met, kept in a file for
// each process and printed as one table; and what 02 says of every pair.
use std::collections::BTreeMap;
use std::fs;
use std::io;

use wire::refusals::{self, DENOMINATOR, FRACTION, RANGE, SHAPE, TABLE, UNITS, UNKNOWN};
use wire::stream::Answer;

/// By the numbers of 01's rule and of order 3's, and whether the answers are the same.
#[derive(Default)]
pub struct Pairs {
    met: BTreeMap<(u32, u32, bool), u64>,
    pub broken: u64,
}

pub fn is_a_half(number: u32) -> bool {
    [RANGE, DENOMINATOR].contains(&number)
}

/// Whether two answers to one conversion are as 02 says. Order 3 has no refusals of its own, and those of the table and
/// of the arguments are the same; what 01's rule answers is answered in the same list and with the same mark, or is
/// refused by a half; and without a half UNITS is the same.
fn as_02_says(old: &Answer, new: &Answer) -> bool {
    let known = [0, TABLE, SHAPE, UNKNOWN, RANGE, UNITS, FRACTION, DENOMINATOR].contains(&new.number);
    known
        && match (old.number, new.number) {
            (0, 0) => old.bytes[8..] == new.bytes[8..],
            (TABLE..=UNKNOWN, _) | (_, TABLE..=UNKNOWN) => old.number == new.number,
            (0, new) => is_a_half(new),
            (old, new) => is_a_half(old) || is_a_half(new) || (old == UNITS) == (new == UNITS),
        }
}

impl Pairs {
    /// False if the pair is not as 02 says.
    pub fn add(&mut self, old: &Answer, new: &Answer) -> bool {
        *self.met.entry((old.number, new.number, old == new)).or_default() += 1;
        let right = as_02_says(old, new);
        self.broken += u64::from(!right);
        right
    }

    /// A line for each pair of outcomes: two numbers, 1 for the same answers, how often; then how many were broken.
    pub fn write(&self, file: &str) -> io::Result<()> {
        let line = |((old, new, same), n): (&(u32, u32, bool), &u64)| format!("{old}\t{new}\t{}\t{n}\n", *same as u32);
        fs::write(file, self.met.iter().map(line).collect::<String>() + &format!("{}\n", self.broken))
    }

    pub fn read_more(&mut self, file: &str) -> io::Result<()> {
        for line in fs::read_to_string(file)?.lines() {
            let numbers: Vec<u64> =
                line.split('\t').map(|n| n.parse().map_err(io::Error::other)).collect::<io::Result<_>>()?;
            match numbers[..] {
                [old, new, same, n] => *self.met.entry((old as u32, new as u32, same == 1)).or_default() += n,
                [broken] => self.broken += broken,
                _ => return Err(io::Error::other(format!("no pair: {line}"))),
            }
        }
        Ok(())
    }

    /// How many pairs are of a sort.
    fn of(&self, sort: impl Fn(u32, u32, bool) -> bool) -> u64 {
        self.met.iter().filter(|((old, new, same), _)| sort(*old, *new, *same)).map(|(_, n)| n).sum()
    }

    pub fn print(&self) {
        println!("| a conversion by 01's rule | by order 3's | pairs |");
        println!("|---|---|---|");
        for ((old, new, same), n) in &self.met {
            let bits = match (*old, *new) {
                (0, 0) => [", other bits", ", the same bits"][*same as usize],
                _ => "",
            };
            println!("| {} | {}{bits} | {n} |", refusals::name(*old), refusals::name(*new));
        }
        println!(
            "of {} conversions by both rules: answered by both {}, {} of them with other bits; by order 3's alone {}, \
             by 01's alone {}; refused by both {}, {} of them otherwise; {} not as 02 says",
            self.of(|_, _, _| true),
            self.of(|old, new, _| old == 0 && new == 0),
            self.of(|old, new, same| old == 0 && new == 0 && !same),
            self.of(|old, new, _| old != 0 && new == 0),
            self.of(|old, new, _| old == 0 && new != 0),
            self.of(|old, new, _| old != 0 && new != 0),
            self.of(|old, new, _| old != 0 && new != 0 && old != new),
            self.broken
        );
    }
}
