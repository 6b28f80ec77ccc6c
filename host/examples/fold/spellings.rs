// How many lengths that are sent in inches and in millimetres come out as one value, and how large a tolerance makes
// one value of each.
use demsharin::{Quantity, Refusal};

use super::lengths::{Lengths, Unit, by_hand, last_place};

/// Every length up to 24 inches in steps of 1/parts, in inches and in millimetres, each the float nearest to it.
fn both_spellings(parts: u32) -> impl Iterator<Item = (f64, f64)> {
    let parts = f64::from(parts);
    (1..=24 * parts as u32).map(f64::from).map(move |n| (n / parts, n * 254.0 / (parts * 10.0)))
}

/// One length in both spellings over a table, the lower value first.
struct Pair {
    knots: [Quantity; 2],
    values: [f64; 2],
    /// Whether 01's conversion has one value for both.
    one_by_old: bool,
}

impl Pair {
    fn new(lengths: &Lengths, (inch, millimetres): (f64, f64)) -> Result<Pair, Refusal> {
        let (inch, mm) = (lengths.quantity(Unit::Inch, inch), lengths.quantity(Unit::Millimetre, millimetres));
        let old = |knot: &Quantity| lengths.table.convert_to(knot, &lengths.metre());
        let one_by_old = lengths.table.equal(&old(&inch)?, &old(&mm)?)?;
        let values = [lengths.in_metres(&inch)?, lengths.in_metres(&mm)?];
        Ok(if values[1] < values[0] {
            Pair { knots: [mm, inch], values: [values[1], values[0]], one_by_old }
        } else {
            Pair { knots: [inch, mm], values, one_by_old }
        })
    }
}

/// How many pairs the library's knot vector makes one.
fn merged(lengths: &Lengths, pairs: &[Pair], tolerance: f64) -> Result<usize, Refusal> {
    let rule = lengths.rule(tolerance);
    let one = |pair: &Pair| Ok(usize::from(lengths.table.knot_vector(&pair.knots, &rule)?.distinct.len() == 1));
    pairs.iter().map(one).sum()
}

/// Prints what one table does, and answers how many pairs are one value at tolerance 0.
fn over(name: &str, lengths: &Lengths, parts: u32) -> Result<usize, Refusal> {
    let pairs: Vec<Pair> = both_spellings(parts).map(|both| Pair::new(lengths, both)).collect::<Result<_, _>>()?;
    let old = pairs.iter().filter(|pair| pair.one_by_old).count();
    let new = pairs.iter().filter(|pair| pair.values[0] == pair.values[1]).count();
    let within_zero = merged(lengths, &pairs, 0.0)?;
    assert_eq!(new, within_zero);
    // In last places of the largest knot: so many merge all, and one less doesn't.
    let most = pairs.iter().map(|pair| pair.values[1] - pair.values[0]).fold(0.0, f64::max);
    let place = last_place(pairs.iter().map(|pair| pair.values[1]).fold(0.0, f64::max));
    let places = (most / place).ceil();
    assert_eq!(merged(lengths, &pairs, places * place)?, pairs.len());
    assert!(places == 0.0 || merged(lengths, &pairs, (places - 1.0) * place)? < pairs.len());
    println!(
        "  over {name}: {old} by convert_to, {new} by convert_merged and merged within 0; all merged from {places} \
         last places of the largest on, {:e} metre",
        places * place
    );
    Ok(within_zero)
}

/// All lengths of one step by hand, over metres and over tenths. Answers whether those over tenths are all one value.
pub fn counted(parts: u32) -> Result<bool, Refusal> {
    let hand = |(inch, mm): &(f64, f64)| by_hand(Unit::Inch, *inch) == by_hand(Unit::Millimetre, *mm);
    let (all, by_hand) = (both_spellings(parts).count(), both_spellings(parts).filter(hand).count());
    println!("one value of {all} lengths in steps of 1/{parts} inch: {by_hand} by hand");
    over("metres", &Lengths::over_metres(), parts)?;
    Ok(over("tenths", &Lengths::over_tenths(), parts)? == all)
}
