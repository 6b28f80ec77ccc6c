// Every call on Rust records: arguments to bytes, the archive's function, the answer's bytes to a record.
use std::cmp::Ordering;

use crate::bytes::{
    self, COUNTED_BYTES, LIST_BYTES, MULTIPLE_BYTES, NUMBER_BYTES, QUANTITY_BYTES, REDUCED_BYTES, VALUE_BYTES,
};
use crate::exports;
use crate::records::{Candidate, Counted, Exponent, List, Multiple, Prefix, Quantity, Reduced, Row};
use crate::refusal::Refusal;

/// The rows of a table as the library reads them: made once, lent to every call, checked afresh by each.
///
/// Rows that break a rule are no fault yet: every call over them answers the refusal. That comes first, then the
/// refusals of the arguments from left to right (SHAPE, UNKNOWN), then those named with the call. A row itself may give
/// TABLE, SHAPE, RANGE, DENOMINATOR and FRACTION. Only ARGUMENT about the number of knots, the degree or the tolerance
/// comes before it.
///
/// RANGE is said of an exponent's numerator, DENOMINATOR of its denominator: whichever leaves its range first, the
/// numerator if both do in one step.
#[derive(Debug, Clone, PartialEq, Eq)]
pub struct Table {
    bytes: Vec<u8>,
}

/// The answer's bytes, or the refusal. The room is always enough, so the byte form adds no refusal here.
pub(crate) fn answered<const N: usize>(call: impl FnOnce(&mut [u8]) -> u32) -> Result<[u8; N], Refusal> {
    let mut out = [0; N];
    match call(&mut out) {
        0 => Ok(out),
        number => Err(Refusal::of(number).expect("the library has sixteen refusals")),
    }
}

fn list(call: impl FnOnce(&mut [u8]) -> u32) -> Result<List, Refusal> {
    answered::<LIST_BYTES>(call).map(|out| bytes::read_list(&out))
}

fn quantity(call: impl FnOnce(&mut [u8]) -> u32) -> Result<Quantity, Refusal> {
    answered::<QUANTITY_BYTES>(call).map(|out| bytes::read_quantity(&out))
}

fn counted(call: impl FnOnce(&mut [u8]) -> u32) -> Result<Counted, Refusal> {
    answered::<COUNTED_BYTES>(call).map(|out| bytes::read_counted(&out))
}

fn number(call: impl FnOnce(&mut [u8]) -> u32) -> Result<u32, Refusal> {
    answered::<NUMBER_BYTES>(call).map(|out| bytes::read_number(&out))
}

/// Ten or two to the prefix's power, by the power rule; SHAPE beyond ±1100. The one call without a table.
pub fn prefix_factor(prefix: Prefix) -> Result<f64, Refusal> {
    answered::<VALUE_BYTES>(|out| exports::prefix_factor(&bytes::prefix(prefix), out))
        .map(|out| bytes::read_value(&out))
}

impl Table {
    /// The table of these rows; any number of them, though over 128 every call answers TABLE.
    pub fn new(rows: &[Row]) -> Table {
        Table { bytes: bytes::rows(rows) }
    }

    /// The table whose rows have these bytes.
    pub(crate) fn of_bytes(bytes: &[u8]) -> Table {
        Table { bytes: bytes.to_vec() }
    }

    /// The rows as records.
    pub fn rows(&self) -> Vec<Row> {
        bytes::read_rows(&self.bytes)
    }

    /// The rows in bytes, for [`exports`].
    pub fn bytes(&self) -> &[u8] {
        &self.bytes
    }
}

/// The calls on lists.
impl Table {
    /// The two lists joined, unmerged. ROOM over 16 factors.
    pub fn product(&self, a: &List, b: &List) -> Result<List, Refusal> {
        list(|out| exports::product(&self.bytes, &bytes::list(a), &bytes::list(b), out))
    }

    /// The first list joined with the second, whose exponents are negated. ROOM over 16 factors.
    pub fn quotient(&self, a: &List, b: &List) -> Result<List, Refusal> {
        list(|out| exports::quotient(&self.bytes, &bytes::list(a), &bytes::list(b), out))
    }

    /// Each exponent multiplied; zeros stay. SHAPE if the exponent breaks its rule, RANGE or DENOMINATOR.
    pub fn list_power(&self, a: &List, exponent: Exponent) -> Result<List, Refusal> {
        list(|out| exports::list_power(&self.bytes, &bytes::list(a), &bytes::exponent(exponent), out))
    }

    /// Factors in canonical order, those of one row and prefix merged, zeros gone. RANGE or DENOMINATOR.
    pub fn canonical(&self, a: &List) -> Result<List, Refusal> {
        list(|out| exports::canonical(&self.bytes, &bytes::list(a), out))
    }

    /// Whether two lists have one canonical form. RANGE or DENOMINATOR.
    pub fn same_list(&self, a: &List, b: &List) -> Result<bool, Refusal> {
        number(|out| exports::same_list(&self.bytes, &bytes::list(a), &bytes::list(b), out)).map(|n| n == 1)
    }

    /// The list in base units with its scale. RANGE or DENOMINATOR, FRACTION.
    pub fn reduce_list(&self, a: &List) -> Result<Reduced, Refusal> {
        answered::<REDUCED_BYTES>(|out| exports::reduce_list(&self.bytes, &bytes::list(a), out))
            .map(|out| bytes::read_reduced(&out))
    }

    /// The list of the smaller scale, the first if they are equal, the second if a scale is a NaN. RANGE or
    /// DENOMINATOR, FRACTION.
    pub fn smaller_unit(&self, a: &List, b: &List) -> Result<List, Refusal> {
        list(|out| exports::smaller_unit(&self.bytes, &bytes::list(a), &bytes::list(b), out))
    }

    /// The exponent to which the second list has the first's base exponents, if there is one. RANGE or DENOMINATOR.
    pub fn is_multiple_of(&self, a: &List, b: &List) -> Result<Multiple, Refusal> {
        answered::<MULTIPLE_BYTES>(|out| exports::is_multiple_of(&self.bytes, &bytes::list(a), &bytes::list(b), out))
            .map(|out| bytes::read_multiple(&out))
    }
}

/// The calls on one quantity.
impl Table {
    /// The quantity in base units. RANGE or DENOMINATOR, FRACTION.
    pub fn reduce(&self, q: &Quantity) -> Result<Quantity, Refusal> {
        quantity(|out| exports::reduce(&self.bytes, &bytes::quantity(q), out))
    }

    /// The quantity in another unit; zero converts to any. RANGE or DENOMINATOR, UNITS, FRACTION.
    pub fn convert_to(&self, q: &Quantity, target: &List) -> Result<Quantity, Refusal> {
        quantity(|out| exports::convert_to(&self.bytes, &bytes::quantity(q), &bytes::list(target), out))
    }

    /// The same with factors common to both units cancelled on both sides: a unit that cancels is not read, so it neither
    /// refuses nor rounds. The value may differ in its last places from [`Table::convert_to`]'s. RANGE or DENOMINATOR,
    /// UNITS, FRACTION.
    pub fn convert_merged(&self, q: &Quantity, target: &List) -> Result<Quantity, Refusal> {
        quantity(|out| exports::convert_merged(&self.bytes, &bytes::quantity(q), &bytes::list(target), out))
    }

    /// The value with the other sign.
    pub fn negate(&self, q: &Quantity) -> Result<Quantity, Refusal> {
        quantity(|out| exports::negate(&self.bytes, &bytes::quantity(q), out))
    }

    /// The value without its sign.
    pub fn abs(&self, q: &Quantity) -> Result<Quantity, Refusal> {
        quantity(|out| exports::abs(&self.bytes, &bytes::quantity(q), out))
    }

    /// The quantity with the mark taken away.
    pub fn no_simplify(&self, q: &Quantity) -> Result<Quantity, Refusal> {
        quantity(|out| exports::no_simplify(&self.bytes, &bytes::quantity(q), out))
    }

    /// The quantity in a simpler unit, if it has the mark. RANGE or DENOMINATOR, FRACTION.
    pub fn full_simplify(&self, q: &Quantity) -> Result<Quantity, Refusal> {
        quantity(|out| exports::full_simplify(&self.bytes, &bytes::quantity(q), out))
    }

    /// The same, with up to 32 candidates for the unit, ranks rising; more, or ranks that don't rise, are SHAPE.
    pub fn full_simplify_with(&self, q: &Quantity, candidates: &[Candidate]) -> Result<Quantity, Refusal> {
        let candidates = bytes::candidates(candidates);
        quantity(|out| exports::full_simplify_with(&self.bytes, &bytes::quantity(q), &candidates, out))
    }
}

/// The conversions with their multiplications counted: for each factor of both scales the prefix power and the power to a
/// whole exponent, by set bits plus bit length minus one, none for 0. What [`Table::convert_to`] and
/// [`Table::convert_merged`] refuse is refused here as well; a zero and equal lists count 0. One power takes at most 61, one
/// prefix power at most 19. The checks of the rows aren't counted, nor are divisions and the products between powers.
impl Table {
    /// As [`Table::convert_to`], with its count: at most 3744.
    pub fn convert_to_counted(&self, q: &Quantity, target: &List) -> Result<Counted, Refusal> {
        counted(|out| exports::convert_to_counted(&self.bytes, &bytes::quantity(q), &bytes::list(target), out))
    }

    /// As [`Table::convert_merged`], with its count: at most 2560.
    pub fn convert_merged_counted(&self, q: &Quantity, target: &List) -> Result<Counted, Refusal> {
        counted(|out| exports::convert_merged_counted(&self.bytes, &bytes::quantity(q), &bytes::list(target), out))
    }
}

/// The calls on two quantities.
impl Table {
    /// The sum in the smaller of the two units; a zero gives the other as it is. RANGE or DENOMINATOR, FRACTION, UNITS.
    pub fn add(&self, a: &Quantity, b: &Quantity) -> Result<Quantity, Refusal> {
        quantity(|out| exports::add(&self.bytes, &bytes::quantity(a), &bytes::quantity(b), out))
    }

    /// The difference, by the same rules; zero minus a quantity is its negative. RANGE or DENOMINATOR, FRACTION, UNITS.
    pub fn subtract(&self, a: &Quantity, b: &Quantity) -> Result<Quantity, Refusal> {
        quantity(|out| exports::subtract(&self.bytes, &bytes::quantity(a), &bytes::quantity(b), out))
    }

    /// Values multiplied, lists joined. ROOM over 16 factors.
    pub fn multiply(&self, a: &Quantity, b: &Quantity) -> Result<Quantity, Refusal> {
        quantity(|out| exports::multiply(&self.bytes, &bytes::quantity(a), &bytes::quantity(b), out))
    }

    /// Values divided, the second list's exponents negated. DIVZERO, ROOM.
    pub fn checked_div(&self, a: &Quantity, b: &Quantity) -> Result<Quantity, Refusal> {
        quantity(|out| exports::checked_div(&self.bytes, &bytes::quantity(a), &bytes::quantity(b), out))
    }

    /// The first to a whole power: the second, as a scalar. That conversion's refusals, ZERONEG, NONWHOLE, RANGE.
    pub fn checked_power(&self, a: &Quantity, exponent: &Quantity) -> Result<Quantity, Refusal> {
        quantity(|out| exports::checked_power(&self.bytes, &bytes::quantity(a), &bytes::quantity(exponent), out))
    }

    /// Whether the second, in the first's unit, has the first's value; no if the units don't agree. RANGE or
    /// DENOMINATOR, FRACTION.
    pub fn equal(&self, a: &Quantity, b: &Quantity) -> Result<bool, Refusal> {
        number(|out| exports::equal(&self.bytes, &bytes::quantity(a), &bytes::quantity(b), out)).map(|n| n == 1)
    }

    /// How the first compares with the second in the first's unit. NAN, RANGE or DENOMINATOR, UNITS, FRACTION.
    pub fn compare(&self, a: &Quantity, b: &Quantity) -> Result<Ordering, Refusal> {
        let order = number(|out| exports::compare(&self.bytes, &bytes::quantity(a), &bytes::quantity(b), out))?;
        Ok(order.cmp(&1))
    }
}
