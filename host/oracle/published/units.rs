// The Rust's units from a table's rows and a request's lists, and back. A row's name is its rank in five digits.
use compact_str::CompactString;

use crate::arithmetic::Rational;
use crate::number::Number;
use crate::prefix::Prefix;
use crate::prefix_parser::AcceptsPrefix;
use crate::quantity::Quantity;
use crate::unit::{CanonicalName, Unit, UnitFactor};
use wire::records::{self, Factor, List, Row};

/// The table's rows with the units built so far. Only rows in use are built: a row's tree holds all it is defined by.
pub struct Units {
    pub rows: Vec<Row>,
    built: Vec<Option<UnitFactor>>,
}

/// An answer whose exponent does not fit the byte form.
pub struct Unfit;

pub fn name(rank: u16) -> CompactString {
    CompactString::from(format!("{rank:05}").as_str())
}

fn prefix(p: records::Prefix) -> Prefix {
    if p.kind == 0 { Prefix::Metric(p.n) } else { Prefix::Binary(p.n) }
}

pub fn exponent(e: records::Exponent) -> Rational {
    Rational::new_raw(e.num as i128, e.den as i128)
}

impl Units {
    pub fn new(rows: Vec<Row>) -> Units {
        let built = vec![None; rows.len()];
        Units { rows, built }
    }

    /// The row as a factor without prefix, to the first power.
    fn row(&mut self, at: usize) -> UnitFactor {
        if let Some(known) = &self.built[at] {
            return known.clone();
        }
        let row = self.rows[at].clone();
        let canonical_name = CanonicalName::new(&name(row.rank), AcceptsPrefix);
        let unit = match row.kind {
            0 => Unit::new_base(name(row.rank), canonical_name),
            _ => {
                let factor = Number::from_f64(f64::from_bits(row.bits));
                let definition = self.unit_of(&row.def);
                Unit::new_derived(name(row.rank), canonical_name, factor, definition)
            }
        };
        let factor = unit.into_iter().next().expect("a new unit has one factor");
        self.built[at] = Some(factor.clone());
        factor
    }

    fn unit_of(&mut self, factors: &[Factor]) -> Unit {
        let built: Vec<_> = factors
            .iter()
            .map(|f| UnitFactor {
                prefix: prefix(f.prefix),
                exponent: exponent(f.exponent),
                ..self.row(f.row as usize)
            })
            .collect();
        Unit::from_factors(built)
    }

    pub fn unit(&mut self, list: &List) -> Unit {
        self.unit_of(&list.factors)
    }

    pub fn quantity(&mut self, q: &records::Quantity) -> Quantity {
        let made = Quantity::new_f64(q.value(), self.unit(&q.unit));
        if q.mark == 0 { made.no_simplify() } else { made }
    }

    fn factor_back(&self, f: &UnitFactor) -> Result<Factor, Unfit> {
        let row = self.rows.iter().position(|row| name(row.rank) == f.unit_id.name).expect("a row's name");
        let (kind, n) = match f.prefix {
            Prefix::Metric(n) => (0, n),
            Prefix::Binary(n) => (1, n),
        };
        Ok(Factor { row: row as u32, prefix: records::Prefix { kind, n }, exponent: exponent_back(&f.exponent)? })
    }

    pub fn unit_back(&self, unit: &Unit) -> Result<List, Unfit> {
        Ok(List::of(unit.iter().map(|f| self.factor_back(f)).collect::<Result<_, _>>()?))
    }

    pub fn quantity_back(&self, q: &Quantity) -> Result<records::Quantity, Unfit> {
        let made = records::Quantity::of(q.unsafe_value().to_f64(), self.unit_back(q.unit())?);
        Ok(records::Quantity { mark: q.can_simplify() as u32, ..made })
    }
}

pub fn exponent_back(e: &Rational) -> Result<records::Exponent, Unfit> {
    let num = i32::try_from(*e.numer()).ok().filter(|n| *n != i32::MIN).ok_or(Unfit)?;
    let den = i32::try_from(*e.denom()).ok().filter(|d| *d > 0).ok_or(Unfit)?;
    Ok(records::Exponent { num, den: den as u32 })
}
