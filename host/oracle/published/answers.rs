// The published Rust's answer to a request whose arguments are in order, in 01's numbers.
use std::cmp::Ordering;

use crate::arithmetic::{Exponent, Power};
use crate::prefix::Prefix;
use crate::quantity::{Quantity, QuantityError, QuantityOrdering};
use crate::unit::{Unit, is_multiple_of};
use crate::unit_registry::{UnitMetadata, UnitRegistry};
use crate::units::{Unfit, Units, exponent, exponent_back, name};
use crate::{prefix_parser::AcceptsPrefix, unit::CanonicalName};
use compact_str::CompactString;
use wire::bytes::{self, put_exponent, put_list, put_quantity, put_u32, put_u64};
use wire::records::{Candidate, Exponent as ExponentRecord, bits_of};
use wire::refusals::*;
use wire::stream::{Answer, Request};

/// An answer's bytes, or the number of its refusal.
type Given = Result<Vec<u8>, u32>;

impl From<Unfit> for u32 {
    fn from(_: Unfit) -> u32 {
        OUTSIDE_RANGE
    }
}

impl From<QuantityError> for u32 {
    fn from(error: QuantityError) -> u32 {
        match error {
            QuantityError::IncompatibleUnits(..) => UNITS,
            QuantityError::NonRationalExponent => NONWHOLE,
        }
    }
}

pub fn answer(request: &Request) -> Answer {
    match given(request) {
        Ok(bytes) => Answer::given(bytes),
        Err(number) => Answer::refused(number),
    }
}

fn given(request: &Request) -> Given {
    if request.code == 1 {
        return Ok(prefix_factor(&request.arguments[0]));
    }
    let rows = bytes::table(&request.arguments[0]).expect("an admitted table");
    let mut units = Units::new(rows);
    match request.code {
        2..=7 | 19 | 20 => on_lists(&mut units, request),
        17 | 18 => comparison(&mut units, request),
        10..=14 => on_two(&mut units, request),
        _ => on_one(&mut units, request),
    }
}

fn prefix_factor(argument: &[u8]) -> Vec<u8> {
    let given = bytes::prefix(argument).expect("a prefix");
    let prefix = if given.kind == 0 { Prefix::Metric(given.n) } else { Prefix::Binary(given.n) };
    made(|out| put_u64(out, bits_of(prefix.factor().to_f64())))
}

fn made(put: impl FnOnce(&mut Vec<u8>)) -> Vec<u8> {
    let mut out = Vec::new();
    put(&mut out);
    out
}

fn list_bytes(units: &Units, unit: &Unit) -> Given {
    let list = units.unit_back(unit)?;
    Ok(made(|out| put_list(out, &list)))
}

fn quantity_bytes(units: &Units, q: &Quantity) -> Given {
    let record = units.quantity_back(q)?;
    Ok(made(|out| put_quantity(out, &record)))
}

fn number_bytes(n: u32) -> Given {
    Ok(made(|out| put_u32(out, n)))
}

fn list_argument(units: &mut Units, request: &Request, at: usize) -> Unit {
    units.unit(&bytes::list(&request.arguments[at]).expect("a list"))
}

fn quantity_argument(units: &mut Units, request: &Request, at: usize) -> Quantity {
    units.quantity(&bytes::quantity(&request.arguments[at]).expect("a quantity"))
}

fn on_lists(units: &mut Units, request: &Request) -> Given {
    let first = list_argument(units, request, 1);
    match request.code {
        4 => {
            let e = bytes::exponent(&request.arguments[2]).expect("an exponent");
            return list_bytes(units, &first.power(exponent(e)));
        }
        5 => return list_bytes(units, &first.canonicalized()),
        7 => return reduced_bytes(units, &first),
        _ => {}
    }
    let second = list_argument(units, request, 2);
    match request.code {
        2 => list_bytes(units, &(first * second)),
        3 => list_bytes(units, &(first / second)),
        6 => number_bytes((first == second) as u32),
        19 => list_bytes(units, first.smaller_unit(&second)),
        _ => multiple_bytes(is_multiple_of(&first, &second)),
    }
}

fn reduced_bytes(units: &Units, unit: &Unit) -> Given {
    let (base, scale) = unit.to_base_unit_representation();
    let mut out = made(|out| put_u64(out, bits_of(scale.to_f64())));
    out.extend(list_bytes(units, &base)?);
    Ok(out)
}

fn multiple_bytes(multiple: Option<Exponent>) -> Given {
    let none = ExponentRecord { num: 0, den: 1 };
    let record = multiple.as_ref().map_or(Ok(none), exponent_back)?;
    Ok(made(|out| {
        put_u32(out, multiple.is_some() as u32);
        put_exponent(out, record);
    }))
}

fn comparison(units: &mut Units, request: &Request) -> Given {
    let (first, second) = (quantity_argument(units, request, 1), quantity_argument(units, request, 2));
    if request.code == 17 {
        return number_bytes((first == second) as u32);
    }
    match first.partial_cmp_preserve_nan(&second) {
        QuantityOrdering::IncompatibleUnits => Err(UNITS),
        QuantityOrdering::NanOperand => Err(NAN),
        QuantityOrdering::Ok(Ordering::Less) => number_bytes(0),
        QuantityOrdering::Ok(Ordering::Equal) => number_bytes(1),
        QuantityOrdering::Ok(Ordering::Greater) => number_bytes(2),
    }
}

fn on_two(units: &mut Units, request: &Request) -> Given {
    let (first, second) = (quantity_argument(units, request, 1), quantity_argument(units, request, 2));
    let q = match request.code {
        10 => (&first + &second)?,
        11 => (&first - &second)?,
        12 => first * second,
        13 => first.checked_div(second).ok_or(DIVZERO)?,
        _ => first.checked_power(second)?.ok_or(ZERONEG)?,
    };
    quantity_bytes(units, &q)
}

fn on_one(units: &mut Units, request: &Request) -> Given {
    let q = quantity_argument(units, request, 1);
    let q = match request.code {
        8 => q.to_base_unit_representation(),
        9 => q.convert_to(&list_argument(units, request, 2))?,
        15 => -q,
        16 => q.abs(),
        21 => q.full_simplify(),
        22 => simplified_with(units, request, &q),
        _ => q.no_simplify(),
    };
    quantity_bytes(units, &q)
}

/// A candidate's name: the mark keeps it apart from the rows' names and leaves the order of ranks.
fn candidate_name(rank: u16) -> String {
    format!("c{rank:05}")
}

fn metadata(name: &str) -> UnitMetadata {
    UnitMetadata {
        aliases: Vec::new(),
        name: None,
        canonical_name: CanonicalName::new(name, AcceptsPrefix),
        url: None,
        description: None,
        binary_prefixes: true,
        metric_prefixes: true,
        is_abbreviation: false,
        code_source_id: 0,
    }
}

/// The Rust's registry, every base row as a base unit and every candidate as a derived one, and these units by their names.
pub fn registry(units: &mut Units, candidates: &[u8]) -> (UnitRegistry, Vec<(CompactString, Unit)>) {
    let (mut registry, mut known) = (UnitRegistry::new(), Vec::new());
    for row in units.rows.iter().filter(|row| row.kind == 0) {
        let name = name(row.rank);
        let canonical_name = CanonicalName::new(&name, AcceptsPrefix);
        registry.add_base_unit(&name, metadata(&name)).expect("ranks differ");
        known.push((name, Unit::new_base(name, canonical_name)));
    }
    for Candidate { rank, unit } in bytes::candidates(candidates).expect("candidates") {
        let name = candidate_name(rank);
        let unit = units.unit(&unit);
        registry.add_derived_unit(&name, &unit.to_base_unit_representation().0, metadata(&name)).expect("ranks rise");
        known.push((name.as_str().into(), unit));
    }
    (registry, known)
}

fn simplified_with(units: &mut Units, request: &Request, q: &Quantity) -> Quantity {
    let (registry, known) = registry(units, &request.arguments[2]);
    q.full_simplify_with_registry(&registry, |name| known.iter().find(|(n, _)| n == name).map(|(_, unit)| unit.clone()))
}
