// A request's arguments, each checked at its place: the table first, then one after the other.
use wire::bytes;
use wire::records::{Candidate, Prefix};
use wire::refusals::SHAPE;
use wire::stream::Request;

use crate::Checked;
use crate::fractions::Fraction;
use crate::lists::{Part, prefix_shaped, resolved};
use crate::sums::Quantity;
use crate::tables::{Table, admitted};

const CANDIDATES: usize = 32;

pub struct Arguments<'a> {
    pub table: Table,
    left: std::slice::Iter<'a, Vec<u8>>,
}

pub fn of(request: &Request) -> Checked<Arguments<'_>> {
    let mut left = request.arguments.iter();
    let table = admitted(bytes::table(left.next().expect("a call has its arguments")))?;
    Ok(Arguments { table, left })
}

impl<'a> Arguments<'a> {
    fn next(&mut self) -> &'a [u8] {
        self.left.next().expect("a call has its arguments")
    }

    pub fn list(&mut self) -> Checked<Vec<Part>> {
        let given = bytes::list(self.next());
        resolved(&self.table, given)
    }

    pub fn quantity(&mut self) -> Checked<Quantity> {
        let given = bytes::quantity(self.next()).ok_or(SHAPE)?;
        let unit = resolved(&self.table, Some(given.unit.clone()))?;
        Ok(Quantity { value: given.value(), mark: given.mark != 0, unit })
    }

    pub fn exponent(&mut self) -> Checked<Fraction> {
        bytes::exponent(self.next()).and_then(Fraction::of).ok_or(SHAPE)
    }

    /// The count, then for each its rank and its list (reading 25).
    pub fn candidates(&mut self) -> Checked<Vec<Vec<Part>>> {
        let given = bytes::candidates(self.next()).filter(|all| all.len() <= CANDIDATES).ok_or(SHAPE)?;
        let mut lists = Vec::new();
        let mut last: Option<u16> = None;
        for Candidate { rank, unit } in given {
            if last.is_some_and(|last| rank <= last) {
                return Err(SHAPE);
            }
            last = Some(rank);
            lists.push(resolved(&self.table, Some(unit))?);
        }
        Ok(lists)
    }
}

pub fn prefix(request: &Request) -> Checked<Prefix> {
    bytes::prefix(&request.arguments[0]).filter(|p| prefix_shaped(*p)).ok_or(SHAPE)
}
