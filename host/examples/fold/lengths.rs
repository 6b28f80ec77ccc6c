// Lengths as they are sent, and two tables to convert them by.
use demsharin::{Factor, KnotRule, List, Prefix, Quantity, Refusal, Row, Table};

#[derive(Clone, Copy)]
pub enum Unit {
    Inch,
    Millimetre,
}
use Unit::{Inch, Millimetre};

/// What each supplier's reader would plausibly be written as. Both are right to a last place.
pub fn by_hand(unit: Unit, value: f64) -> f64 {
    match unit {
        Inch => value * 25.4 / 1000.0,
        Millimetre => value / 1000.0,
    }
}

pub fn sent_to_hand(unit: Unit, value: f64) -> String {
    match unit {
        Inch => format!("{value} inch * 25.4 / 1000"),
        Millimetre => format!("{value} mm / 1000"),
    }
}

pub fn sent(unit: Unit, value: f64) -> String {
    match unit {
        Inch => format!("{value} inch"),
        Millimetre => format!("{value} mm"),
    }
}

/// How far the next float above lies.
pub fn last_place(value: f64) -> f64 {
    value.next_up() - value
}

pub struct Lengths {
    pub table: Table,
    metre: Factor,
    inch: Factor,
}

impl Lengths {
    /// In tenths of a millimetre an inch, a millimetre and a metre are 254, 10 and 10,000: no scale is rounded. A length
    /// in halves, quarters, .. 64ths of an inch times 254 is exact. In millimetres it is sent as the float nearest to
    /// those tenths over 10, and that times 10 is the same tenths again, as for every divisor 2^i + 2^j (Kahan). So the
    /// two spellings are one value before the metre divides it.
    pub fn over_tenths() -> Lengths {
        let tenth = Factor::of(0);
        let rows = [Row::base(2), Row::derived(1, 10_000.0, vec![tenth]), Row::derived(0, 254.0, vec![tenth])];
        Lengths { table: Table::new(&rows), metre: Factor::of(1), inch: Factor::of(2) }
    }

    /// The table one would write first. 0.0254 and the prefix's 0.001 are rounded, each its own way.
    pub fn over_metres() -> Lengths {
        let metre = Factor::of(0);
        let rows = [Row::base(1), Row::derived(0, 0.0254, vec![metre])];
        Lengths { table: Table::new(&rows), metre, inch: Factor::of(1) }
    }

    pub fn metre(&self) -> List {
        self.metre.into()
    }

    pub fn metres(&self, value: f64) -> Quantity {
        Quantity::new(value, self.metre)
    }

    pub fn quantity(&self, unit: Unit, value: f64) -> Quantity {
        match unit {
            Inch => Quantity::new(value, self.inch),
            Millimetre => Quantity::new(value, self.metre.under(Prefix::Metric(-3))),
        }
    }

    /// In metres, by the rule by which knots are converted.
    pub fn in_metres(&self, quantity: &Quantity) -> Result<f64, Refusal> {
        Ok(self.table.convert_merged(quantity, &self.metre())?.value)
    }

    /// Knots of a cubic in metres.
    pub fn rule(&self, tolerance: f64) -> KnotRule {
        KnotRule::new(self.metre, tolerance, 3)
    }
}
