// The calls by their codes: names, the kinds of their arguments after the table, and the kinds of their answers.
#[derive(Debug, Clone, Copy, PartialEq, Eq)]
pub enum Kind {
    Table,
    Prefix,
    Exponent,
    List,
    Quantity,
    Candidates,
    /// Any bytes, taken as a table file.
    File,
    /// A number alone: how many bytes are lent for a file, or how many rows.
    Lent,
    /// A run of quantities.
    Knots,
    /// Tolerance, degree and target of a knot vector; of a span quotient x and the left knot's place too.
    Rule,
    SpanRule,
    Value,
    YesNo,
    Order,
    Multiple,
    Reduced,
    /// Two numbers, then a file's bytes or rows.
    Written,
    Read,
    Salvaged,
    /// Two numbers, then distinct values with their multiplicities.
    Vector,
    /// A quantity, then how many multiplications it took.
    Counted,
}

use Kind::*;

pub struct Call {
    pub name: &'static str,
    pub arguments: &'static [Kind],
    pub answer: Kind,
}

const fn call(name: &'static str, arguments: &'static [Kind], answer: Kind) -> Call {
    Call { name, arguments, answer }
}

/// Code 1 is the first entry.
const CALLS: [Call; 31] = [
    call("prefix_factor", &[Prefix], Value),
    call("product", &[Table, List, List], List),
    call("quotient", &[Table, List, List], List),
    call("list_power", &[Table, List, Exponent], List),
    call("canonical", &[Table, List], List),
    call("same_list", &[Table, List, List], YesNo),
    call("reduce_list", &[Table, List], Reduced),
    call("reduce", &[Table, Quantity], Quantity),
    call("convert_to", &[Table, Quantity, List], Quantity),
    call("add", &[Table, Quantity, Quantity], Quantity),
    call("subtract", &[Table, Quantity, Quantity], Quantity),
    call("multiply", &[Table, Quantity, Quantity], Quantity),
    call("checked_div", &[Table, Quantity, Quantity], Quantity),
    call("checked_power", &[Table, Quantity, Quantity], Quantity),
    call("negate", &[Table, Quantity], Quantity),
    call("abs", &[Table, Quantity], Quantity),
    call("equal", &[Table, Quantity, Quantity], YesNo),
    call("compare", &[Table, Quantity, Quantity], Order),
    call("smaller_unit", &[Table, List, List], List),
    call("is_multiple_of", &[Table, List, List], Multiple),
    call("full_simplify", &[Table, Quantity], Quantity),
    call("full_simplify_with", &[Table, Quantity, Candidates], Quantity),
    call("no_simplify", &[Table, Quantity], Quantity),
    call("write_table", &[Table, Lent], Written),
    call("read_table", &[File, Lent], Read),
    call("salvage_table", &[File, Lent], Salvaged),
    call("convert_merged", &[Table, Quantity, List], Quantity),
    call("knot_vector", &[Table, Knots, Rule], Vector),
    call("span_quotient", &[Table, Knots, SpanRule], Value),
    call("convert_to_counted", &[Table, Quantity, List], Counted),
    call("convert_merged_counted", &[Table, Quantity, List], Counted),
];

pub const CODES: std::ops::RangeInclusive<u32> = 1..=31;
/// 02's calls; numbat has none like them.
pub const ADDED: std::ops::RangeInclusive<u32> = 24..=31;
/// Those that write and read a table file.
pub const FILES: std::ops::RangeInclusive<u32> = 24..=26;
/// 01's conversion, and that of 02's order 3: they take the same arguments.
pub const CONVERT_TO: u32 = 9;
pub const CONVERT_MERGED: u32 = 27;
/// Those of 02's order 4: they take the same table and knots.
pub const KNOT_VECTOR: u32 = 28;
pub const SPAN_QUOTIENT: u32 = 29;
/// Those of 02's order 5: the two conversions with their multiplications counted.
pub const CONVERT_TO_COUNTED: u32 = 30;
pub const CONVERT_MERGED_COUNTED: u32 = 31;

/// The most bytes that an argument in the stream may have: 513 knots have to reach their refusal.
pub fn limit(kind: Kind) -> u32 {
    if kind == Knots { 262_144 } else { 65_536 }
}

pub fn of_code(code: u32) -> Option<&'static Call> {
    CALLS.get((code as usize).wrapping_sub(1))
}
