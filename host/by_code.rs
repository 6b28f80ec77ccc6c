// The archive's functions by the codes of the byte form, for programs that take requests.
use demsharin::bytes::{
    COUNTED_BYTES, FILE_BYTES, HEAD_BYTES, LIST_BYTES, MULTIPLE_BYTES, NUMBER_BYTES, QUANTITY_BYTES, REDUCED_BYTES,
    ROW_BYTES, VALUE_BYTES,
};
use demsharin::exports;
use wire::bytes::{DISTINCT, lent};
use wire::calls::{self, Kind};
use wire::stream::Request;

/// The number that the call answers with.
#[inline(always)]
pub fn call(request: &Request, out: &mut [u8]) -> u32 {
    match (request.code, request.arguments.as_slice()) {
        (1, [prefix]) => exports::prefix_factor(prefix, out),
        (2, [table, a, b]) => exports::product(table, a, b, out),
        (3, [table, a, b]) => exports::quotient(table, a, b, out),
        (4, [table, a, b]) => exports::list_power(table, a, b, out),
        (5, [table, a]) => exports::canonical(table, a, out),
        (6, [table, a, b]) => exports::same_list(table, a, b, out),
        (7, [table, a]) => exports::reduce_list(table, a, out),
        (8, [table, a]) => exports::reduce(table, a, out),
        (9, [table, a, b]) => exports::convert_to(table, a, b, out),
        (10, [table, a, b]) => exports::add(table, a, b, out),
        (11, [table, a, b]) => exports::subtract(table, a, b, out),
        (12, [table, a, b]) => exports::multiply(table, a, b, out),
        (13, [table, a, b]) => exports::checked_div(table, a, b, out),
        (14, [table, a, b]) => exports::checked_power(table, a, b, out),
        (15, [table, a]) => exports::negate(table, a, out),
        (16, [table, a]) => exports::abs(table, a, out),
        (17, [table, a, b]) => exports::equal(table, a, b, out),
        (18, [table, a, b]) => exports::compare(table, a, b, out),
        (19, [table, a, b]) => exports::smaller_unit(table, a, b, out),
        (20, [table, a, b]) => exports::is_multiple_of(table, a, b, out),
        (21, [table, a]) => exports::full_simplify(table, a, out),
        (22, [table, a, b]) => exports::full_simplify_with(table, a, b, out),
        (23, [table, a]) => exports::no_simplify(table, a, out),
        (24, [table, _]) => exports::write_table(table, out),
        (25, [file, _]) => exports::read_table(file, out),
        (26, [file, _]) => exports::salvage_table(file, out),
        (27, [table, a, b]) => exports::convert_merged(table, a, b, out),
        (28, [table, knots, rule]) => exports::knot_vector(table, knots, rule, out),
        (29, [table, knots, rule]) => exports::span_quotient(table, knots, rule, out),
        (30, [table, a, b]) => exports::convert_to_counted(table, a, b, out),
        (31, [table, a, b]) => exports::convert_merged_counted(table, a, b, out),
        (code, arguments) => panic!("no call {code} with {} arguments", arguments.len()),
    }
}

/// The bytes that hold the answer to a request. What a call on files is lent stands in the request; at most the longest
/// file, or a row for each byte of a file, is lent, since more changes nothing. A knot vector has at most as many values as
/// knots.
pub fn answer_bytes(request: &Request) -> usize {
    match calls::of_code(request.code).expect("a known code").answer {
        Kind::Written => HEAD_BYTES + (lent(&request.arguments[1]) as usize).min(FILE_BYTES),
        Kind::Read | Kind::Salvaged => {
            HEAD_BYTES + ROW_BYTES * (lent(&request.arguments[1]) as usize).min(request.arguments[0].len())
        }
        Kind::Vector => HEAD_BYTES + DISTINCT * (request.arguments[1].len() / QUANTITY_BYTES).min(512),
        Kind::Counted => COUNTED_BYTES,
        Kind::Value => VALUE_BYTES,
        Kind::YesNo | Kind::Order => NUMBER_BYTES,
        Kind::List => LIST_BYTES,
        Kind::Multiple => MULTIPLE_BYTES,
        Kind::Reduced => REDUCED_BYTES,
        _ => QUANTITY_BYTES,
    }
}
