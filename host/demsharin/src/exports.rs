//! The archive's functions on byte slices; the only file with `unsafe`.
//!
//! Each takes the table (but for [`prefix_factor`], [`read_table`] and [`salvage_table`]), the arguments in order and
//! the slice for the answer, and returns the refusal's number, 0 for answered. Any bytes of any length may be given. A
//! refusal leaves `out` as it was; an answer leaves what lies behind it in `out`.

macro_rules! exported {
    ($($symbol:ident as $name:ident($($argument:ident),*);)*) => {
        #[link(name = "demsharin", kind = "static")]
        unsafe extern "C" {
            $(fn $symbol($($argument: *const u8, _: usize,)* out: *mut u8, _: usize) -> u32;)*
        }
        $(
            #[doc = concat!("The call `", stringify!($name), "` from bytes to bytes.")]
            #[inline]
            pub fn $name($($argument: &[u8],)* out: &mut [u8]) -> u32 {
                // SAFETY: the function reads its arguments' bytes and writes into `out` alone, each within the length
                // that goes with it. The pointers are a slice's own, so they aren't null even for an empty one and
                // stay valid for the call; and since `out` is borrowed to be changed, no argument overlaps it.
                unsafe { $symbol($($argument.as_ptr(), $argument.len(),)* out.as_mut_ptr(), out.len()) }
            }
        )*
    };
}

exported! {
    demsharin_prefix_factor as prefix_factor(prefix);
    demsharin_product as product(table, list, other);
    demsharin_quotient as quotient(table, list, other);
    demsharin_list_power as list_power(table, list, exponent);
    demsharin_canonical as canonical(table, list);
    demsharin_same_list as same_list(table, list, other);
    demsharin_reduce_list as reduce_list(table, list);
    demsharin_reduce as reduce(table, quantity);
    demsharin_convert_to as convert_to(table, quantity, target);
    demsharin_add as add(table, quantity, other);
    demsharin_subtract as subtract(table, quantity, other);
    demsharin_multiply as multiply(table, quantity, other);
    demsharin_checked_div as checked_div(table, quantity, other);
    demsharin_checked_power as checked_power(table, quantity, exponent);
    demsharin_negate as negate(table, quantity);
    demsharin_abs as abs(table, quantity);
    demsharin_equal as equal(table, quantity, other);
    demsharin_compare as compare(table, quantity, other);
    demsharin_smaller_unit as smaller_unit(table, list, other);
    demsharin_is_multiple_of as is_multiple_of(table, list, other);
    demsharin_full_simplify as full_simplify(table, quantity);
    demsharin_full_simplify_with as full_simplify_with(table, quantity, candidates);
    demsharin_no_simplify as no_simplify(table, quantity);
    demsharin_write_table as write_table(table);
    demsharin_read_table as read_table(file);
    demsharin_salvage_table as salvage_table(file);
    demsharin_convert_merged as convert_merged(table, quantity, target);
    demsharin_knot_vector as knot_vector(table, knots, rule);
    demsharin_span_quotient as span_quotient(table, knots, rule);
    demsharin_convert_to_counted as convert_to_counted(table, quantity, target);
    demsharin_convert_merged_counted as convert_merged_counted(table, quantity, target);
}
