/* Demsharin: verified unit arithmetic. The functions of libdemsharin.a, for C and C++ on x86-64.
 *
 * Every function takes byte slices, each as a pointer and a length: the table (but for
 * demsharin_prefix_factor and the two that read a file), the arguments in order, and last the room for
 * the answer. It returns 0 if it answered, or the number of a refusal. Any bytes of any length may be
 * given: what breaks a rule is refused. A refusal writes nothing; an answer leaves what lies behind it in
 * a longer room.
 *
 * The room must not overlap an argument, and no pointer may be null, not even with the length 0.
 * Functions keep nothing between calls and may be called from several threads; each needs less than
 * 512 KiB of stack. Link with -ldemsharin -lm.
 *
 * Records. All numbers are little-endian, without padding. Reserved bytes are never read. Places past
 * a length are never read either; in answers they hold row 0, Metric(0), 0/1.
 *
 *   Exponent    0 numerator i32       4 denominator u32 (a fraction in lowest terms, zero as 0/1)
 *   Prefix      0 kind u32 (0 metric: a power of ten, 1 binary: of two)       4 n i32 (-1100 to 1100)
 *   Factor      0 row u32             4 Prefix                12 Exponent
 *   List        0 length u32          4 Factor x 16
 *   Quantity    0 value's bits u64    8 mark u32 (0: may not be simplified)   12 List
 *   Counted     0 Quantity            336 count u32           340 reserved u32
 *   Row         0 rank u16            2 kind u16 (0 base, 1 derived)          4 definition's length u32
 *               8 factor's bits u64 (of a base row never read)                16 Factor x 8
 *   Candidate   0 rank u16            2 reserved u16          4 List
 *   Multiple    0 found u32 (1 or 0)  4 Exponent (0/1 for none)
 *   Reduced     0 scale's bits u64    8 List
 *   Rule        0 tolerance's bits u64 (in the unit below)    8 degree u32    12 List (the unit)
 *   SpanRule    0 Rule                336 x's bits u64 (in that unit)         344 place of the left knot u32
 *               348 reserved u32
 *   Distinct    0 value's bits u64    8 multiplicity u32      12 reserved u32
 *   Vector      0 number u32          4 reserved u32          8 Distinct, so many
 *
 * A value's bits are those of a binary64; any NaN counts as the one that answers have,
 * 0x7ff8000000000000. A table is a run of at most 128 Rows, at most 16 of them base; ranks differ, a
 * definition names lower rows only. Candidates are a run of at most 32, their ranks rising. Knots are a run
 * of 1 to 512 Quantities; a degree is 1 to 9, a tolerance finite and not below zero.
 *
 * A table file is what sites send each other: any bytes, which are read by these rules. A number is in
 * groups of seven bits, low group first, the high bit set on all but the last, in the shortest form
 * only; a signed one is folded first (0, -1, 1, -2 become 0, 1, 2, 3). The file is the number of rows,
 * then for each row rank and kind (0 base, 1 derived), and for a derived one the factor's eight bytes,
 * lowest first, the number of its factors, and for each of these row, prefix kind (0 metric, 1 binary),
 * folded n, folded numerator, denominator. Nothing follows the last row. An admitted table has one file.
 *
 *   Written     0 length u32          4 reserved u32          8 the file, so many bytes
 *   Read        0 rows u32            4 reserved u32          8 Row, so many
 *   Salvaged    0 rows kept u32       4 byte u32              8 Row, so many
 */
#ifndef DEMSHARIN_H
#define DEMSHARIN_H

#include <stddef.h>
#include <stdint.h>

/* Sizes of the records, and of the answers that are no record. */
#define DEMSHARIN_EXPONENT_BYTES 8
#define DEMSHARIN_PREFIX_BYTES 8
#define DEMSHARIN_FACTOR_BYTES 20
#define DEMSHARIN_LIST_BYTES 324
#define DEMSHARIN_QUANTITY_BYTES 336
#define DEMSHARIN_COUNTED_BYTES 344
#define DEMSHARIN_ROW_BYTES 176
#define DEMSHARIN_CANDIDATE_BYTES 328
#define DEMSHARIN_MULTIPLE_BYTES 12
#define DEMSHARIN_REDUCED_BYTES 332
#define DEMSHARIN_RULE_BYTES 336
#define DEMSHARIN_SPAN_RULE_BYTES 352
#define DEMSHARIN_DISTINCT_BYTES 16
#define DEMSHARIN_NUMBER_BYTES 4
#define DEMSHARIN_VALUE_BYTES 8

/* A file's longest, and what holds every Written; what holds every Read and every Salvaged. */
#define DEMSHARIN_FILE_BYTES 15890
#define DEMSHARIN_WRITTEN_BYTES 15898
#define DEMSHARIN_ROWS_BYTES 22536
/* What holds every Vector. */
#define DEMSHARIN_VECTOR_BYTES 8200
/* What stands before the file's bytes, the rows or the distinct values. */
#define DEMSHARIN_HEAD_BYTES 8

/* How many there may be, and the highest degree. */
#define DEMSHARIN_LIST_FACTORS 16
#define DEMSHARIN_DEFINITION_FACTORS 8
#define DEMSHARIN_TABLE_ROWS 128
#define DEMSHARIN_BASE_ROWS 16
#define DEMSHARIN_CANDIDATES 32
#define DEMSHARIN_KNOTS 512
#define DEMSHARIN_DEGREE 9

/* What a function returns: 0, or the first refusal in the order of the checks. The table is checked
 * first, row by row, then the arguments from left to right, then what the call itself may refuse; only
 * ARGUMENT about knots and their rule comes before the table. Of RANGE and DENOMINATOR the first exponent
 * that leaves its range decides, by its numerator if both halves do. */
enum demsharin_refusal {
    DEMSHARIN_ANSWERED = 0,
    DEMSHARIN_TABLE = 1,        /* over 128 rows, a length that no run of rows has, or a row breaks its rules */
    DEMSHARIN_SHAPE = 2,        /* an argument of the wrong length, a list too long, a prefix or an exponent
                                   that breaks its rule, candidates too many or not rising */
    DEMSHARIN_UNKNOWN = 3,      /* a list names a row that isn't there */
    DEMSHARIN_ROOM = 4,         /* a product of over 16 factors; or, after every other refusal, too short a room */
    DEMSHARIN_RANGE = 5,        /* an exponent's numerator leaves its range */
    DEMSHARIN_UNITS = 6,        /* the units don't agree, and the value isn't zero */
    DEMSHARIN_FRACTION = 7,     /* a scale other than 1 meets an exponent that isn't whole */
    DEMSHARIN_DIVZERO = 8,      /* the divisor's value is zero */
    DEMSHARIN_ZERONEG = 9,      /* zero to an exponent below zero */
    DEMSHARIN_NONWHOLE = 10,    /* a power by a value that isn't whole */
    DEMSHARIN_NAN = 11,         /* a comparison with a NaN, or a NaN after conversion */
    DEMSHARIN_FORMAT = 12,      /* a file that breaks its rules, has a number above 4294967295, a rank above
                                   65535 or a definition of over 8 factors, or has more rows than there is room */
    DEMSHARIN_DENOMINATOR = 13, /* an exponent's denominator, or the common multiple of a row's, leaves its range */
    DEMSHARIN_ORDER = 14,       /* knots fall, or one is a NaN or infinite in the unit of the rule */
    DEMSHARIN_MULTIPLE = 15,    /* a knot is there more often than the degree plus one */
    DEMSHARIN_ARGUMENT = 16     /* a wrong number of knots, degree or tolerance, or a length that no knots or no
                                   rule have; or, after ORDER and MULTIPLE, a place without a span behind it */
};

#ifdef __cplusplus
extern "C" {
#endif

/* Prefix -> value's bits: ten or two to the power n. */
uint32_t demsharin_prefix_factor(const uint8_t *prefix, size_t prefix_len, uint8_t *out, size_t out_len);

/* List, List -> List: the two joined, unmerged. ROOM over 16 factors. */
uint32_t demsharin_product(const uint8_t *table, size_t table_len, const uint8_t *list, size_t list_len,
                           const uint8_t *other, size_t other_len, uint8_t *out, size_t out_len);

/* List, List -> List: the first joined with the second, whose exponents are negated. ROOM over 16 factors. */
uint32_t demsharin_quotient(const uint8_t *table, size_t table_len, const uint8_t *list, size_t list_len,
                            const uint8_t *other, size_t other_len, uint8_t *out, size_t out_len);

/* List, Exponent -> List: each exponent multiplied, zeros kept. RANGE or DENOMINATOR. */
uint32_t demsharin_list_power(const uint8_t *table, size_t table_len, const uint8_t *list, size_t list_len,
                              const uint8_t *exponent, size_t exponent_len, uint8_t *out, size_t out_len);

/* List -> List: in canonical order, factors of one row and prefix merged, zeros gone. RANGE or
 * DENOMINATOR. */
uint32_t demsharin_canonical(const uint8_t *table, size_t table_len, const uint8_t *list, size_t list_len,
                             uint8_t *out, size_t out_len);

/* List, List -> u32, 1 yes or 0 no: whether they have one canonical form. RANGE or DENOMINATOR. */
uint32_t demsharin_same_list(const uint8_t *table, size_t table_len, const uint8_t *list, size_t list_len,
                             const uint8_t *other, size_t other_len, uint8_t *out, size_t out_len);

/* List -> Reduced: the list in base units, with its scale. RANGE or DENOMINATOR, FRACTION. */
uint32_t demsharin_reduce_list(const uint8_t *table, size_t table_len, const uint8_t *list, size_t list_len,
                               uint8_t *out, size_t out_len);

/* Quantity -> Quantity in base units. RANGE or DENOMINATOR, FRACTION. */
uint32_t demsharin_reduce(const uint8_t *table, size_t table_len, const uint8_t *quantity,
                          size_t quantity_len, uint8_t *out, size_t out_len);

/* Quantity, List -> Quantity in the unit of the list; zero converts to any. RANGE or DENOMINATOR, UNITS,
 * FRACTION. */
uint32_t demsharin_convert_to(const uint8_t *table, size_t table_len, const uint8_t *quantity,
                              size_t quantity_len, const uint8_t *target, size_t target_len, uint8_t *out,
                              size_t out_len);

/* Quantity, Quantity -> Quantity: the sum in the smaller of the units; a zero gives the other as it is.
 * RANGE or DENOMINATOR, FRACTION, UNITS. */
uint32_t demsharin_add(const uint8_t *table, size_t table_len, const uint8_t *quantity, size_t quantity_len,
                       const uint8_t *other, size_t other_len, uint8_t *out, size_t out_len);

/* Quantity, Quantity -> Quantity: the difference by the same rules; zero minus a quantity is its negative. */
uint32_t demsharin_subtract(const uint8_t *table, size_t table_len, const uint8_t *quantity,
                            size_t quantity_len, const uint8_t *other, size_t other_len, uint8_t *out,
                            size_t out_len);

/* Quantity, Quantity -> Quantity: values multiplied, lists joined. ROOM over 16 factors. */
uint32_t demsharin_multiply(const uint8_t *table, size_t table_len, const uint8_t *quantity,
                            size_t quantity_len, const uint8_t *other, size_t other_len, uint8_t *out,
                            size_t out_len);

/* Quantity, Quantity -> Quantity: values divided, lists as in a quotient. DIVZERO, ROOM. */
uint32_t demsharin_checked_div(const uint8_t *table, size_t table_len, const uint8_t *quantity,
                               size_t quantity_len, const uint8_t *other, size_t other_len, uint8_t *out,
                               size_t out_len);

/* Quantity, Quantity -> Quantity: the first to a whole power, the second converted to a scalar.
 * That conversion's refusals, ZERONEG, NONWHOLE, RANGE. */
uint32_t demsharin_checked_power(const uint8_t *table, size_t table_len, const uint8_t *quantity,
                                 size_t quantity_len, const uint8_t *exponent, size_t exponent_len,
                                 uint8_t *out, size_t out_len);

/* Quantity -> Quantity: the value with the other sign. */
uint32_t demsharin_negate(const uint8_t *table, size_t table_len, const uint8_t *quantity,
                          size_t quantity_len, uint8_t *out, size_t out_len);

/* Quantity -> Quantity: the value without its sign. */
uint32_t demsharin_abs(const uint8_t *table, size_t table_len, const uint8_t *quantity, size_t quantity_len,
                       uint8_t *out, size_t out_len);

/* Quantity, Quantity -> u32, 1 yes or 0 no: the second, in the first's unit, has the first's value; no if
 * the units don't agree or a value is then a NaN. RANGE or DENOMINATOR, FRACTION. */
uint32_t demsharin_equal(const uint8_t *table, size_t table_len, const uint8_t *quantity,
                         size_t quantity_len, const uint8_t *other, size_t other_len, uint8_t *out,
                         size_t out_len);

/* Quantity, Quantity -> u32, 0 less, 1 equal, 2 greater: the first against the second in the first's unit.
 * NAN, RANGE or DENOMINATOR, UNITS, FRACTION. */
uint32_t demsharin_compare(const uint8_t *table, size_t table_len, const uint8_t *quantity,
                           size_t quantity_len, const uint8_t *other, size_t other_len, uint8_t *out,
                           size_t out_len);

/* List, List -> List: the one of the smaller scale, the first if they are equal. RANGE or DENOMINATOR,
 * FRACTION. */
uint32_t demsharin_smaller_unit(const uint8_t *table, size_t table_len, const uint8_t *list, size_t list_len,
                                const uint8_t *other, size_t other_len, uint8_t *out, size_t out_len);

/* List, List -> Multiple: the exponent to which the second has the first's base exponents. RANGE or
 * DENOMINATOR. */
uint32_t demsharin_is_multiple_of(const uint8_t *table, size_t table_len, const uint8_t *list,
                                  size_t list_len, const uint8_t *other, size_t other_len, uint8_t *out,
                                  size_t out_len);

/* Quantity -> Quantity in a simpler unit, if it has the mark. RANGE or DENOMINATOR, FRACTION. */
uint32_t demsharin_full_simplify(const uint8_t *table, size_t table_len, const uint8_t *quantity,
                                 size_t quantity_len, uint8_t *out, size_t out_len);

/* Quantity, Candidates -> Quantity: the same, with candidates for the unit. RANGE or DENOMINATOR,
 * FRACTION. */
uint32_t demsharin_full_simplify_with(const uint8_t *table, size_t table_len, const uint8_t *quantity,
                                      size_t quantity_len, const uint8_t *candidates, size_t candidates_len,
                                      uint8_t *out, size_t out_len);

/* Quantity -> Quantity without the mark. */
uint32_t demsharin_no_simplify(const uint8_t *table, size_t table_len, const uint8_t *quantity,
                               size_t quantity_len, uint8_t *out, size_t out_len);

/* -> Written: the table's file. The room for the file is out_len - 8, and DEMSHARIN_WRITTEN_BYTES always
 * suffice; ROOM if it is too little, after every refusal of the table. */
uint32_t demsharin_write_table(const uint8_t *table, size_t table_len, uint8_t *out, size_t out_len);

/* file -> Read: its rows. There is room for (out_len - 8) / 176, rounded down, and DEMSHARIN_ROWS_BYTES
 * always suffice; rows behind those that are read keep their bytes. FORMAT for a fault anywhere in the file
 * or more rows than there is room, then what the rows as a table are refused for; ROOM below 8 bytes. */
uint32_t demsharin_read_table(const uint8_t *file, size_t file_len, uint8_t *out, size_t out_len);

/* file -> Salvaged: the whole, admitted rows before the first fault, which are a table of their own. The byte
 * is where the first row not kept begins, or where the rows end; 0 if the number of rows can't be read. A
 * number too high is a fault only at the row without a place: behind the room's last, or the 129th. Only the
 * rows kept are written. Nothing is refused but ROOM below 8 bytes. */
uint32_t demsharin_salvage_table(const uint8_t *file, size_t file_len, uint8_t *out, size_t out_len);

/* Quantity, List -> Quantity: as demsharin_convert_to, with factors common to both units cancelled on both
 * sides. A unit that cancels is not read: it neither refuses by FRACTION nor rounds. The value may differ in its
 * last places from demsharin_convert_to's. RANGE or DENOMINATOR, UNITS, FRACTION. */
uint32_t demsharin_convert_merged(const uint8_t *table, size_t table_len, const uint8_t *quantity,
                                  size_t quantity_len, const uint8_t *target, size_t target_len, uint8_t *out,
                                  size_t out_len);

/* Knots, Rule -> Vector: the knots in the unit of the rule, converted as by demsharin_convert_merged and merged
 * in runs from the lowest on. Each next knot joins the run if it, less the run's first, is at most the
 * tolerance, and begins the next run otherwise; the first's value stands for all, with their number as its
 * multiplicity. DEMSHARIN_VECTOR_BYTES always suffice. ARGUMENT before everything, TABLE too; then what the
 * lowest knot that isn't converted is refused for; ORDER, MULTIPLE. */
uint32_t demsharin_knot_vector(const uint8_t *table, size_t table_len, const uint8_t *knots, size_t knots_len,
                               const uint8_t *rule, size_t rule_len, uint8_t *out, size_t out_len);

/* Knots, SpanRule -> value's bits: (x - left) / (right - left) for the span from the knot at the place, counted
 * from 0, to the next, each at the value of its run; 0 if both are of one run, whatever x is. x may lie outside
 * of the span. All refusals of demsharin_knot_vector, then ARGUMENT for a place without a span behind it. */
uint32_t demsharin_span_quotient(const uint8_t *table, size_t table_len, const uint8_t *knots, size_t knots_len,
                                 const uint8_t *span_rule, size_t span_rule_len, uint8_t *out,
                                 size_t out_len);

/* Quantity, List -> Counted: the quantity that demsharin_convert_to answers, and how many multiplications were
 * done inside the power rule for it, prefix powers included: for each factor of both scales those of its prefix
 * power, then those of the power to its whole exponent. A power to n takes the set bits of |n| plus its bit
 * length minus one, none for n = 0: at most 61, and at most 19 for a prefix. A fraction over exactly 1 takes
 * none. A zero and equal lists count 0, and the checks of the rows aren't counted. At most 3744. Refused as
 * demsharin_convert_to is. */
uint32_t demsharin_convert_to_counted(const uint8_t *table, size_t table_len, const uint8_t *quantity,
                                      size_t quantity_len, const uint8_t *target, size_t target_len,
                                      uint8_t *out, size_t out_len);

/* Quantity, List -> Counted: the same of demsharin_convert_merged, for factors that cancel on both sides none.
 * At most 2560. */
uint32_t demsharin_convert_merged_counted(const uint8_t *table, size_t table_len, const uint8_t *quantity,
                                          size_t quantity_len, const uint8_t *target, size_t target_len,
                                          uint8_t *out, size_t out_len);

#ifdef __cplusplus
}
#endif

#endif
