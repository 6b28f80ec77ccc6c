/* Ten inches in metres, what that costs, and a knot vector from C: records put together byte by byte, calls, and
 * refusals. */
#include "demsharin.h"

#include <inttypes.h>
#include <stdio.h>
#include <string.h>

enum { METRE = 0, INCH = 1, ROWS = 2, KNOTS = 4 };

static void put(uint8_t *place, uint64_t number, int bytes) {
    for (int at = 0; at < bytes; at++) place[at] = (uint8_t)(number >> (8 * at));
}

static uint64_t get(const uint8_t *place, int bytes) {
    uint64_t number = 0;
    for (int at = 0; at < bytes; at++) number |= (uint64_t)place[at] << (8 * at);
    return number;
}

static uint64_t bits_of(double value) {
    uint64_t bits;
    memcpy(&bits, &value, sizeof bits);
    return bits;
}

static double value_of(uint64_t bits) {
    double value;
    memcpy(&value, &bits, sizeof value);
    return value;
}

/* A row to a power, without prefix. */
static void put_power(uint8_t *place, uint32_t row, uint32_t numerator, uint32_t denominator) {
    memset(place, 0, DEMSHARIN_FACTOR_BYTES);
    put(place, row, 4);
    put(place + 12, numerator, 4);
    put(place + 16, denominator, 4);
}

static void put_factor(uint8_t *place, uint32_t row) { put_power(place, row, 1, 1); }

/* Places past the length are never read, so they need not be written. */
static void put_list(uint8_t *place, uint32_t row) {
    put(place, 1, 4);
    put_factor(place + 4, row);
}

/* Metre is a base row, and inch 0.0254 of it. Ranks are in the order of the names. */
static void put_table(uint8_t *table) {
    uint8_t *inch = table + DEMSHARIN_ROW_BYTES;
    memset(table, 0, ROWS * DEMSHARIN_ROW_BYTES);
    put(table, 1, 2);
    put(inch, 0, 2);
    put(inch + 2, 1, 2);
    put(inch + 4, 1, 4);
    put(inch + 8, bits_of(0.0254), 8);
    put_factor(inch + 16, METRE);
}

/* What merging two powers of a metre is refused for. */
static uint32_t merged(const uint8_t *table, size_t table_len, uint32_t a, uint32_t b, uint32_t c, uint32_t d) {
    uint8_t list[DEMSHARIN_LIST_BYTES] = {0}, answer[DEMSHARIN_LIST_BYTES];
    put(list, 2, 4);
    put_power(list + 4, METRE, a, b);
    put_power(list + 4 + DEMSHARIN_FACTOR_BYTES, METRE, c, d);
    return demsharin_canonical(table, table_len, list, sizeof list, answer, sizeof answer);
}

/* How many multiplications a conversion takes by 01's rule and by the one that cancels on both sides; both have
 * to answer with the same bytes of quantity as without a count. */
static int counted(const uint8_t *table, size_t table_len, const uint8_t *quantity, const uint8_t *target,
                   uint32_t counts[2]) {
    uint8_t plain[DEMSHARIN_QUANTITY_BYTES], answer[DEMSHARIN_COUNTED_BYTES];
    uint32_t refusal = demsharin_convert_to(table, table_len, quantity, DEMSHARIN_QUANTITY_BYTES, target,
                                            DEMSHARIN_LIST_BYTES, plain, sizeof plain);
    refusal |= demsharin_convert_to_counted(table, table_len, quantity, DEMSHARIN_QUANTITY_BYTES, target,
                                            DEMSHARIN_LIST_BYTES, answer, sizeof answer);
    int alike = memcmp(plain, answer, sizeof plain) == 0;
    counts[0] = (uint32_t)get(answer + DEMSHARIN_QUANTITY_BYTES, 4);
    refusal |= demsharin_convert_merged(table, table_len, quantity, DEMSHARIN_QUANTITY_BYTES, target,
                                        DEMSHARIN_LIST_BYTES, plain, sizeof plain);
    refusal |= demsharin_convert_merged_counted(table, table_len, quantity, DEMSHARIN_QUANTITY_BYTES, target,
                                                DEMSHARIN_LIST_BYTES, answer, sizeof answer);
    counts[1] = (uint32_t)get(answer + DEMSHARIN_QUANTITY_BYTES, 4);
    return refusal == DEMSHARIN_ANSWERED && alike && memcmp(plain, answer, sizeof plain) == 0;
}

/* A knot as a supplier sends it; n is the power of ten before the unit. */
static void put_knot(uint8_t *place, double value, uint32_t row, int32_t n) {
    put(place, bits_of(value), 8);
    put(place + 8, 1, 4);
    put_list(place + 12, row);
    put(place + 12 + 4 + 8, (uint32_t)n, 4);
}

/* Knots in inches and millimetres as a knot vector in metres, then x in the span behind the knot at a place.
 * Returns the refusal; sets the number of distinct values. */
static uint32_t vector(const uint8_t *table, size_t table_len, double tolerance, uint32_t place, double x,
                       uint32_t *number) {
    static uint8_t knots[KNOTS * DEMSHARIN_QUANTITY_BYTES], rule[DEMSHARIN_SPAN_RULE_BYTES];
    uint8_t distinct[DEMSHARIN_VECTOR_BYTES], quotient[DEMSHARIN_VALUE_BYTES];
    put_knot(knots, 2.0, INCH, 0);
    put_knot(knots + DEMSHARIN_QUANTITY_BYTES, 3.0, INCH, 0);
    put_knot(knots + 2 * DEMSHARIN_QUANTITY_BYTES, 76.2, METRE, -3);
    put_knot(knots + 3 * DEMSHARIN_QUANTITY_BYTES, 102.0, METRE, -3);
    put(rule, bits_of(tolerance), 8);
    put(rule + 8, 3, 4);
    put_list(rule + 12, METRE);
    put(rule + DEMSHARIN_RULE_BYTES, bits_of(x), 8);
    put(rule + DEMSHARIN_RULE_BYTES + 8, place, 4);

    uint32_t refusal = demsharin_knot_vector(table, table_len, knots, sizeof knots, rule, DEMSHARIN_RULE_BYTES,
                                             distinct, sizeof distinct);
    if (refusal == DEMSHARIN_ANSWERED)
        refusal = demsharin_span_quotient(table, table_len, knots, sizeof knots, rule, sizeof rule, quotient,
                                          sizeof quotient);
    printf("2 inch, 3 inch, 76.2 mm, 102 mm within %g metre:", tolerance);
    if (refusal != DEMSHARIN_ANSWERED) {
        printf(" refusal %" PRIu32 "\n", refusal);
        return refusal;
    }
    *number = (uint32_t)get(distinct, 4);
    for (uint32_t at = 0; at < *number; at++) {
        const uint8_t *run = distinct + DEMSHARIN_HEAD_BYTES + at * DEMSHARIN_DISTINCT_BYTES;
        printf(" %.17g x %" PRIu64, value_of(get(run, 8)), get(run + 8, 4));
    }
    printf("; %g in the span behind knot %" PRIu32 ": %g\n", x, place, value_of(get(quotient, 8)));
    return refusal;
}

int main(void) {
    uint8_t table[ROWS * DEMSHARIN_ROW_BYTES];
    uint8_t quantity[DEMSHARIN_QUANTITY_BYTES] = {0}, target[DEMSHARIN_LIST_BYTES] = {0};
    uint8_t answer[DEMSHARIN_QUANTITY_BYTES];
    put_table(table);
    put(quantity, bits_of(10.0), 8);
    put(quantity + 8, 1, 4);
    put_list(quantity + 12, INCH);
    put_list(target, METRE);
    uint32_t refusal = demsharin_convert_to(table, sizeof table, quantity, sizeof quantity, target,
                                            sizeof target, answer, sizeof answer);
    if (refusal != DEMSHARIN_ANSWERED) return (int)refusal;
    uint64_t bits = get(answer, 8);
    printf("10 inch = %.17g metre (bits %016" PRIx64 ")\n", value_of(bits), bits);

    uint32_t counts[2];
    int count = counted(table, sizeof table, quantity, target, counts) && counts[0] == 2 && counts[1] == 2;
    printf("10 inch to metre: %" PRIu32 " multiplications inside the power rule\n", counts[0]);

    put_list(target, 2);
    refusal = demsharin_convert_to(table, sizeof table, quantity, sizeof quantity, target, sizeof target,
                                   answer, sizeof answer);
    printf("10 inch to a row that isn't there: refusal %" PRIu32 "\n", refusal);
    int kept = refusal == DEMSHARIN_UNKNOWN && get(answer, 8) == bits;

    uint32_t power = merged(table, sizeof table, INT32_MAX, 1, 1, 1);
    uint32_t root = merged(table, sizeof table, 1, 65536, 1, 65537);
    printf("metre^2147483647 metre: refusal %" PRIu32 "\n", power);
    printf("metre^(1/65536) metre^(1/65537): refusal %" PRIu32 "\n", root);

    uint32_t apart = 0, together = 0;
    int knots = vector(table, sizeof table, 0.0, 1, 0.1, &apart) == DEMSHARIN_ANSWERED && apart == 4 &&
                vector(table, sizeof table, 2e-17, 1, 0.1, &together) == DEMSHARIN_ANSWERED && together == 3 &&
                vector(table, sizeof table, -1.0, 1, 0.1, &together) == DEMSHARIN_ARGUMENT;
    return kept && count && power == DEMSHARIN_RANGE && root == DEMSHARIN_DENOMINATOR && knots ? 0 : 1;
}
