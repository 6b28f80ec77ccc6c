#!/usr/bin/env python3
# Puts one wrong reading of 01, or of 02's orders 1 to 5, into a copy of the folder `scope`, to see whether generated
# requests and the stored list show it. Each is an exact text put for another that must stand there once.
#
#   wrong.py list              names all of 01
#   wrong.py files             names all of 02's order 1
#   wrong.py halves            names all of 02's order 2
#   wrong.py merged            names all of 02's order 3
#   wrong.py knots             names all of 02's order 4
#   wrong.py counted           names all of 02's order 5
#   wrong.py NAME FOLDER       writes the copy with that one
import pathlib
import shutil
import sys

HERE = pathlib.Path(__file__).parent
GREATER = "place(a).cmp(&place(b)).then(a.exponent.compared(b.exponent))"
NEGATIVE = "(false, false) => Some(if own_smaller { target } else { own })"
OWN_SCALE = "let own_scale = scale_counted(&table.rows, &own_left)?;"
TARGET_SCALE = "let target_scale = scale_counted(&table.rows, &target_left)?;"
DIFFERENCE = "Ok(Quantity { value: -b.value, ..b.clone() })"
RESULT = "let value = value * own_scale.value / target_scale.value;"

WRONG = {
    "own-list-merged": ("conversion.rs", OWN_SCALE, OWN_SCALE.replace("&own_left", "&canonical(table, &own_left)?")),
    "target-not-merged": ("conversion.rs", TARGET_SCALE, TARGET_SCALE.replace("&target_left", "&joined(target, &common)")),
    "common-of-negatives": ("conversion.rs", NEGATIVE, "(false, false) => Some(if own_smaller { own } else { target })"),
    "scales-divided-first": ("conversion.rs", RESULT, "let value = value * (own_scale.value / target_scale.value);"),
    "units-before-zero": ("conversion.rs", " || value == 0.0", ""),
    "first-on-a-tie": ("simplification.rs", GREATER, GREATER + ".then(std::cmp::Ordering::Greater)"),
    "base-not-greater": ("simplification.rs", GREATER, "a.exponent.compared(b.exponent)"),
    "plain-exponent-sum": ("simplification.rs", "p.exponent.times(first_exponent(table, p))?.over(divisor)?", "p.exponent"),
    "last-factor-that-fits": ("simplification.rs", "for factor in &form {", "for factor in form.iter().rev() {"),
    "any-multiple-fits": ("simplification.rs", ".filter(|m| m.is_whole())", ""),
    "scalar-group-kept": ("simplification.rs", "if base_exponents(&table.rows, group)?.is_empty() {", "if false {"),
    "last-candidate-on-a-tie": ("registry.rs", "unit.len() < b.unit.len()", "unit.len() <= b.unit.len()"),
    "near-1.1e-9": ("registry.rs", "NEAR: f64 = 1e-9", "NEAR: f64 = 1.1e-9"),
    "no-single-base-unit": ("registry.rs", "&& exponent.is_whole()", "&& false"),
    "single-base-unit-any-exponent": ("registry.rs", "&& exponent.is_whole()", ""),
    "one-factor-not-at-once": ("registry.rs", "if unit.len() == 1 {", "if false {"),
    "any-scale": ("registry.rs", "if !alike(own, scale(&table.rows, unit)?) {", "if false {"),
    "as-many-factors": ("registry.rs", "unit.len() >= now.unit.len()", "unit.len() > now.unit.len()"),
    "smaller-strictly": ("sums.rs", "if own <= other { a } else { b }", "if own < other { a } else { b }"),
    "sum-with-zero-marked": ("sums.rs", "(true, _) => Ok(b.clone()),", "(true, _) => Ok(fresh(b.value, b.unit.clone())),"),
    "difference-unmarked": ("sums.rs", "Ok(fresh(-b.value, b.unit.clone()))", DIFFERENCE),
    "key-sign-kept": ("tables.rs", "n / divisor * sign", "n / divisor"),
    "key-not-divided": ("tables.rs", "n / divisor * sign", "n * sign"),
    "no-rank-in-order": ("canonical.rs", "table.rows[p.row].rank, ", ""),
    "prefix-number-first": ("canonical.rs", "p.prefix.kind, p.prefix.n", "p.prefix.n, p.prefix.kind"),
    "zeros-stay": ("canonical.rs", "merged.retain(|m| m.exponent != ZERO);", ""),
    "agreement-not-one": ("multiples.rs", "if a == b {", "if false {"),
    "negative-power-of-inverse": ("reduction.rs", "if n < 0 { 1.0 / r }", "if n < 0 { power(1.0 / base, -n) }"),
}

SHORTEST = "let shortest = byte != 0 || weight == 1;"
NO_ROW = "let Some(row) = reader.row() else { break };"
NO_NEXT = "let Ok(next) = admitted_row(&known, &row) else { break };"
NONE = "let most = if count as usize > places { 0 } else { most };"
PLACES = "let most = places.min(ROWS).min(count as usize);"
ADMITTED = "admitted(rows.clone())?;\n    let file"

FILES = {
    "padded-numbers": ("files.rs", SHORTEST, "let shortest = true;"),
    "padded-twice": ("files.rs", SHORTEST, "let shortest = weight != 128 || byte != 0;"),
    "over-32-bits": ("files.rs", "(shortest && n <= MOST)", "shortest"),
    "bytes-behind": ("files.rs", "(reader.at == file.len()).then_some(rows)", "Some(rows)"),
    "any-rank": ("files.rs", "self.up_to(MOST_RANK)? as u16", "self.number()? as u16"),
    "any-kind": ("files.rs", "if self.up_to(1)? == 0 {", "if self.number()? == 0 {"),
    "any-prefix-kind": ("files.rs", "kind: self.up_to(1)?", "kind: self.number()?"),
    "any-length": ("files.rs", "self.up_to(DEF_PLACES as u32)?", "self.number()?"),
    "folded-from-1": ("files.rs", "-(n + 1) / 2", "-(n / 2)"),
    "high-byte-first": ("files.rs", "<< (8 * place)", "<< (56 - 8 * place)"),
    "any-places": ("files.rs", ".filter(|rows| rows.len() <= places)", ""),
    "places-are-128": ("files.rs", "rows.len() <= places)", "rows.len() <= places.min(ROWS))"),
    "not-admitted": ("files.rs", "    admitted(Some(rows.clone()))?;\n", ""),
    "room-first": ("files.rs", ADMITTED, "if room == 0 {\n        return Err(ROOM);\n    }\n    " + ADMITTED),
    "one-byte-more": ("files.rs", "file.len() > room", "file.len() >= room"),
    "base-factor-written": ("files.rs", "if row.kind != 0 {", "if true {"),
    "fault's-byte": ("files.rs", NO_ROW, "let Some(row) = reader.row() else { kept.byte = reader.at; break };"),
    "faulty-row-kept": ("files.rs", NO_NEXT, NO_NEXT.replace("{ break }", "{ kept.rows.push(row); break }")),
    "admission-passed-over": ("files.rs", NO_NEXT, NO_NEXT.replace("{ break }", "{ continue }")),
    "count-too-high-keeps-none": ("files.rs", PLACES, PLACES + NONE),
    "over-128-kept": ("files.rs", PLACES, "let most = places.min(count as usize);"),
    "byte-1-for-no-count": ("files.rs", "byte: 0 }", "byte: 1 }"),
}


# Places of order 2, before which a wrong order puts another step.
NUMERATOR = "    if num.abs() > LIMIT {"
DENOMINATOR = "    if den > LIMIT {\n        return Err(DENOMINATOR);\n    }\n"
LOWEST = "let (num, den) = (num / divisor, den / divisor);"
UNREDUCED = "if num.abs() > LIMIT {\n return Err(RANGE);\n }\n if den.abs() > LIMIT {\n return Err(DENOMINATOR);\n }\n"
BY_BASE_ROW = "    let mut exponents = Vec::new();\n    for rank in reached(rows, parts) {"
UP_TO = "exponent_of(rows, &parts[..=at], rank)?;"
FACTOR_AFTER_FACTOR = "for at in 0..parts.len() { for rank in reached(rows, parts) { " + UP_TO + " } }\n"
FROM_THE_LAST = "for rank in reached(rows, parts).into_iter().rev() { exponent_of(rows, parts, rank)?; }\n"
SUM = "    let mut sum = ZERO;\n    for p in parts {"
PRODUCTS = "for p in parts { p.exponent.times(exponent_at(&rows[p.row].exponents, rank))?; }\n"
ROW_BASE = "base_exponents(known, &parts)?"
KEY_SO_FAR = """{
    let at = |rank: u16| Some((rank, crate::reduction::exponent_of(known, &parts, rank).ok()?));
    let mut some: Exponents = crate::reduction::reached(known, &parts).into_iter().map_while(at).collect();
    some.retain(|(_, e)| e.num != 0);
    key(&some)?;
    base_exponents(known, &parts)?
}"""
MERGING = "    for p in parts {\n        match"
FACTOR_BY_FACTOR = """for first in parts {
    let mut sum = ZERO;
    for p in parts.iter().filter(|p| p.row == first.row && p.prefix == first.prefix) {
        sum = sum.plus(p.exponent)?;
    }
}
"""
FORMS = "(canonical(table, own)?, canonical(table, target)?)"
FORMS_TURNED = "{ let form = canonical(table, target)?; (canonical(table, own)?, form) }"
TARGET_FORM = "canonical(table, target)?"
TARGET_FORM_LATE = "canonical(table, target).or_else(|r| base_exponents(&table.rows, own).and(Err(r)))?"
OWN_BASE = "let own_base = base_exponents(&table.rows, &own_left)?;"
TARGET_LEFT = "let left = canonical(table, &joined(target, &common))?;"
TARGET_BASE = "base_exponents(&table.rows, &left)?;"
COMPARED = "let other = converted(table, b.value, &b.unit, &a.unit)?;"
EQUALLED = "match converted(table, b.value, &b.unit, &a.unit) {"
FIRST_IS_OWN = "same(table, &a.unit, &b.unit)?;"
SCALES = "let (own, other) = (scale_after_base(table, a)?, scale_after_base(table, b)?);"
SHARE = "p.exponent.times(first_exponent(table, p))?.over(divisor)?"
POWERS = "parts.iter().map(|p| Ok(Part { exponent: p.exponent.times(e)?, ..*p })).collect()"
LAST_POWER = "for p in parts.iter().rev() { p.exponent.times(e)?; }"
A_BASE = "let a = base_exponents(&table.rows, a)?;"

HALVES = {
    "range-for-both": ("fractions.rs", "return Err(DENOMINATOR);", "return Err(RANGE);"),
    "denominator-first": ("fractions.rs", NUMERATOR, DENOMINATOR + NUMERATOR),
    "tested-before-lowest-terms": ("fractions.rs", LOWEST, UNREDUCED + LOWEST),
    "common-multiple-as-range": ("tables.rs", "return Err(DENOMINATOR);", "return Err(wire::refusals::RANGE);"),
    "key-before-last-base-exponent": ("tables.rs", ROW_BASE, KEY_SO_FAR),
    "first-factor-decides": ("reduction.rs", BY_BASE_ROW, FACTOR_AFTER_FACTOR + BY_BASE_ROW),
    "highest-base-row-decides": ("reduction.rs", BY_BASE_ROW, FROM_THE_LAST + BY_BASE_ROW),
    "products-before-sums": ("reduction.rs", SUM, PRODUCTS + SUM),
    "merged-factor-by-factor": ("canonical.rs", MERGING, FACTOR_BY_FACTOR + MERGING),
    "merged-from-the-right": ("canonical.rs", MERGING, MERGING.replace("in parts", "in parts.iter().rev()")),
    "target-form-first": ("conversion.rs", FORMS, FORMS_TURNED),
    "own-base-before-target-form": ("conversion.rs", TARGET_FORM, TARGET_FORM_LATE),
    "target-left-before-own-base": ("conversion.rs", OWN_BASE, TARGET_LEFT + OWN_BASE),
    "target-base-before-own-base": ("conversion.rs", OWN_BASE, TARGET_LEFT + TARGET_BASE + OWN_BASE),
    "compare-has-the-first-own": ("sums.rs", COMPARED, FIRST_IS_OWN + COMPARED),
    "equal-has-the-first-own": ("sums.rs", EQUALLED, FIRST_IS_OWN + EQUALLED),
    "denominator-is-unequal": ("sums.rs", "Err(UNITS) => Ok(false)", "Err(UNITS | 13) => Ok(false)"),
    "other's-scale-first": ("sums.rs", SCALES, "scale_after_base(table, b)?;" + SCALES),
    "whole-exponent-as-denominator": ("sums.rs", "return Err(RANGE);", "return Err(13);"),
    "last-factor-of-a-power": ("lists.rs", POWERS, LAST_POWER + POWERS),
    "second-list-before-first": ("multiples.rs", A_BASE, "base_exponents(&table.rows, b)?;" + A_BASE),
    "denominator-leads-on": ("simplification.rs", "Err(UNITS) => Ok(None)", "Err(UNITS | 13) => Ok(None)"),
    "share-divided-first": ("simplification.rs", SHARE, "p.exponent.over(divisor)?.times(first_exponent(table, p))?"),
}

# Of order 3: how the own list is made ready, and the steps around it.
READY = "|left| canonical(table, &left)"
PLACE = "(table.rows[p.row].key.clone(), table.rows[p.row].rank, p.prefix.kind, p.prefix.n)"
SORTED = "|mut left| { left.sort_by_key(|p| " + PLACE + "); Ok(left) }"
IN_GIVEN_ORDER = """|left| {
    let mut merged: Vec<Part> = Vec::new();
    for p in left {
        match merged.iter_mut().find(|m| m.row == p.row && m.prefix == p.prefix) {
            Some(m) => m.exponent = m.exponent.plus(p.exponent)?,
            None => merged.push(p),
        }
    }
    merged.retain(|m| m.exponent.num != 0);
    Ok(merged)
}"""
OWN_LEFT = "let own_left = ready(joined(own, &common))?;"
OWN_GIVEN = "&joined(own, &common)"
TARGET_READY = "let target_left = canonical(table, &joined(target, &common))?;"
COMMON = "negated(&common(&own_form, &target_form))"
POSITIVE = "(true, true) => Some(if own_smaller { own } else { target })"
UNLIKE = "if own_base != base_exponents"
CALLED = "fresh(by_rule(&a.table, q.value, &q.unit, &target)?, target)"
CONVERTED = "use crate::conversion::converted;"

MERGED = {
    "own-not-merged": ("conversion.rs", READY, "Ok"),
    "own-sorted-only": ("conversion.rs", READY, SORTED),
    "own-merged-in-the-given-order": ("conversion.rs", READY, IN_GIVEN_ORDER),
    "own-scale-of-the-list-as-given": ("conversion.rs", OWN_SCALE, OWN_SCALE.replace("&own_left", OWN_GIVEN)),
    "own-base-of-the-list-as-given": ("conversion.rs", OWN_BASE, OWN_BASE.replace("&own_left", OWN_GIVEN)),
    "own-merged-and-target-not": ("conversion.rs", TARGET_READY, "let target_left = joined(target, &common);"),
    "common-out-of-own-alone": ("conversion.rs", TARGET_READY, "let target_left = target_form;"),
    "common-out-of-target-alone": ("conversion.rs", OWN_LEFT, "let own_left = ready(own.to_vec())?;"),
    "common-of-the-lists-as-given": ("conversion.rs", COMMON, "negated(&common(own, target))"),
    "common-is-the-larger": ("conversion.rs", POSITIVE, POSITIVE.replace("own_smaller", "!own_smaller")),
    "own-form-after-target's": ("conversion.rs", FORMS, FORMS_TURNED),
    "own-left-after-target-left": ("conversion.rs", OWN_LEFT, TARGET_LEFT + OWN_LEFT),
    "own-left-after-its-base": ("conversion.rs", OWN_LEFT, f"base_exponents(&table.rows, {OWN_GIVEN})?;" + OWN_LEFT),
    "fraction-before-units": ("conversion.rs", UNLIKE, "scale_counted(&table.rows, &own_left)?;" + UNLIKE),
    "zero-not-kept": ("conversion.rs", " || value == 0.0", ""),
    "divided-before-multiplied": ("conversion.rs", RESULT, "let value = value / target_scale.value * own_scale.value;"),
    "target-in-canonical-order": ("calls.rs", CALLED, CALLED.replace(", target)", ", canonical(&a.table, &target)?)")),
    "mark-not-set": ("calls.rs", CALLED, "Quantity { mark: q.mark, .." + CALLED + "}"),
    "sums-by-order-3": ("sums.rs", CONVERTED, "use crate::conversion::converted_merged as converted;"),
    "simplified-by-order-3": ("simplification.rs", CONVERTED, "use crate::conversion::converted_merged as converted;"),
}

# Of order 4: what is looked at in which order, how runs are made, what a span is.
ARGUED = "    let (knots, rule) = argued(bytes::knots(knots), rule)?;"
NO_TOLERANCE = """    if let (Some(all), Some(rule)) = (bytes::knots(knots), &rule) {
        if (1..=KNOTS).contains(&all.len()) && (1..=DEGREE).contains(&rule.degree) {
            converted(table, &all, &rule.target)?;
        }
    }
"""
BY_SHAPE = "Some(bytes::knots(knots).ok_or(2u32)?)"
EVERY_KNOT = "    for knot in knots {\n        let own"
FROM_THE_LAST_KNOT = """    for knot in knots.iter().rev() {
        let (own, to) = (resolved(&table, Some(knot.unit.clone()))?, resolved(&table, Some(target.clone()))?);
        converted_merged(&table, knot.value(), &own, &to)?;
    }
"""
ALL_LISTS = "    for knot in knots { resolved(&table, Some(knot.unit.clone()))?; }\n"
OWN_LIST = "let own = resolved(&table, Some(knot.unit.clone()))?;"
CONVERTS = "values.push(converted_merged(&table, knot.value(), &own, &target)?);"
LAST_STEPS = "    ordered(&values)?;\n    merged(&values, &rule)"
OF_FIRSTS = "let firsts: Vec<f64> = runs(&values, f64::from_bits(rule.tolerance)).iter().map(|run| run[0]).collect();"
NO_NUMBER = "value.is_nan() || value.is_infinite()"
JOINS = "*value - run[0] <= tolerance"
BY_MERGED = "use crate::conversion::converted_merged;"
RUNS = """    for value in values {
        match runs.last_mut() {
            Some(run) if *value - run[0] <= tolerance => run.push(*value),
            _ => runs.push(vec![*value]),
        }
    }
"""
FROM_THE_HIGHEST = """    for value in values.iter().rev() {
        match runs.last_mut() {
            Some(run) if run[run.len() - 1] - *value <= tolerance => run.insert(0, *value),
            _ => runs.push(vec![*value]),
        }
    }
    runs.reverse();
"""
STANDS = "bits: bits_of(run[0])"
TOO_MANY = "rule.degree as usize + 1"
SPAN_RUNS = "let runs = taken(table, knots, asked.clone().map(|asked| asked.rule))?;"
NO_PLACE = "asked.as_ref().is_some_and(|asked| asked.place as usize + 1 >= knots.len() / 336)"
SPAN_FIRST = "if " + NO_PLACE + " { return Err(ARGUMENT); }\n    " + SPAN_RUNS
NO_MULTIPLE = f".map_err(|r| if r == MULTIPLE && {NO_PLACE} {{ ARGUMENT }} else {{ r }})?;"
IN_ONE_RUN = "if std::ptr::eq(*left, *right) {"
FIRSTS = "let (left, right) = (left[0], right[0]);"
QUOTIENT = "Ok((x - left) / (right - left))"
ENDLESS = "if (right - left).is_infinite() { return Err(ORDER); }\n    "

KNOTS = {
    "argument-after-table": ("knots.rs", ARGUED, "    admitted(bytes::table(table))?;\n" + ARGUED),
    "tolerance-after-conversion": ("knots.rs", ARGUED, NO_TOLERANCE + ARGUED),
    "minus-zero-refused": ("knots.rs", "tolerance < 0.0", "tolerance.is_sign_negative()"),
    "any-tolerance-below-zero": ("knots.rs", " || tolerance < 0.0", ""),
    "infinite-tolerance-taken": ("knots.rs", "tolerance.is_nan() || tolerance.is_infinite() ||", "tolerance.is_nan() ||"),
    "513-knots-taken": ("knots.rs", "KNOTS: usize = 512", "KNOTS: usize = 513"),
    "512-knots-refused": ("knots.rs", "KNOTS: usize = 512", "KNOTS: usize = 511"),
    "degree-10-taken": ("knots.rs", "DEGREE: u32 = 9", "DEGREE: u32 = 10"),
    "length-is-shape": ("knots.rs", ARGUED, ARGUED.replace("bytes::knots(knots)", BY_SHAPE)),
    "by-the-old-rule": ("knots.rs", BY_MERGED, BY_MERGED.replace("converted_merged", "converted as converted_merged")),
    "last-refused-knot": ("knots.rs", EVERY_KNOT, FROM_THE_LAST_KNOT + EVERY_KNOT),
    "all-lists-first": ("knots.rs", EVERY_KNOT, ALL_LISTS + EVERY_KNOT),
    "target-before-the-knot": ("knots.rs", OWN_LIST, "resolved(&table, Some(target.clone()))?;\n        " + OWN_LIST),
    "order-knot-by-knot": ("knots.rs", CONVERTS, CONVERTS + "\n        ordered(&values)?;"),
    "order-after-merging": ("knots.rs", LAST_STEPS, OF_FIRSTS + LAST_STEPS.replace("ordered(&values)", "ordered(&firsts)")),
    "multiple-before-order": ("knots.rs", LAST_STEPS, "merged(&values, &rule)?;\n" + LAST_STEPS),
    "fall-by-equal": ("knots.rs", "pair[1] < pair[0]", "pair[1] <= pair[0]"),
    "nan-let-through": ("knots.rs", NO_NUMBER, "value.is_infinite()"),
    "infinity-let-through": ("knots.rs", NO_NUMBER, "value.is_nan()"),
    "chained-runs": ("knots.rs", JOINS, JOINS.replace("run[0]", "run[run.len() - 1]")),
    "tolerance-strictly": ("knots.rs", JOINS, JOINS.replace("<=", "<")),
    "sum-for-difference": ("knots.rs", JOINS, "*value <= run[0] + tolerance"),
    "from-the-highest": ("knots.rs", RUNS, FROM_THE_HIGHEST),
    "last-stands": ("knots.rs", STANDS, STANDS.replace("run[0]", "run[run.len() - 1]")),
    "minus-zero-stands-as-zero": ("knots.rs", STANDS, STANDS.replace("run[0]", "run[0] + 0.0")),
    "limit-degree": ("knots.rs", TOO_MANY, "rule.degree as usize"),
    "limit-degree-plus-2": ("knots.rs", TOO_MANY, "rule.degree as usize + 2"),
    "span-before-all": ("knots.rs", SPAN_RUNS, SPAN_FIRST),
    "span-before-multiple": ("knots.rs", SPAN_RUNS, SPAN_RUNS.replace("?;", NO_MULTIPLE)),
    "last-knot-has-a-span": ("knots.rs", "of_knots.get(to))", "of_knots.get(to).or(of_knots.get(from)))"),
    "merged-span-is-nan": ("knots.rs", "return Ok(0.0);", "return Ok(f64::NAN);"),
    "merged-span-of-nan": ("knots.rs", IN_ONE_RUN, IN_ONE_RUN.replace(" {", " && !x.is_nan() {")),
    "merged-span-divided": ("knots.rs", IN_ONE_RUN, "if false {"),
    "ends-at-the-knots": ("knots.rs", FIRSTS, "let (left, right) = (runs.concat()[from], runs.concat()[to]);"),
    "quotients-subtracted": ("knots.rs", QUOTIENT, "Ok(x / (right - left) - left / (right - left))"),
    "infinite-divisor-refused": ("knots.rs", QUOTIENT, ENDLESS + QUOTIENT),
}

# Of order 5: where a multiplication is counted, which factors are, what counts 0.
POWERED = "else { r }, count }"
MULTIPLIED = "r *= a;\n            count += 1;"
SQUARED = "a *= a;\n        count += 1;"
BY_FACTOR = "scale.count += prefix.count + raised.count;"
WHOLE = "true => power_counted(base, p.exponent.num),"
EXACTLY_1 = "false if base == 1.0 => Counted { value: 1.0, count: 0 },"
BOTH = "own_scale.count + target_scale.count"
ONCE = "if own_left.starts_with(own) { scale_counted(&table.rows, own)?.count } else { own_scale.count }"
UNMERGED = "scale_counted(&table.rows, &joined(target, &common)).map_or(target_scale.count, |scale| scale.count)"
KEPT = "return Ok(Counted { value, count: 0 });"
RAISED = "[own, target].iter().filter_map(|l| scale_counted(&table.rows, l).ok()).map(|s| s.count).sum()"
BY_01 = "in_steps(table, value, own, target, Ok)"
BY_ORDER_3 = "in_steps(table, value, own, target, |left| canonical(table, &left))"
REFUSED = "Err(refusal) => Answer::refused(number(refusal)),"
A_COUNT = "Err(7) if request.code >= CONVERT_TO_COUNTED => Answer { number: 7, bytes: vec![1; 344] },\n        "
MADE = "record(&fresh(answer.value, target))"


def raised_unless(case):
    return KEPT.replace("count: 0", f"count: if {case} {{ 0 }} else {{ {RAISED} }}")


def counted_by(rule, other):
    return f"{rule}.map(|one| Counted {{ count: {other}.map_or(one.count, |other| other.count), ..one }})"


COUNTED = {
    "inverse-counted": ("reduction.rs", POWERED, POWERED.replace("count }", "count: count + (n < 0) as u32 }")),
    "power-of-0-counts": ("reduction.rs", POWERED, POWERED.replace("count }", "count: count.max(1) }")),
    "minus-one-left-out": ("reduction.rs", POWERED, POWERED.replace("count }", "count: count + (n != 0) as u32 }")),
    "times-1-not-counted": ("reduction.rs", POWERED, POWERED.replace("count }", "count: count - (n != 0) as u32 }")),
    "set-bits-only": ("reduction.rs", SQUARED, "a *= a;"),
    "squares-only": ("reduction.rs", MULTIPLIED, "r *= a;"),
    "prefixes-left-out": ("reduction.rs", BY_FACTOR, "scale.count += raised.count;"),
    "zero's-prefix-left-out": ("reduction.rs", BY_FACTOR, "if p.exponent != ZERO { " + BY_FACTOR + " }"),
    "root's-prefix-left-out": ("reduction.rs", BY_FACTOR, "if p.exponent.is_whole() { " + BY_FACTOR + " }"),
    "root-of-1-counted": ("reduction.rs", EXACTLY_1, "false if base == 1.0 => power_counted(base, p.exponent.num),"),
    "power-of-1-left-out": ("reduction.rs", WHOLE, EXACTLY_1.replace("false", "true") + WHOLE),
    "size-counted": ("reduction.rs", BY_FACTOR, BY_FACTOR + "scale.count += (p.prefix.n != 0) as u32;"),
    "running-product-counted": ("reduction.rs", BY_FACTOR, BY_FACTOR + "scale.count += 1;"),
    "row-scales-counted": ("reduction.rs", BY_FACTOR, BY_FACTOR + "scale.count += rows[p.row].tree as u32 - 1;"),
    "value's-operations-counted": ("conversion.rs", BOTH, BOTH + " + 2"),
    "own-scale-alone": ("conversion.rs", BOTH, "own_scale.count"),
    "target's-scale-alone": ("conversion.rs", BOTH, "target_scale.count"),
    "common-counted-once": ("conversion.rs", BOTH, BOTH.replace("own_scale.count", ONCE)),
    "target-not-merged-for-the-count": ("conversion.rs", BOTH, BOTH.replace("target_scale.count", UNMERGED)),
    "merged-for-both-counts": ("conversion.rs", BY_01, counted_by(BY_01, "counted_merged(table, value, own, target)")),
    "merged-for-neither-count": ("conversion.rs", BY_ORDER_3, counted_by(BY_ORDER_3, "counted(table, value, own, target)")),
    "equal-lists-counted": ("conversion.rs", KEPT, raised_unless("value == 0.0")),
    "zero-counted": ("conversion.rs", KEPT, raised_unless("own_form == target_form")),
    "fraction-with-a-count": ("calls.rs", REFUSED, A_COUNT + REFUSED),
    "the-other-rule": ("calls.rs", "if code == CONVERT_TO_COUNTED {", "if code != CONVERT_TO_COUNTED {"),
    "mark-kept": ("calls.rs", MADE, "record(&Quantity { mark: q.mark, ..fresh(answer.value, target) })"),
    "target-made-canonical": ("calls.rs", MADE, MADE.replace("target", "canonical(&a.table, &target)?")),
    "count-in-a-byte": ("calls.rs", "count: answer.count }", "count: answer.count % 256 }"),
}


def main():
    names = {"list": WRONG, "files": FILES, "halves": HALVES, "merged": MERGED, "knots": KNOTS, "counted": COUNTED}
    if len(sys.argv) == 2:
        print("\n".join(names[sys.argv[1]]))
        return
    name, folder = sys.argv[1], pathlib.Path(sys.argv[2])
    shutil.copytree(HERE / "scope", folder)
    file, old, new = (WRONG | FILES | HALVES | MERGED | KNOTS | COUNTED)[name]
    text = (folder / file).read_text()
    if text.count(old) != 1:
        sys.exit(f"wrong: {name} applies {text.count(old)} times")
    (folder / file).write_text(text.replace(old, new))


main()
