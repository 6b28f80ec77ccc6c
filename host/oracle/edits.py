#!/usr/bin/env python3
# Makes the oracle's source from the published files: checks their hashes, then applies the edits below. Each edit says how
# often it must apply or how many lines it must cut, and the program stops at the first that does not.
#
#   edits.py FOLDER_OF_PUBLISHED_FILES FOLDER_TO_WRITE
#
# The edits follow numbat's licence, MIT OR Apache-2.0. What they cut is printing, markup and names as text; what they
# change is 01's power rule at three places, each with the published expression kept in a closure for the switch.
import hashlib
import pathlib
import sys

HERE = pathlib.Path(__file__).parent


class Refused(Exception):
    pass


def published(folder):
    """The published files as lists of lines, each of the hash that published.sha256 has for it."""
    files = {}
    for line in (HERE / "published.sha256").read_text().splitlines():
        digest, name = line.split()
        content = (folder / name).read_bytes()
        if hashlib.sha256(content).hexdigest() != digest:
            raise Refused(f"{name}: not the published file (sha256 differs from published.sha256)")
        files[name] = content.decode().splitlines()
    return files


def swap(lines, old, new, times=1):
    """Puts `new` for each `old`; `old` must stand in exactly `times` lines, once in each."""
    met = [i for i, line in enumerate(lines) if old in line]
    if len(met) != times or any(lines[i].count(old) != 1 for i in met):
        raise Refused(f"{old!r} stands in {len(met)} lines, expected {times}")
    return [line.replace(old, new) for line in lines]


def drop(lines, start, times=1):
    """Drops the lines that begin with `start` (indentation aside), exactly `times` of them."""
    kept = [line for line in lines if not line.lstrip().startswith(start)]
    if len(lines) - len(kept) != times:
        raise Refused(f"{len(lines) - len(kept)} lines begin with {start!r}, expected {times}")
    return kept


def cut(lines, start, size, above=0):
    """Cuts the one item whose first line begins with `start`, to its closing brace, with `above` lines of comment."""
    met = [i for i, line in enumerate(lines) if line.lstrip().startswith(start)]
    if len(met) != 1:
        raise Refused(f"{len(met)} items begin with {start!r}, expected 1")
    first = met[0]
    indent = lines[first][: len(lines[first]) - len(lines[first].lstrip())]
    last = next(i for i in range(first, len(lines)) if lines[i] == indent + "}")
    if last - first + 1 != size:
        raise Refused(f"{start!r} has {last - first + 1} lines, expected {size}")
    if not all(lines[i].lstrip().startswith("//") for i in range(first - above, first)):
        raise Refused(f"the {above} lines above {start!r} are no comment")
    return lines[: first - above] + lines[last + 1 :]


# Each edit: the file, the way, and what the way takes. No error text is needed, so thiserror's derive goes.
EDITS = [
    ("arithmetic.rs", drop, "use compact_str"),
    ("arithmetic.rs", cut, "pub fn pretty_exponent", 23),
    ("number.rs", drop, "use std::fmt::Display"),
    ("number.rs", drop, "use compact_str"),
    ("number.rs", drop, "use pretty_dtoa::FmtFloatConfig"),
    ("number.rs", drop, "use crate::pretty_print"),
    ("number.rs", swap, "{Pow, ToPrimitive}", "Pow"),
    ("number.rs", cut, "fn is_integer", 3),
    ("number.rs", cut, "pub fn pretty_print(self)", 3, 1),
    ("number.rs", cut, "pub fn pretty_print_with(", 3, 1),
    ("number.rs", cut, "pub fn pretty_print_with_dtoa_config(", 73, 2),
    ("number.rs", cut, "impl Display for Number", 5),
    ("number.rs", swap, "self.to_f64().pow(other.to_f64())",
     "crate::power::by_value(self.0, other.0, || self.to_f64().pow(other.to_f64()))"),
    ("prefix.rs", drop, "use compact_str"),
    ("prefix.rs", cut, "pub fn as_string_short", 45),
    ("prefix.rs", cut, "pub fn as_string_long", 45),
    ("prefix.rs", swap, "10.0f64.powi(*exp)", "crate::power::of_prefix(10.0, *exp, || 10.0f64.powi(*exp))"),
    ("prefix.rs", swap, "2.0f64.powi(*exp)", "crate::power::of_prefix(2.0, *exp, || 2.0f64.powi(*exp))"),
    ("unit.rs", swap, "{fmt::Display, ops::Div}", "ops::Div"),
    ("unit.rs", swap, ", pretty_exponent}", "}"),
    ("unit.rs", cut, "impl Display for UnitFactor", 17),
    ("unit.rs", cut, "impl Display for Unit {", 5),
    ("quantity.rs", drop, "use crate::pretty_print"),
    ("quantity.rs", drop, "use compact_str"),
    ("quantity.rs", drop, "use pretty_dtoa::FmtFloatConfig"),
    ("quantity.rs", drop, "use thiserror"),
    ("quantity.rs", swap, "Debug, Error,", "Debug,"),
    ("quantity.rs", drop, "#[error(", 2),
    ("quantity.rs", swap, ".chunk_by(", ".group_by("),
    ("quantity.rs", swap, "self.value.to_f64().powf(exponent_as_scalar)",
     "crate::power::of_quantity(self.value.0, exponent_as_scalar, || self.value.to_f64().powf(exponent_as_scalar))"),
    ("quantity.rs", cut, "pub fn pretty_print(&self)", 3),
    ("quantity.rs", cut, "pub fn pretty_print_with(", 3),
    ("quantity.rs", cut, "fn pretty_print_internal(", 36, 1),
    ("quantity.rs", cut, "pub fn pretty_print_with_precision", 9, 2),
    ("quantity.rs", cut, "pub fn unsafe_value_as_string", 3),
    ("quantity.rs", cut, "impl std::fmt::Display for Quantity", 9),
    ("unit_registry.rs", drop, "use crate::markup"),
    ("unit_registry.rs", drop, "use crate::typed_ast"),
    ("unit_registry.rs", drop, "use thiserror"),
    ("unit_registry.rs", drop, "pub type_: Type"),
    ("unit_registry.rs", drop, "pub readable_type"),
    ("unit_registry.rs", swap, "Clone, Error, Debug", "Clone, Debug"),
    ("unit_registry.rs", drop, "#[error("),
    ("registry.rs", swap, "{collections::HashMap, fmt::Display}", "collections::HashMap"),
    ("registry.rs", drop, "use thiserror"),
    ("registry.rs", swap, ", pretty_exponent}", "}"),
    ("registry.rs", drop, "pretty_print::PrettyPrint"),
    ("registry.rs", drop, "suggestion,"),
    ("registry.rs", swap, "Clone, Error, Debug", "Clone, Debug"),
    ("registry.rs", drop, "#[error(", 2),
    ("registry.rs", cut, "impl Display for BaseRepresentationFactor", 5),
    ("registry.rs", cut, "impl Display for BaseRepresentation {", 9),
    ("registry.rs", cut, "impl PrettyPrint for BaseRepresentation", 9),
    ("registry.rs", cut, "pub fn get_base_representation_for_name", 33),
]


def main():
    source, target = (pathlib.Path(given) for given in sys.argv[1:3])
    files = published(source)
    for name, way, *given in EDITS:
        try:
            files[name] = way(files[name], *given)
        except Refused as reason:
            raise Refused(f"{name}: {reason}")
    target.mkdir(parents=True, exist_ok=True)
    for name, lines in files.items():
        (target / name).write_text("\n".join(lines) + "\n")
    print(f"{len(EDITS)} edits applied to {len(files)} published files")


if __name__ == "__main__":
    try:
        main()
    except Refused as reason:
        sys.exit(f"edits: {reason}")
