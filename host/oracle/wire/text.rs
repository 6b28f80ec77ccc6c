// Requests and answers as text, for people.
use crate::bytes::{self, u32_at, u64_at};
use crate::calls::{self, Kind};
use crate::records::*;
use crate::refusals;
use crate::stream::{Answer, Request};

pub fn exponent(e: Exponent) -> String {
    if e.den == 1 { format!("{}", e.num) } else { format!("({}/{})", e.num, e.den) }
}

pub fn prefix(p: Prefix) -> String {
    match p.kind {
        0 => format!("Metric({})", p.n),
        1 => format!("Binary({})", p.n),
        kind => format!("Kind{kind}({})", p.n),
    }
}

fn factor(f: &Factor) -> String {
    let before = if f.prefix == METRIC { String::new() } else { prefix(f.prefix) + " " };
    let after = if f.exponent == ONE { String::new() } else { format!("^{}", exponent(f.exponent)) };
    format!("{before}row{}{after}", f.row)
}

pub fn list(l: &List) -> String {
    let over = if l.len as usize > l.factors.len() { format!(" (length {})", l.len) } else { String::new() };
    format!("[{}]{over}", l.factors.iter().map(factor).collect::<Vec<_>>().join(" · "))
}

pub fn value(bits: u64) -> String {
    format!("{:?} (0x{bits:016x})", f64::from_bits(bits))
}

pub fn quantity(q: &Quantity) -> String {
    format!("{} {}{}", value(q.bits), list(&q.unit), if q.mark == 0 { " unmarked" } else { "" })
}

fn counted(c: &Counted) -> String {
    format!("{}, {} multiplications", quantity(&c.quantity), c.count)
}

pub fn row(at: usize, row: &Row) -> String {
    let kind = match row.kind {
        0 if row.len == 0 => "base".to_string(),
        1 => format!("{:?} · {}", f64::from_bits(row.bits), list(&List { len: row.len, factors: row.def.clone() })),
        kind => format!("kind {kind}, definition of {}", row.len),
    };
    format!("  row{at} rank {}: {kind}", row.rank)
}

fn table(b: &[u8]) -> String {
    match bytes::table(b) {
        None => format!("table of {} bytes", b.len()),
        Some(rows) => {
            let lines: Vec<_> = rows.iter().enumerate().map(|(at, r)| row(at, r)).collect();
            format!("table of {} rows\n{}", rows.len(), lines.join("\n"))
        }
    }
}

fn candidates(b: &[u8]) -> String {
    match bytes::candidates(b) {
        None => format!("candidates of {} bytes", b.len()),
        Some(all) => {
            let lines: Vec<_> = all.iter().map(|c| format!("\n  rank {}: {}", c.rank, list(&c.unit))).collect();
            format!("{} candidates{}", all.len(), lines.concat())
        }
    }
}

fn knots(b: &[u8]) -> String {
    match bytes::knots(b) {
        None => format!("knots of {} bytes", b.len()),
        Some(all) => {
            let lines: Vec<_> = all.iter().map(|knot| format!("\n    {}", quantity(knot))).collect();
            format!("{} knots{}", all.len(), lines.concat())
        }
    }
}

fn rule(r: &Rule) -> String {
    format!("to {}, tolerance {}, degree {}", list(&r.target), value(r.tolerance), r.degree)
}

fn span_rule(s: &SpanRule) -> String {
    format!("{}; x {} in the span of knot {}", rule(&s.rule), value(s.x), s.place)
}

fn vector(number: u32, b: &[u8]) -> String {
    let one = |d: Distinct| format!("{} times {}", d.multiplicity, value(d.bits));
    let shown: Vec<String> = bytes::distinct(b).into_iter().map(one).collect();
    format!("{number} distinct: {}", shown.join(", "))
}

/// At most so many bytes of a file are shown.
const SHOWN: usize = 600;

fn file(b: &[u8]) -> String {
    let shown: Vec<String> = b.iter().take(SHOWN).map(|byte| format!("{byte:02x}")).collect();
    let more = if b.len() > SHOWN { " .." } else { "" };
    format!("file of {} bytes: {}{more}", b.len(), shown.join(" "))
}

/// What stands behind the head's two numbers, and these.
fn headed(b: &[u8], show: impl Fn(u32, u32, &[u8]) -> String) -> Option<String> {
    (b.len() >= 8).then(|| show(u32_at(b, 0), u32_at(b, 4), &b[8..]))
}

fn order(n: u32) -> String {
    ["less", "equal", "greater"].get(n as usize).unwrap_or(&"no order").to_string()
}

fn multiple(b: &[u8]) -> String {
    match u32_at(b, 0) {
        0 => "none".to_string(),
        _ => exponent(bytes::exponent(&b[4..12]).unwrap()),
    }
}

/// One argument or answer of a kind; its length where it has the wrong one.
pub fn part(kind: Kind, b: &[u8]) -> String {
    let shown = match kind {
        Kind::Table => Some(table(b)),
        Kind::Candidates => Some(candidates(b)),
        Kind::Prefix => bytes::prefix(b).map(prefix),
        Kind::Exponent => bytes::exponent(b).map(exponent),
        Kind::List => bytes::list(b).map(|l| list(&l)),
        Kind::Quantity => bytes::quantity(b).map(|q| quantity(&q)),
        Kind::Counted => bytes::counted(b).map(|c| counted(&c)),
        Kind::Value => (b.len() == 8).then(|| value(u64_at(b, 0))),
        Kind::YesNo => (b.len() == 4).then(|| if u32_at(b, 0) == 0 { "no" } else { "yes" }.to_string()),
        Kind::Order => (b.len() == 4).then(|| order(u32_at(b, 0))),
        Kind::Multiple => (b.len() == 12).then(|| multiple(b)),
        Kind::File => Some(file(b)),
        Kind::Lent => Some(format!("{} lent", bytes::lent(b))),
        Kind::Knots => Some(knots(b)),
        Kind::Rule => bytes::rule(b).map(|r| rule(&r)),
        Kind::SpanRule => bytes::span_rule(b).map(|s| span_rule(&s)),
        Kind::Written => headed(b, |length, _, rest| format!("{length}: {}", file(rest))),
        Kind::Read => headed(b, |rows, _, rest| format!("{rows}: {}", table(rest))),
        Kind::Salvaged => headed(b, |rows, byte, rest| format!("{rows} kept, byte {byte}: {}", table(rest))),
        Kind::Vector => headed(b, |number, _, rest| vector(number, rest)),
        Kind::Reduced => {
            (b.len() == 332).then(|| format!("{} {}", value(u64_at(b, 0)), list(&bytes::list(&b[8..]).unwrap())))
        }
    };
    shown.unwrap_or_else(|| format!("{kind:?} of {} bytes", b.len()))
}

pub fn request(r: &Request) -> String {
    let Some(call) = calls::of_code(r.code) else { return format!("code {}", r.code) };
    let parts = call.arguments.iter().zip(&r.arguments).map(|(kind, b)| format!("\n  {}", part(*kind, b)));
    format!("{} ({}){}", call.name, r.code, parts.collect::<String>())
}

pub fn answer(code: u32, a: &Answer) -> String {
    match calls::of_code(code) {
        Some(call) if a.number == 0 => part(call.answer, &a.bytes),
        _ => refusals::name(a.number),
    }
}
