// What is timed: for every call one request or more over a table.
use demsharin::bytes::FILE_BYTES;
use wire::bytes::{put_candidate, put_exponent};
use wire::making::{list, over, prefix, quantity};
use wire::records::{Candidate, Exponent};
use wire::stream::Request;

use crate::tables::{Named, Part};

pub struct Case {
    pub what: String,
    pub request: Request,
}

const HOUR: &[Part] = &[("hour", 0, 1)];
const MINUTE: &[Part] = &[("minute", 0, 1)];
const NEWTON: &[Part] = &[("newton", 0, 1)];
const SPEED: &[Part] = &[("metre", 3, 1), ("hour", 0, -1)];
const MILES: &[Part] = &[("mile", 0, 1), ("hour", 0, -1)];
const SLOW: &[Part] = &[("metre", 0, 1), ("second", 0, -1)];
const FORCE: &[Part] = &[("gram", 3, 1), ("metre", 0, 1), ("second", 0, -2)];
const PULL: &[Part] = &[("gram", 3, 1), ("metre", 3, 1), ("hour", 0, -2)];
const PULL_IN_MILES: &[Part] = &[("gram", 3, 1), ("mile", 0, 1), ("hour", 0, -2)];
const WORK: &[Part] = &[("newton", 0, 1), ("hour", 0, 1), ("metre", 3, 1), ("minute", 0, -1)];
const WORK_IN_MILES: &[Part] = &[("newton", 0, 1), ("hour", 0, 1), ("mile", 0, 1), ("minute", 0, -1)];
const TURNED: &[Part] = &[("minute", 0, -1), ("metre", 3, 1), ("newton", 0, 1), ("hour", 0, 1)];

/// Cases over one table.
struct Over<'a>(&'a Named);

impl Over<'_> {
    fn list(&self, parts: &[Part]) -> Vec<u8> {
        list(self.0.list(parts))
    }

    fn of(&self, value: f64, parts: &[Part]) -> Vec<u8> {
        quantity(value, self.0.list(parts))
    }

    fn case<const N: usize>(&self, what: &str, code: u32, arguments: [Vec<u8>; N]) -> Case {
        Case { what: what.to_string(), request: over(&self.0.rows, code, arguments.into()) }
    }

    fn on_lists(&self) -> Vec<Case> {
        vec![
            self.case("4 factors by km/hour", 2, [self.list(WORK), self.list(SPEED)]),
            self.case("4 factors over km/hour", 3, [self.list(WORK), self.list(SPEED)]),
            self.case("km/hour to 3", 4, [self.list(SPEED), exponent(3)]),
            self.case("4 factors", 5, [self.list(WORK)]),
            self.case("4 factors in another order", 6, [self.list(WORK), self.list(TURNED)]),
            self.case("4 factors", 7, [self.list(WORK)]),
            self.case("km/hour and m/s", 19, [self.list(SPEED), self.list(SLOW)]),
            self.case("newton² and kg·m/s²", 20, [self.list(&[("newton", 0, 2)]), self.list(FORCE)]),
        ]
    }

    fn conversions(&self) -> Vec<Case> {
        let mut all = vec![
            self.case("newton", 8, [self.of(3.5, NEWTON)]),
            self.case("4 factors", 8, [self.of(3.5, WORK)]),
            self.case("km/hour to itself", 9, [self.of(6.0, SPEED), self.list(SPEED)]),
            self.case("hour to minute", 9, [self.of(6.0, HOUR), self.list(MINUTE)]),
            self.case("km/hour to m/s", 9, [self.of(6.0, SPEED), self.list(SLOW)]),
            self.case("newton to kg·m/s²", 9, [self.of(6.0, NEWTON), self.list(FORCE)]),
        ];
        if self.0.has("mile") {
            all.push(self.case("km/hour to mile/hour", 9, [self.of(88.0, SPEED), self.list(MILES)]));
        }
        all
    }

    /// Two in which all factors cancel but one.
    fn cancelling(&self) -> Vec<Case> {
        vec![
            self.case("kg·km/hour² to kg·mile/hour²", 9, [self.of(88.0, PULL), self.list(PULL_IN_MILES)]),
            self.case("4 factors, km to mile", 9, [self.of(88.0, WORK), self.list(WORK_IN_MILES)]),
        ]
    }

    /// Sixteen factors on either side, powers and prefixes near their limits: 61 multiplications for each, and 15 to 19.
    fn powers(&self) -> Case {
        let side = |sign: i32| -> Vec<Part> {
            let factor = |at| ("metre", sign * (1023 - at), if at % 2 == 0 { i32::MAX } else { -i32::MAX });
            (0..16).map(factor).collect()
        };
        self.case("16 factors to 16, large powers", 9, [self.of(1.5, &side(1)), self.list(&side(-1))])
    }

    fn arithmetic(&self) -> Vec<Case> {
        vec![
            self.case("hour and minute", 10, [self.of(1.0, HOUR), self.of(30.0, MINUTE)]),
            self.case("km/hour and m/s", 10, [self.of(1.0, SPEED), self.of(30.0, SLOW)]),
            self.case("hour and minute", 11, [self.of(1.0, HOUR), self.of(30.0, MINUTE)]),
            self.case("km/hour by hour", 12, [self.of(1.5, SPEED), self.of(30.0, HOUR)]),
            self.case("km/hour over hour", 13, [self.of(1.5, SPEED), self.of(30.0, HOUR)]),
            self.case("km/hour to 3", 14, [self.of(1.5, SPEED), self.of(3.0, &[])]),
            self.case("km/hour", 15, [self.of(1.5, SPEED)]),
            self.case("km/hour", 16, [self.of(-1.5, SPEED)]),
            self.case("1 hour and 60 minute", 17, [self.of(1.0, HOUR), self.of(60.0, MINUTE)]),
            self.case("km/hour and m/s", 18, [self.of(1.0, SPEED), self.of(60.0, SLOW)]),
        ]
    }

    fn simplification(&self) -> Vec<Case> {
        let three = self.candidates(&[&[("byte", 0, 1)], HOUR, NEWTON]);
        vec![
            self.case("minute·hour", 21, [self.of(2.0, &[("minute", 0, 1), ("hour", 0, 1)])]),
            self.case("4 factors", 21, [self.of(2.0, WORK)]),
            self.case("kg·m/s², 3 candidates", 22, [self.of(2.0, FORCE), three]),
            self.case("km/hour", 23, [self.of(1.5, SPEED)]),
        ]
    }

    fn candidates(&self, lists: &[&[Part]]) -> Vec<u8> {
        let mut out = Vec::new();
        for (rank, parts) in lists.iter().enumerate() {
            put_candidate(&mut out, &Candidate { rank: rank as u16, unit: self.0.list(parts) });
        }
        out
    }

    /// Lists of sixteen factors, for the depth of the stack.
    fn long(&self) -> Vec<Case> {
        let metres: Vec<Part> = (0..16).map(|n| ("metre", n, 1 - 2 * (n % 2))).collect();
        let (long, many) = (self.of(1.5, &metres), self.candidates(&[HOUR; 32]));
        let turned: Vec<Part> = metres.iter().rev().copied().collect();
        vec![
            self.case("", 9, [long.clone(), self.list(&[])]),
            self.case("", 9, [long.clone(), self.list(&turned)]),
            self.case("", 10, [long.clone(), self.of(1.0, &turned)]),
            self.case("", 21, [long.clone()]),
            self.case("", 22, [long, many]),
        ]
    }
}

fn number(n: u32) -> Vec<u8> {
    n.to_le_bytes().to_vec()
}

fn exponent(n: i32) -> Vec<u8> {
    let mut out = Vec::new();
    put_exponent(&mut out, Exponent { num: n, den: 1 });
    out
}

/// prefix_factor has no table.
pub fn prefixes() -> Vec<Case> {
    let case = |what: &str, kind, n| {
        let request = Request { code: 1, arguments: vec![prefix(kind, n)] };
        Case { what: what.to_string(), request }
    };
    vec![case("Metric(3)", 0, 3), case("Metric(-30)", 0, -30), case("Binary(10)", 1, 10), case("Metric(308)", 0, 308)]
}

/// Every call but prefix_factor over one table, in the order of codes.
pub fn all(named: &Named) -> Vec<Case> {
    let over = Over(named);
    let mut all = joined([over.on_lists(), over.conversions(), over.arithmetic(), over.simplification()]);
    all.sort_by_key(|case| case.request.code);
    all
}

/// Conversions for both rules: those of `all`, and two in which more cancels. The table has a mile.
pub fn conversions(named: &Named) -> Vec<Case> {
    let over = Over(named);
    let all = over.conversions().into_iter().filter(|case| case.request.code == 9);
    all.chain(over.cancelling()).collect()
}

/// Conversions for counting: those for both rules, and one of large powers.
pub fn counted(named: &Named) -> Vec<Case> {
    conversions(named).into_iter().chain([Over(named).powers()]).collect()
}

/// The calls on a table's file, behind one that does hardly more than admit the table.
pub fn files(named: &Named) -> Vec<Case> {
    let (over, file) = (Over(named), scope::files::file(&named.rows));
    let (room, places) = (number(FILE_BYTES as u32), number(named.rows.len() as u32));
    let of_file = |code| {
        let request = Request { code, arguments: vec![file.clone(), places.clone()] };
        Case { what: String::new(), request }
    };
    vec![over.case("", 15, [over.of(1.5, SPEED)]), over.case("", 24, [room]), of_file(25), of_file(26)]
}

/// Those that go deepest into the stack.
pub fn deep(named: &Named) -> Vec<Case> {
    joined([prefixes(), all(named), Over(named).long(), files(named)])
}

fn joined<const N: usize>(parts: [Vec<Case>; N]) -> Vec<Case> {
    parts.into_iter().flatten().collect()
}
