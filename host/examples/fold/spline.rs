// A clamped cubic B-spline by the Cox-de Boor recursion over the library's span quotients.
//
// A weight of the recursion, (x - left) / (right - left), reaches over up to three spans, and the library's quotient
// over one: so it is asked of a vector of the two ends alone. These are values of a knot vector, which rise by more
// than the tolerance, so the two merge exactly if they are one value; that gives 0, which is what the recursion takes
// 0/0 for.
use demsharin::{KnotRule, Quantity, Refusal};

use super::lengths::Lengths;

const DEGREE: usize = 3;

pub type Point = [f64; 2];

/// What a curve is to meet at a knot.
pub struct Condition {
    pub knot: f64,
    pub asked: Asked,
    pub of: Point,
}

pub enum Asked {
    Point,
    Tangent,
}

pub struct Knots<'a> {
    lengths: &'a Lengths,
    rule: KnotRule,
    /// The library's full list: each value as often as its knots.
    all: Vec<f64>,
}

impl Knots<'_> {
    /// The knots as they arrived, the first and the last as often as a clamped spline has them.
    pub fn clamped<'a>(lengths: &'a Lengths, arrived: &[Quantity], tolerance: f64) -> Result<Knots<'a>, Refusal> {
        let rule = lengths.rule(tolerance);
        let more = |knot: &Quantity| vec![knot.clone(); DEGREE];
        let clamped = [&more(&arrived[0])[..], arrived, &more(&arrived[arrived.len() - 1])].concat();
        let all = lengths.table.knot_vector(&clamped, &rule)?.knots();
        Ok(Knots { lengths, rule, all })
    }

    /// How many control points a curve has.
    pub fn control_points(&self) -> usize {
        self.all.len() - DEGREE - 1
    }

    fn quotient(&self, left: f64, right: f64, x: f64) -> Result<f64, Refusal> {
        let ends = [left, right].map(|end| self.lengths.metres(end));
        self.lengths.table.span_quotient(&ends, &self.rule, 0, x)
    }

    /// A quotient's slope for each metre; it is a straight line. 0 for a merged span.
    fn slope(&self, left: f64, right: f64) -> Result<f64, Refusal> {
        Ok(self.quotient(left, right, 1.0)? - self.quotient(left, right, 0.0)?)
    }

    /// The functions of degree 0: 1 on the span of x, the last one at the end.
    fn steps(&self, x: f64) -> Vec<f64> {
        let spans = self.all.windows(2).enumerate();
        let own = spans.filter(|(_, ends)| ends[0] < ends[1] && ends[0] <= x).last().map(|(at, _)| at);
        (0..self.all.len() - 1).map(|at| if Some(at) == own { 1.0 } else { 0.0 }).collect()
    }

    /// The B-splines of a degree at x.
    fn functions(&self, degree: usize, x: f64) -> Result<Vec<f64>, Refusal> {
        let (mut below, knots) = (self.steps(x), &self.all);
        for reach in 1..=degree {
            let one = |at: usize| {
                let rising = self.quotient(knots[at], knots[at + reach], x)?;
                let falling = 1.0 - self.quotient(knots[at + 1], knots[at + reach + 1], x)?;
                Ok(rising * below[at] + falling * below[at + 1])
            };
            below = (0..below.len() - 1).map(one).collect::<Result<_, Refusal>>()?;
        }
        Ok(below)
    }

    fn derivatives(&self, x: f64) -> Result<Vec<f64>, Refusal> {
        let (below, knots) = (self.functions(DEGREE - 1, x)?, &self.all);
        let one = |at: usize| {
            let rising = self.slope(knots[at], knots[at + DEGREE])? * below[at];
            let falling = self.slope(knots[at + 1], knots[at + DEGREE + 1])? * below[at + 1];
            Ok(DEGREE as f64 * (rising - falling))
        };
        (0..below.len() - 1).map(one).collect()
    }
}

fn weighed(weights: &[f64], control: &[Point]) -> Point {
    [0, 1].map(|axis| weights.iter().zip(control).map(|(weight, point)| weight * point[axis]).sum())
}

pub fn point(knots: &Knots, control: &[Point], x: f64) -> Result<Point, Refusal> {
    Ok(weighed(&knots.functions(DEGREE, x)?, control))
}

pub fn tangent(knots: &Knots, control: &[Point], x: f64) -> Result<Point, Refusal> {
    Ok(weighed(&knots.derivatives(x)?, control))
}

/// The control points of the curve that meets as many conditions.
pub fn interpolated(knots: &Knots, conditions: &[Condition]) -> Result<Vec<Point>, Refusal> {
    assert_eq!(conditions.len(), knots.control_points());
    let row = |condition: &Condition| {
        let mut row = match condition.asked {
            Asked::Point => knots.functions(DEGREE, condition.knot)?,
            Asked::Tangent => knots.derivatives(condition.knot)?,
        };
        row.extend(condition.of);
        Ok(row)
    };
    Ok(solved(conditions.iter().map(row).collect::<Result<_, Refusal>>()?))
}

/// By elimination, the largest number in a column first. A row ends with its two right sides.
fn solved(mut rows: Vec<Vec<f64>>) -> Vec<Point> {
    let size = rows.len();
    for at in 0..size {
        let largest = (at..size).max_by(|a, b| rows[*a][at].abs().total_cmp(&rows[*b][at].abs()));
        rows.swap(at, largest.expect("a row"));
        let (above, below) = rows.split_at_mut(at + 1);
        for row in below {
            let times = row[at] / above[at][at];
            row.iter_mut().zip(&above[at]).skip(at).for_each(|(number, over)| *number -= times * over);
        }
    }
    let mut control = vec![[0.0; 2]; size];
    for at in (0..size).rev() {
        let known = weighed(&rows[at][at + 1..size], &control[at + 1..]);
        control[at] = [0, 1].map(|axis| (rows[at][size + axis] - known[axis]) / rows[at][at]);
    }
    control
}
