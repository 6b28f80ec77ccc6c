// One knot from two suppliers, a last place apart or made one by the library's knot vector: the B-splines that
// docs/fold/draw.py draws, and the counts behind them.
//
// One supplier sends the front of a blade section in inches, the other the rest in millimetres, and both send the
// station where they meet. A station is three lengths: the knot, and x and y of the point there. The section is the
// clamped cubic B-spline over the knots through the stations, with the outer secants as tangents at its ends. A knot
// that is there twice has one point, and the tangent of the parabola through it and its neighbours.
//
// Lines of `site`, `control` and `curve` are in metres; a curve's have the knot, the point, the derivative. The rest is
// what is said of them.
use demsharin::{Quantity, Refusal};

#[path = "fold/lengths.rs"]
mod lengths;
#[path = "fold/spellings.rs"]
mod spellings;
#[path = "fold/spline.rs"]
mod spline;

use lengths::Unit::{self, Inch, Millimetre};
use lengths::{Lengths, by_hand, last_place, sent, sent_to_hand};
use spline::{Asked, Condition, Knots, Point, interpolated, point, tangent};

/// The fourth and the fifth are one: 3 inch are 76.2 mm.
const STATIONS: [(Unit, [f64; 3]); 8] = [
    (Inch, [0.0, 14.33, 4.38]),
    (Inch, [1.0, 13.77, 5.2]),
    (Inch, [2.0, 12.97, 5.8]),
    (Inch, [3.0, 12.0, 6.0]),
    (Millimetre, [76.2, 304.8, 152.4]),
    (Millimetre, [102.0, 279.1, 150.2]),
    (Millimetre, [128.0, 254.0, 143.8]),
    (Millimetre, [154.0, 230.0, 133.7]),
];
/// The place of the fourth.
const JOINT: usize = 3;
/// So many points of each span are drawn.
const SAMPLES: u32 = 24;

/// A knot as it arrived, its point in metres, how it was sent.
struct Station {
    knot: Quantity,
    point: Point,
    sent: String,
}

/// The suppliers' readers convert, and the library gets metres.
fn by_hands(lengths: &Lengths) -> Vec<Station> {
    let station = |(unit, values): (Unit, [f64; 3])| {
        let [knot, x, y] = values.map(|value| by_hand(unit, value));
        Station { knot: lengths.metres(knot), point: [x, y], sent: sent_to_hand(unit, values[0]) }
    };
    STATIONS.into_iter().map(station).collect()
}

/// The library converts.
fn by_library(lengths: &Lengths) -> Result<Vec<Station>, Refusal> {
    let station = |(unit, [knot, x, y]): (Unit, [f64; 3])| {
        let metres = |value| lengths.in_metres(&lengths.quantity(unit, value));
        Ok(Station { knot: lengths.quantity(unit, knot), point: [metres(x)?, metres(y)?], sent: sent(unit, knot) })
    };
    STATIONS.into_iter().map(station).collect()
}

/// Stations that the knot vector made one; the first's point stands, as the first's knot does.
struct Site {
    knot: f64,
    point: Point,
    times: u32,
    sent: String,
}

/// A section over the library's knot vector of the stations' knots.
struct Section<'a> {
    sites: Vec<Site>,
    knots: Knots<'a>,
    control: Vec<Point>,
}

fn secant(a: &Site, b: &Site) -> Point {
    [0, 1].map(|axis| (b.point[axis] - a.point[axis]) / (b.knot - a.knot))
}

/// The tangent of the parabola through a site and its neighbours.
fn parabola(sites: &[Site], at: usize) -> Point {
    let (before, own, after) = (&sites[at - 1], &sites[at], &sites[at + 1]);
    let (left, right) = (own.knot - before.knot, after.knot - own.knot);
    let (low, high) = (secant(before, own), secant(own, after));
    [0, 1].map(|axis| (right * low[axis] + left * high[axis]) / (left + right))
}

fn conditions(sites: &[Site]) -> Vec<Condition> {
    let last = sites.len() - 1;
    let tangent = |at: usize, of: Point| Condition { knot: sites[at].knot, asked: Asked::Tangent, of };
    let mut all = vec![tangent(0, secant(&sites[0], &sites[1]))];
    for (at, site) in sites.iter().enumerate() {
        all.push(Condition { knot: site.knot, asked: Asked::Point, of: site.point });
        if site.times == 2 {
            all.push(tangent(at, parabola(sites, at)));
        }
    }
    all.push(tangent(last, secant(&sites[last - 1], &sites[last])));
    all
}

impl Section<'_> {
    fn new<'a>(lengths: &'a Lengths, stations: &[Station], tolerance: f64) -> Result<Section<'a>, Refusal> {
        let arrived: Vec<Quantity> = stations.iter().map(|station| station.knot.clone()).collect();
        let vector = lengths.table.knot_vector(&arrived, &lengths.rule(tolerance))?;
        let (mut sites, mut rest) = (Vec::new(), stations);
        for run in vector.distinct {
            let (own, others) = rest.split_at(run.multiplicity as usize);
            let sent: Vec<&str> = own.iter().map(|station| station.sent.as_str()).collect();
            let site = Site { knot: run.value, point: own[0].point, times: run.multiplicity, sent: sent.join(", ") };
            sites.push(site);
            rest = others;
        }
        let knots = Knots::clamped(lengths, &arrived, tolerance)?;
        let control = interpolated(&knots, &conditions(&sites))?;
        Ok(Section { sites, knots, control })
    }

    /// Where the curve is drawn; between two neighbouring floats there is nothing.
    fn samples(&self) -> Vec<f64> {
        let mut all = vec![self.sites[0].knot];
        for ends in self.sites.windows(2) {
            let (left, right) = (ends[0].knot, ends[1].knot);
            let part = |n| left + (right - left) * f64::from(n) / f64::from(SAMPLES);
            all.extend((1..SAMPLES).map(part).filter(|x| left < *x && *x < right));
            all.push(right);
        }
        all
    }

    fn tangent(&self) -> Result<Point, Refusal> {
        tangent(&self.knots, &self.control, self.sites[JOINT].knot)
    }

    fn print(&self, name: &str) -> Result<(), Refusal> {
        for Site { knot, point: [x, y], times, sent } in &self.sites {
            println!("site {name} {knot} {x} {y} {times} {sent}");
        }
        self.control.iter().for_each(|[x, y]| println!("control {name} {x} {y}"));
        for knot in self.samples() {
            let [x, y] = point(&self.knots, &self.control, knot)?;
            let [dx, dy] = tangent(&self.knots, &self.control, knot)?;
            println!("curve {name} {knot} {x} {y} {dx} {dy}");
        }
        Ok(())
    }
}

/// How far two answers lie apart at most.
fn apart(a: Point, b: Point) -> f64 {
    (a[0] - b[0]).abs().max((a[1] - b[1]).abs())
}

fn said(what: &str, section: &Section) -> Result<(), Refusal> {
    let [dx, dy] = section.tangent()?;
    let Site { knot, times, .. } = section.sites[JOINT];
    println!("{what}: {} knots, {knot} × {times}, tangent ({dx:.3}, {dy:.3})", section.sites.len());
    Ok(())
}

/// The control points of one section over another's knots: how far the curves and their derivatives lie apart at most.
fn evaluated(one: &Section, knots: &Knots) -> Result<(), Refusal> {
    let (mut points, mut tangents) = (0f64, 0f64);
    for x in one.samples() {
        points = points.max(apart(point(&one.knots, &one.control, x)?, point(knots, &one.control, x)?));
        tangents = tangents.max(apart(tangent(&one.knots, &one.control, x)?, tangent(knots, &one.control, x)?));
    }
    println!("its control points over the hands' knots: points within {points:.1e}, tangents within {tangents:.1e}");
    Ok(())
}

fn sections() -> Result<(), Refusal> {
    let (metres, tenths) = (Lengths::over_metres(), Lengths::over_tenths());
    let hand = Section::new(&metres, &by_hands(&metres), 0.0)?;
    let sent = by_library(&metres)?;
    let apart_still = Section::new(&metres, &sent, 0.0)?;
    let place = last_place(apart_still.sites[JOINT].knot);
    let merged = Section::new(&metres, &sent, place)?;
    let exact = Section::new(&tenths, &by_library(&tenths)?, 0.0)?;
    hand.print("hand")?;
    merged.print("merged")?;
    println!("tolerance {place}");
    println!("exact {} {}", exact.sites[JOINT].knot, exact.sites[JOINT].times);

    let [dx, dy] = secant(&hand.sites[JOINT], &hand.sites[JOINT + 1]);
    println!("the secant of the hands' two knots: ({dx}, {dy})");
    said("by hand, within 0", &hand)?;
    said("over metres, within 0", &apart_still)?;
    said("over tenths, within 0", &exact)?;
    said("over metres, within a last place", &merged)?;
    let mut most = 0f64;
    for x in merged.samples() {
        most = most.max(apart(point(&merged.knots, &merged.control, x)?, point(&exact.knots, &exact.control, x)?));
    }
    println!("the last one lies within {most:.1e} metre of the one before");
    evaluated(&merged, &hand.knots)
}

fn main() -> Result<(), Refusal> {
    sections()?;
    assert!(spellings::counted(64)?);
    spellings::counted(100)?;
    Ok(())
}
