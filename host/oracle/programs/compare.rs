// Compares streams of answers to one stream of requests: counts per call and outcome, first differences decoded.
//
//   compare REQUESTS A [A ..] B [--show N] [--add COUNTS]
//   compare --table COUNTS
//
// B is held against every A. A request that an A calls outside the equality domain is not compared with that A: with one A
// it is counted as outside; with more the first is the Rust's, and the request is counted by B's answer and as outside it.
// --add keeps the counts in a file, added to those it has, and prints differences only; --table prints such a file.
// Ends with 1 if an answer differs or a stream is shorter than another.
mod counts;

use std::fs::File;
use std::io::{self, BufReader, Read};
use std::process::ExitCode;

use counts::{Counts, DIFFERENT, UNJUDGED};
use wire::stream::{Answer, Next, Request, read_answer, read_request};
use wire::{refusals, text};

const USE: &str = "compare REQUESTS A [A ..] B [--show N] [--add COUNTS], or compare --table COUNTS";

struct Wanted {
    files: Vec<String>,
    show: u64,
    add: Option<String>,
    table: Option<String>,
}

fn wanted(mut arguments: impl Iterator<Item = String>) -> Option<Wanted> {
    let mut wanted = Wanted { files: Vec::new(), show: 5, add: None, table: None };
    while let Some(argument) = arguments.next() {
        match argument.as_str() {
            "--show" => wanted.show = arguments.next()?.parse().ok()?,
            "--add" => wanted.add = Some(arguments.next()?),
            "--table" => wanted.table = Some(arguments.next()?),
            _ => wanted.files.push(argument),
        }
    }
    (wanted.files.len() >= 3 || wanted.table.is_some()).then_some(wanted)
}

fn outcome(judges: &[Answer], b: &Answer) -> String {
    let inside: Vec<&Answer> = judges.iter().filter(|a| !refusals::is_outside(a.number)).collect();
    match inside.iter().all(|a| *a == b) {
        _ if inside.is_empty() => refusals::name(judges[0].number),
        true => refusals::name(b.number),
        false => DIFFERENT.to_string(),
    }
}

fn show(at: u64, request: &Request, judges: &[Answer], b: &Answer) {
    println!("difference at request {at}: {}", text::request(request));
    for a in judges {
        println!("  A: {}", text::answer(request.code, a));
    }
    println!("  B: {}", text::answer(request.code, b));
}

/// One answer of each stream, or the place of the stream that has no further one.
fn answers(streams: &mut [impl Read]) -> io::Result<Result<Vec<Answer>, usize>> {
    let mut answers = Vec::new();
    for (at, stream) in streams.iter_mut().enumerate() {
        let Next::One(answer) = read_answer(stream)? else { return Ok(Err(at)) };
        answers.push(answer);
    }
    Ok(Ok(answers))
}

/// After the last request all streams end, or all say that the requests cannot be read on.
fn ends_alike(streams: &mut [impl Read]) -> io::Result<bool> {
    let ends: Vec<Next<Answer>> = streams.iter_mut().map(read_answer).collect::<io::Result<_>>()?;
    let ended = ends.iter().all(|end| matches!(end, Next::End));
    let alike = ended || ends.iter().all(|end| matches!(end, Next::One(a) if a.number == refusals::END));
    if !alike {
        println!("the streams end differently after the last request");
    }
    Ok(alike)
}

/// Counts what is met; false if a stream is shorter than another.
fn compare(files: &[String], most: u64, counts: &mut Counts) -> io::Result<bool> {
    let mut requests = BufReader::new(File::open(&files[0])?);
    let open = |file: &String| File::open(file).map(BufReader::new);
    let mut streams: Vec<BufReader<File>> = files[1..].iter().map(open).collect::<io::Result<_>>()?;
    let mut shown = 0;
    for at in 0.. {
        let Next::One(request) = read_request(&mut requests)? else { break };
        let mut judges = match answers(&mut streams)? {
            Ok(answers) => answers,
            Err(short) => {
                println!("{} has no answer to request {at}: {}", files[1 + short], text::request(&request));
                return Ok(false);
            }
        };
        let b = judges.pop().expect("three files or more");
        let outcome = outcome(&judges, &b);
        if outcome == DIFFERENT && shown < most {
            show(at, &request, &judges, &b);
            shown += 1;
        }
        counts.add(request.code, &outcome, 1);
        if judges.len() > 1 && refusals::is_outside(judges[0].number) {
            counts.add(request.code, UNJUDGED, 1);
        }
    }
    ends_alike(&mut streams)
}

fn alike(wanted: &Wanted) -> io::Result<bool> {
    if let Some(file) = &wanted.table {
        let counts = Counts::read(file)?;
        counts.print_table();
        counts.print_total();
        return Ok(counts.of(DIFFERENT) == 0);
    }
    let mut counts = Counts::default();
    let whole = compare(&wanted.files, wanted.show, &mut counts)?;
    match &wanted.add {
        Some(file) => counts.add_to(file)?,
        None => {
            counts.print();
            counts.print_total();
        }
    }
    Ok(whole && counts.of(DIFFERENT) == 0)
}

fn main() -> io::Result<ExitCode> {
    let wanted = wanted(std::env::args().skip(1)).ok_or_else(|| io::Error::other(USE))?;
    Ok(if alike(&wanted)? { ExitCode::SUCCESS } else { ExitCode::FAILURE })
}
