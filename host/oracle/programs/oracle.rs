// Reads the stream of requests from standard input and answers it by the published Rust.
//
//   oracle [--unaltered] [--reading | --beyond] [--any-cost] [--flags] [--standing CODES]
//
// --unaltered gives the Rust's own powi and powf back; --reading answers by 01's rules instead of the Rust, all refusals
// included; --beyond lets the Rust answer too where 01 says RANGE or FRACTION, or 02 DENOMINATOR; --any-cost where its
// trees are large; --flags says on standard error which requests made the Rust raise a scale other than 1 to a fraction;
// --standing takes codes with commas, and every other code is an unknown one.
use std::io::{self, BufReader, BufWriter, Read, Write};
use std::panic::{self, AssertUnwindSafe};

use published::{answers, power};
use wire::refusals::{END, OUTSIDE_COST, OUTSIDE_FRACTION, OUTSIDE_PANIC, OUTSIDE_RANGE};
use wire::stream::{Answer, Next, Request, read_request};

#[derive(Default)]
struct Switches {
    reading: bool,
    beyond: bool,
    any_cost: bool,
    flags: bool,
    standing: Option<Vec<u32>>,
}

impl Switches {
    fn knows(&self, request: &Request) -> bool {
        self.standing.as_ref().is_none_or(|codes| codes.contains(&request.code))
    }
}

/// The Rust's answer, or why there is none.
fn by_the_rust(request: &Request, switches: &Switches) -> Answer {
    match scope::domain::outside(request) {
        None => {}
        Some(OUTSIDE_FRACTION | OUTSIDE_RANGE) if switches.beyond => {}
        Some(OUTSIDE_COST) if switches.any_cost => {}
        Some(number) => return Answer::refused(number),
    }
    panic::catch_unwind(AssertUnwindSafe(|| answers::answer(request)))
        .unwrap_or_else(|_| Answer::refused(OUTSIDE_PANIC))
}

fn run(input: &mut impl Read, output: &mut impl Write, switches: &Switches) -> io::Result<()> {
    for at in 0u64.. {
        let request = match read_request(input)? {
            Next::End => break,
            Next::One(request) if switches.knows(&request) => request,
            _ => return Answer::refused(END).write(output),
        };
        let answer = if switches.reading { scope::calls::answer(&request) } else { by_the_rust(&request, switches) };
        answer.write(output)?;
        if power::fraction_met() && switches.flags {
            eprintln!("request {at}, code {}: a non-whole exponent met a scale other than 1", request.code);
        }
    }
    Ok(())
}

fn codes(list: Option<String>) -> io::Result<Vec<u32>> {
    let parsed = list.and_then(|list| list.split(',').map(|code| code.parse().ok()).collect());
    parsed.ok_or_else(|| io::Error::other("--standing 1,2,.."))
}

fn main() -> io::Result<()> {
    let mut switches = Switches::default();
    let mut arguments = std::env::args().skip(1);
    while let Some(argument) = arguments.next() {
        match argument.as_str() {
            "--unaltered" => power::unaltered(),
            "--reading" => switches.reading = true,
            "--beyond" => switches.beyond = true,
            "--any-cost" => switches.any_cost = true,
            "--flags" => switches.flags = true,
            "--standing" => switches.standing = Some(codes(arguments.next())?),
            other => return Err(io::Error::other(format!("unknown switch {other}"))),
        }
    }
    // A panic of the Rust is an answer of its own, not a message.
    panic::set_hook(Box::new(|_| {}));
    let mut output = BufWriter::new(io::stdout().lock());
    run(&mut BufReader::new(io::stdin().lock()), &mut output, &switches)?;
    output.flush()
}
