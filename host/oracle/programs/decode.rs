// Prints a stream of requests readably, each with its answer where a stream of answers is given.
//
//   decode REQUESTS [ANSWERS] [--from N] [--count N] [--bytes]
//
// --bytes writes the requests themselves instead, as a stream of their own.
use std::fs::File;
use std::io::{self, BufReader, BufWriter, Write};

use wire::stream::{Answer, Next, read_answer, read_request};
use wire::text;

struct Wanted {
    files: Vec<String>,
    from: u64,
    count: u64,
    bytes: bool,
}

fn wanted() -> Option<Wanted> {
    let mut wanted = Wanted { files: Vec::new(), from: 0, count: u64::MAX, bytes: false };
    let mut arguments = std::env::args().skip(1);
    while let Some(argument) = arguments.next() {
        match argument.as_str() {
            "--from" => wanted.from = arguments.next()?.parse().ok()?,
            "--count" => wanted.count = arguments.next()?.parse().ok()?,
            "--bytes" => wanted.bytes = true,
            _ => wanted.files.push(argument),
        }
    }
    (1..=2).contains(&wanted.files.len()).then_some(wanted)
}

fn next_answer(answers: &mut Option<BufReader<File>>) -> io::Result<Option<Answer>> {
    match answers.as_mut().map(read_answer).transpose()? {
        Some(Next::One(answer)) => Ok(Some(answer)),
        _ => Ok(None),
    }
}

fn main() -> io::Result<()> {
    let wanted =
        wanted().ok_or_else(|| io::Error::other("decode REQUESTS [ANSWERS] [--from N] [--count N] [--bytes]"))?;
    let mut requests = BufReader::new(File::open(&wanted.files[0])?);
    let mut answers = wanted.files.get(1).map(File::open).transpose()?.map(BufReader::new);
    let mut output = BufWriter::new(io::stdout().lock());
    for at in 0.. {
        let Next::One(request) = read_request(&mut requests)? else { break };
        let answer = next_answer(&mut answers)?;
        if at < wanted.from || at - wanted.from >= wanted.count {
            continue;
        }
        if wanted.bytes {
            output.write_all(&request.to_bytes())?;
            continue;
        }
        writeln!(output, "request {at}: {}", text::request(&request))?;
        if let Some(answer) = answer {
            writeln!(output, "  -> {}", text::answer(request.code, &answer))?;
        }
    }
    output.flush()
}
