// The `main` of a comparison: over so many of a seed, or the table of what came of several seeds.
use std::io;
use std::process::ExitCode;

/// `held` compares COUNT of a seed and writes its counts to a file, `table` prints such files; both say whether all was
/// alike. `usage` is what the program answers to other words.
pub fn main(
    usage: &str,
    held: impl FnOnce(u64, u64, &str) -> io::Result<bool>,
    table: impl FnOnce(&[String]) -> io::Result<bool>,
) -> io::Result<ExitCode> {
    let given: Vec<String> = std::env::args().skip(1).collect();
    let number = |at: usize| given[at].parse::<u64>().map_err(|_| io::Error::other(usage));
    let alike = match given.first().map(String::as_str) {
        Some("--table") => table(&given[1..])?,
        _ if given.len() == 3 => held(number(0)?, number(1)?, &given[2])?,
        _ => return Err(io::Error::other(usage)),
    };
    Ok(if alike { ExitCode::SUCCESS } else { ExitCode::FAILURE })
}
