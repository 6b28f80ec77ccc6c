// The stream of requests and the stream of answers.
use std::io::{self, Read, Write};

use crate::bytes::put_u32;
use crate::calls::{self, limit};

/// A request: its code and its arguments' bytes, the table first where there is one.
#[derive(Debug, Clone, PartialEq, Eq, Hash)]
pub struct Request {
    pub code: u32,
    pub arguments: Vec<Vec<u8>>,
}

#[derive(Debug, Clone, PartialEq, Eq)]
pub struct Answer {
    pub number: u32,
    pub bytes: Vec<u8>,
}

/// Every answer is shorter.
const LONGEST: u32 = 65_536;

pub enum Next<T> {
    One(T),
    End,
    /// An argument over the limit, a request cut short or an unknown code.
    Broken,
}

impl Answer {
    pub fn refused(number: u32) -> Answer {
        Answer { number, bytes: Vec::new() }
    }

    pub fn given(bytes: Vec<u8>) -> Answer {
        Answer { number: 0, bytes }
    }

    pub fn write(&self, out: &mut impl Write) -> io::Result<()> {
        out.write_all(&self.number.to_le_bytes())?;
        if self.number != crate::refusals::END {
            out.write_all(&(self.bytes.len() as u32).to_le_bytes())?;
            out.write_all(&self.bytes)?;
        }
        Ok(())
    }
}

impl Request {
    pub fn to_bytes(&self) -> Vec<u8> {
        let mut out = Vec::new();
        put_u32(&mut out, self.code);
        for argument in &self.arguments {
            put_u32(&mut out, argument.len() as u32);
            out.extend(argument);
        }
        out
    }
}

/// Fills `buffer`; false if the stream ends first.
fn fill(input: &mut impl Read, buffer: &mut [u8]) -> io::Result<bool> {
    match input.read_exact(buffer) {
        Ok(()) => Ok(true),
        Err(e) if e.kind() == io::ErrorKind::UnexpectedEof => Ok(false),
        Err(e) => Err(e),
    }
}

/// The next number; None if the stream ends before its first byte, Some(None) if within it.
fn number(input: &mut impl Read) -> io::Result<Option<Option<u32>>> {
    let mut first = [0; 1];
    if !fill(input, &mut first)? {
        return Ok(None);
    }
    let mut rest = [0; 3];
    let whole = fill(input, &mut rest)?;
    Ok(Some(whole.then(|| u32::from_le_bytes([first[0], rest[0], rest[1], rest[2]]))))
}

/// So many bytes at most, behind their number.
fn framed(input: &mut impl Read, most: u32) -> io::Result<Option<Vec<u8>>> {
    let Some(Some(len)) = number(input)? else { return Ok(None) };
    if len > most {
        return Ok(None);
    }
    let mut bytes = vec![0; len as usize];
    Ok(fill(input, &mut bytes)?.then_some(bytes))
}

pub fn read_request(input: &mut impl Read) -> io::Result<Next<Request>> {
    let Some(first) = number(input)? else { return Ok(Next::End) };
    let Some((code, call)) = first.and_then(|code| Some((code, calls::of_code(code)?))) else {
        return Ok(Next::Broken);
    };
    let mut arguments = Vec::new();
    for kind in call.arguments {
        let Some(bytes) = framed(input, limit(*kind))? else { return Ok(Next::Broken) };
        arguments.push(bytes);
    }
    Ok(Next::One(Request { code, arguments }))
}

pub fn read_answer(input: &mut impl Read) -> io::Result<Next<Answer>> {
    let Some(first) = number(input)? else { return Ok(Next::End) };
    match first {
        None => Ok(Next::Broken),
        Some(crate::refusals::END) => Ok(Next::One(Answer::refused(crate::refusals::END))),
        Some(number) => match framed(input, LONGEST)? {
            None => Ok(Next::Broken),
            Some(bytes) => Ok(Next::One(Answer { number, bytes })),
        },
    }
}
