//! What rangewalk must write. Standard input has one input of rangewalk to a line, in hexadecimal digits; for each, its
//! output is written and then a line `=`. Headers, tuples and faults are gimli's answers; the form of input and output,
//! which header and tuples are the latest, and the loop of lookup stand here.

mod common;

use common::{fault, narrow, unhex, Record, Table};
use gimli::{
    ArangeEntryIter, ArangeHeader, ArangeHeaderIter, DebugAranges, EndianSlice, Error, Range,
    Reader, ReaderOffset, RelocateReader, RunTimeEndian,
};
use std::io::{BufRead, BufWriter, Write};

/// As much of an input as rangewalk reads.
const MAX_INPUT: usize = 65_536;
const MAX_RECORDS: u64 = 256;

/// gimli calls itself once for each null pair, so a long row of them needs a deep stack.
const STACK: usize = 256 << 20;

/// The part of the input that is not read yet.
struct Input<'a>(&'a [u8]);

impl<'a> Input<'a> {
    fn take(&mut self, len: usize) -> Option<&'a [u8]> {
        let (taken, rest) = self.0.split_at_checked(len)?;
        self.0 = rest;
        Some(taken)
    }

    /// A little-endian number.
    fn number(&mut self, len: usize) -> Option<u64> {
        let bytes = self.take(len)?;
        let from_high = bytes.iter().rev();
        Some(from_high.fold(0, |number, byte| number << 8 | u64::from(*byte)))
    }

    fn record(&mut self) -> Option<Record> {
        Some(Record {
            offset: self.number(8)?,
            kind: self.number(1)? as u8,
            amount: self.number(8)?,
        })
    }
}

/// A section, and where the walk over it is.
struct Walk<R: Reader> {
    section: DebugAranges<R>,
    start: u64,
    headers: ArangeHeaderIter<R>,
    latest: Option<ArangeHeader<R>>,
    tuples: Option<ArangeEntryIter<R>>,
}

impl<R: Reader> Walk<R> {
    fn new(reader: R) -> Self {
        let start = reader.offset_id().0;
        let section = DebugAranges::from(reader);
        Walk {
            headers: section.headers(),
            section,
            start,
            latest: None,
            tuples: None,
        }
    }

    /// The line of an answer that is a thing, nothing, or a fault.
    fn line<T>(&self, answer: gimli::Result<Option<T>>, show: impl Fn(&T) -> String) -> String {
        match answer {
            Ok(Some(thing)) => show(&thing),
            Ok(None) => "-".into(),
            Err(error) => self.fault(error),
        }
    }

    fn fault(&self, error: Error) -> String {
        fault(error, self.start)
    }

    fn next_header(&mut self) -> String {
        let answer = self.headers.next();
        if let Ok(Some(header)) = &answer {
            self.latest = Some(header.clone());
        }
        self.line(answer, |header| {
            let encoding = header.encoding();
            format!(
                "H {} {} {} {} {}",
                header.offset().0.into_u64(),
                encoding.format.word_size(),
                encoding.version,
                encoding.address_size,
                header.debug_info_offset().0.into_u64()
            )
        })
    }

    fn entries(&mut self) -> String {
        match &self.latest {
            Some(header) => {
                self.tuples = Some(header.entries());
                "E".into()
            }
            None => nothing_open(),
        }
    }

    fn next(&mut self) -> String {
        let Some(tuples) = &mut self.tuples else {
            return nothing_open();
        };
        let answer = tuples.next();
        self.line(answer, |tuple| {
            let range = tuple.range();
            format!("N {} {} {}", range.begin, range.end, tuple.length())
        })
    }

    fn next_raw(&mut self) -> String {
        let Some(tuples) = &mut self.tuples else {
            return nothing_open();
        };
        let answer = tuples.next_raw();
        self.line(answer, |tuple| {
            let range = tuple.range();
            assert!(range.begin == tuple.address() && range.end == 0);
            format!("R {} {}", tuple.address(), tuple.length())
        })
    }

    fn lookup(&self, address: u64) -> String {
        let holds = |range: Range| range.begin <= address && address < range.end;
        let mut headers = self.section.headers();
        let mut passed = 0;
        loop {
            let header = match headers.next() {
                Ok(Some(header)) => header,
                Ok(None) => return format!("- {passed}"),
                Err(error) => return self.fault(error),
            };
            let mut tuples = header.entries();
            loop {
                match tuples.next() {
                    Ok(Some(tuple)) if holds(tuple.range()) => {
                        let Range { begin, end } = tuple.range();
                        let info = header.debug_info_offset().0.into_u64();
                        let set = header.offset().0.into_u64();
                        return format!("L {begin} {end} {info} {set} {passed}");
                    }
                    Ok(Some(_)) => {}
                    Ok(None) => break,
                    Err(_) => passed += 1,
                }
            }
        }
    }

    /// The lines of the commands; None if one is unknown or cut short, behind the lines of those before it.
    fn run(mut self, mut commands: Input, lines: &mut Vec<String>) -> Option<()> {
        while !commands.0.is_empty() {
            let line = match commands.take(1)? {
                b"H" => self.next_header(),
                b"E" => self.entries(),
                b"N" => self.next(),
                b"R" => self.next_raw(),
                b"L" => self.lookup(commands.number(8)?),
                _ => return None,
            };
            lines.push(line);
        }
        Some(())
    }
}

fn nothing_open() -> String {
    "! NothingOpen 0".into()
}

/// The lines of an input; None if it is malformed, behind the lines of what was well formed.
fn lines_of(input: &[u8], lines: &mut Vec<String>) -> Option<()> {
    let mut input = Input(&input[..input.len().min(MAX_INPUT)]);
    let kind = input.number(1).filter(|kind| *kind <= 3)?;
    let endian = match input.number(1)? {
        0 => RunTimeEndian::Little,
        1 => RunTimeEndian::Big,
        _ => return None,
    };
    let count = input.number(2).filter(|count| *count <= MAX_RECORDS)?;
    let records = (0..count)
        .map(|_| input.record())
        .collect::<Option<Vec<Record>>>()?;
    let table = Table(&records);
    let length = input.number(4)? as usize;
    let section = input.take(length)?;
    let wide = || {
        assert!(
            usize::BITS == 64,
            "kinds 0 and 2 have offsets of 64 bits, and here usize is shorter"
        );
        EndianSlice::new(section, endian)
    };
    match kind {
        0 => Walk::new(wide()).run(input, lines),
        1 => Walk::new(narrow(section, endian)).run(input, lines),
        2 => Walk::new(RelocateReader::new(wide(), table)).run(input, lines),
        _ => Walk::new(RelocateReader::new(narrow(section, endian), table)).run(input, lines),
    }
}

fn answer_all() -> std::io::Result<()> {
    let mut out = BufWriter::new(std::io::stdout().lock());
    for line in std::io::stdin().lock().lines() {
        let input = unhex(&line?).expect("a line of hexadecimal digits");
        let mut lines = Vec::new();
        if lines_of(&input, &mut lines).is_none() {
            lines.push("?".into());
        }
        lines.push("=".into());
        for line in lines {
            writeln!(out, "{line}")?;
        }
    }
    out.flush()
}

fn main() {
    let worker = std::thread::Builder::new()
        .stack_size(STACK)
        .spawn(answer_all)
        .unwrap();
    match worker.join() {
        Ok(Ok(())) => {}
        Ok(Err(error)) => {
            eprintln!("{error}");
            std::process::exit(1)
        }
        Err(_) => std::process::exit(101),
    }
}
