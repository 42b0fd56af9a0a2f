//! Single calls on gimli's readers. Standard input has one call to a line, and each is answered by one line; README.md
//! has the forms of both.

mod common;

use common::{fault, narrow, unhex, Record, Table};
use gimli::leb128::write::Leb128;
use gimli::{EndianSlice, Format, Reader, ReaderOffset, RelocateReader, Result, RunTimeEndian};
use std::io::{BufRead, BufWriter, Write};

/// What a call answers: none to two numbers.
type Values = Vec<i128>;

/// A call's name and number.
struct Call<'a> {
    name: &'a str,
    number: Option<u64>,
}

impl<'a> Call<'a> {
    fn of(text: &'a str) -> Option<Self> {
        Some(match text.split_once(':') {
            None => Call {
                name: text,
                number: None,
            },
            Some((name, number)) => Call {
                name,
                number: Some(number.parse().ok()?),
            },
        })
    }

    fn byte(&self) -> Option<u8> {
        self.number?.try_into().ok()
    }

    fn format(&self) -> Option<Format> {
        match self.number? {
            4 => Some(Format::Dwarf32),
            8 => Some(Format::Dwarf64),
            _ => None,
        }
    }

    fn offset<O: ReaderOffset>(&self) -> Option<O> {
        O::from_u64(self.number?).ok()
    }

    /// At most eight: gimli panics above that.
    fn width(&self) -> Option<usize> {
        self.number
            .filter(|width| *width <= 8)
            .map(|width| width as usize)
    }

    /// gimli's answer; None if there is no such call with such a number.
    fn make<R: Reader>(&self, reader: &mut R) -> Option<Result<Values>> {
        Some(match self.name {
            "u8" => one(reader.read_u8()),
            "u16" => one(reader.read_u16()),
            "u32" => one(reader.read_u32()),
            "u64" => one(reader.read_u64()),
            "i8" => one(reader.read_i8()),
            "i16" => one(reader.read_i16()),
            "i32" => one(reader.read_i32()),
            "i64" => one(reader.read_i64()),
            "uint" => one(reader.read_uint(self.width()?)),
            "word" => place(reader.read_word(self.format()?)),
            "length" => place(reader.read_length(self.format()?)),
            "offset" => place(reader.read_offset(self.format()?)),
            "address" => one(reader.read_address(self.byte()?)),
            "sized_offset" => place(reader.read_sized_offset(self.byte()?)),
            "initial_length" => {
                let answer = reader.read_initial_length();
                answer.map(|(length, format)| {
                    vec![length.into_u64().into(), format.word_size().into()]
                })
            }
            "address_size" => one(reader.read_address_size()),
            "uleb" => one(reader.read_uleb128()),
            "uleb32" => one(reader.read_uleb128_u32()),
            "uleb16" => one(reader.read_uleb128_u16()),
            "sleb" => one(reader.read_sleb128()),
            "skip_leb" => none(reader.skip_leb128()),
            "find" => place(reader.find(self.byte()?)),
            "skip" => none(reader.skip(self.offset()?)),
            "truncate" => none(reader.truncate(self.offset()?)),
            "split" => {
                let start = reader.offset_id().0;
                let part = reader.split(self.offset()?);
                part.map(|part| {
                    vec![
                        (part.offset_id().0 - start).into(),
                        part.len().into_u64().into(),
                    ]
                })
            }
            _ => return None,
        })
    }
}

fn none(answer: Result<()>) -> Result<Values> {
    answer.map(|()| vec![])
}

fn one<T: Into<i128>>(answer: Result<T>) -> Result<Values> {
    answer.map(|value| vec![value.into()])
}

fn place<O: ReaderOffset>(answer: Result<O>) -> Result<Values> {
    one(answer.map(|offset| offset.into_u64()))
}

/// The line of a call on a fresh reader.
fn read<R: Reader>(reader: R, call: &Call) -> Option<String> {
    let start = reader.offset_id().0;
    read_on(reader, start, call)
}

/// The line of a call on a reader of a section that begins at the id `start`.
fn read_on<R: Reader>(mut reader: R, start: u64, call: &Call) -> Option<String> {
    let answer = call.make(&mut reader)?;
    Some(answer_line(&reader, start, answer))
}

fn answer_line<R: Reader>(reader: &R, start: u64, answer: Result<Values>) -> String {
    let mut line = match answer {
        Ok(values) => values
            .iter()
            .fold("ok".into(), |line, value| format!("{line} {value}")),
        Err(error) => fault(error, start),
    };
    line.push_str(&format!(" left {}", reader.len().into_u64()));
    line
}

/// The line of a call on a layer of relocation, made some bytes into a reader that is relocated itself.
fn read_layers<R: Reader>(
    section: R,
    lower: &[Record],
    upper: &[Record],
    skip: u64,
    call: &Call,
) -> Option<String> {
    if !matches!(call.name, "address" | "offset" | "sized_offset") {
        return None;
    }
    let start = section.offset_id().0;
    let mut reader = RelocateReader::new(section, Table(lower));
    if let Err(error) = reader.skip(R::Offset::from_u64(skip).ok()?) {
        return Some(answer_line(&reader, start, Err(error)));
    }
    read_on(RelocateReader::new(reader, Table(upper)), start, call)
}

fn order(text: &str) -> Option<RunTimeEndian> {
    match text {
        "0" => Some(RunTimeEndian::Little),
        "1" => Some(RunTimeEndian::Big),
        _ => None,
    }
}

fn bytes(text: &str) -> Option<Vec<u8>> {
    unhex(if text == "-" { "" } else { text })
}

fn records(text: &str) -> Option<Vec<Record>> {
    if text == "-" {
        return Some(vec![]);
    }
    text.split(';').map(record).collect()
}

fn record(text: &str) -> Option<Record> {
    let mut parts = text.split(',');
    let record = Record {
        offset: parts.next()?.parse().ok()?,
        kind: parts.next()?.parse().ok()?,
        amount: parts.next()?.parse().ok()?,
    };
    parts.next().is_none().then_some(record)
}

fn wide(section: &[u8], endian: RunTimeEndian) -> EndianSlice<'_, RunTimeEndian> {
    assert!(
        usize::BITS == 64,
        "kind 0 has offsets of 64 bits, and here usize is shorter"
    );
    EndianSlice::new(section, endian)
}

/// The answer to a line; None if the line is of no form.
fn answer(text: &str) -> Option<String> {
    let words: Vec<&str> = text.split(' ').collect();
    match words[..] {
        ["wu", number] => Some(hex(Leb128::unsigned(number.parse().ok()?).bytes())),
        ["ws", number] => Some(hex(Leb128::signed(number.parse().ok()?).bytes())),
        [kind, endian, section, call] => {
            let (endian, section, call) = (order(endian)?, bytes(section)?, Call::of(call)?);
            match kind {
                "0" => read(wide(&section, endian), &call),
                "1" => read(narrow(&section, endian), &call),
                _ => None,
            }
        }
        ["reloc", kind, endian, section, lower, upper, skip, call] => {
            let (endian, section, call) = (order(endian)?, bytes(section)?, Call::of(call)?);
            let (lower, upper, skip) = (records(lower)?, records(upper)?, skip.parse().ok()?);
            match kind {
                "0" => read_layers(wide(&section, endian), &lower, &upper, skip, &call),
                "1" => read_layers(narrow(&section, endian), &lower, &upper, skip, &call),
                _ => None,
            }
        }
        _ => None,
    }
}

fn hex(bytes: &[u8]) -> String {
    bytes.iter().map(|byte| format!("{byte:02x}")).collect()
}

fn main() -> std::io::Result<()> {
    let mut out = BufWriter::new(std::io::stdout().lock());
    for line in std::io::stdin().lock().lines() {
        let answer = answer(&line?);
        writeln!(out, "{}", answer.as_deref().unwrap_or("bad line"))?;
    }
    out.flush()
}
