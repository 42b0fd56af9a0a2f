//! Times our static library, gimli's files and a bare pass over the bytes, on the same sections in turn.

mod sections;

use gimli::{ArangeEntry, DebugAranges, EndianSlice, Reader, RunTimeEndian};
use sections::{Sets, numbers, sets};
use std::hint::black_box;
use std::time::{Duration, Instant};

#[repr(C)]
struct Fault {
    payload: u64,
    number: u8,
}

#[repr(C)]
#[derive(Default)]
struct Found {
    debug_info_offset: u64,
    set: u64,
    begin: u64,
    end: u64,
    passed: u64,
    found: bool,
}

#[repr(C)]
#[derive(Clone, Copy, Default)]
struct Header {
    offset: u64,
    length: u64,
    debug_info_offset: u64,
    next: u64,
    version: u16,
    address_size: u8,
    word_size: u8,
}

#[repr(C)]
#[derive(Default)]
struct Headers {
    count: u64,
    next: u64,
}

#[repr(C)]
#[derive(Clone, Copy, Default)]
struct Range {
    begin: u64,
    end: u64,
}

#[repr(C)]
#[derive(Default)]
struct Ranges {
    count: u64,
    passed: u64,
    debug_info_offset: u64,
    next: u64,
}

#[repr(C)]
#[derive(Default)]
struct Numbers {
    count: u64,
    taken: u64,
}

extern "C" {
    fn mallethill_lookup(section: *const u8, len: usize, big: bool, address: u64, answer: &mut Found) -> Fault;
    fn mallethill_headers(
        section: *const u8,
        len: usize,
        big: bool,
        offset: u64,
        headers: *mut Header,
        headers_len: usize,
        answer: &mut Headers,
    ) -> Fault;
    fn mallethill_ranges(
        section: *const u8,
        len: usize,
        big: bool,
        offset: u64,
        ranges: *mut Range,
        ranges_len: usize,
        answer: &mut Ranges,
    ) -> Fault;
    fn mallethill_uleb128(
        bytes: *const u8,
        len: usize,
        numbers: *mut u64,
        numbers_len: usize,
        answer: &mut Numbers,
    ) -> Fault;
}

/// A section with its byte order, and room for what is read of it.
struct Bench {
    bytes: Vec<u8>,
    big: bool,
    headers: Vec<Header>,
    ranges: Vec<Range>,
    numbers: Vec<u64>,
}

impl Bench {
    fn new(bytes: Vec<u8>, big: bool) -> Self {
        Bench {
            bytes: black_box(bytes),
            big: black_box(big),
            headers: vec![Header::default(); 64],
            ranges: vec![Range::default(); 1024],
            numbers: vec![0; 1024],
        }
    }

    fn endian(&self) -> RunTimeEndian {
        if self.big {
            RunTimeEndian::Big
        } else {
            RunTimeEndian::Little
        }
    }

    fn gimlis(&self) -> DebugAranges<EndianSlice<'_, RunTimeEndian>> {
        DebugAranges::from(EndianSlice::new(&self.bytes, self.endian()))
    }

    /// The headers from an offset on, as many as there is room for; how many, and the offset behind them.
    fn read_headers(&mut self, offset: u64) -> Headers {
        let mut read = Headers::default();
        let (headers, room) = (self.headers.as_mut_ptr(), self.headers.len());
        let fault = unsafe {
            mallethill_headers(self.bytes.as_ptr(), self.bytes.len(), self.big, offset, headers, room, &mut read)
        };
        assert_eq!(fault.number, 0);
        read
    }

    fn headers_ours(&mut self) -> u64 {
        let (mut sum, mut offset) = (0u64, 0);
        while offset < self.bytes.len() as u64 {
            let read = self.read_headers(offset);
            sum = sum.wrapping_add(digest(&self.headers[..read.count as usize]));
            offset = read.next;
        }
        sum
    }

    fn headers_gimli(&mut self) -> u64 {
        let mut sum = 0u64;
        let mut room = std::mem::take(&mut self.headers);
        let mut headers = self.gimlis().headers();
        let mut count = 0;
        while let Some(header) = headers.next().unwrap() {
            let encoding = header.encoding();
            room[count] = Header {
                offset: header.offset().0 as u64,
                length: header.length() as u64,
                debug_info_offset: header.debug_info_offset().0 as u64,
                next: 0,
                version: encoding.version,
                address_size: encoding.address_size,
                word_size: encoding.format.word_size(),
            };
            count += 1;
            if count == room.len() {
                sum = sum.wrapping_add(digest(&room));
                count = 0;
            }
        }
        sum = sum.wrapping_add(digest(&room[..count]));
        self.headers = room;
        sum
    }

    /// The ranges of all sets, each set's into the same room. The answer is made of one of each set.
    fn tuples_ours(&mut self) -> u64 {
        let (mut sum, mut offset) = (0u64, 0);
        while offset < self.bytes.len() as u64 {
            let mut read = Ranges::default();
            let fault = unsafe {
                let (ranges, room) = (self.ranges.as_mut_ptr(), self.ranges.len());
                mallethill_ranges(self.bytes.as_ptr(), self.bytes.len(), self.big, offset, ranges, room, &mut read)
            };
            assert_eq!((fault.number, read.passed), (0, 0));
            sum = sum.wrapping_add(read.count ^ self.ranges[read.count as usize - 1].end ^ read.debug_info_offset);
            offset = read.next;
        }
        sum
    }

    fn tuples_gimli(&mut self) -> u64 {
        let mut sum = 0u64;
        let mut room = std::mem::take(&mut self.ranges);
        let mut headers = self.gimlis().headers();
        while let Some(header) = headers.next().unwrap() {
            let mut entries = header.entries();
            let (mut count, mut passed) = (0, 0u64);
            loop {
                match entries.next() {
                    Ok(Some(entry)) => {
                        let range = entry.range();
                        if let Some(place) = room.get_mut(count) {
                            *place = Range { begin: range.begin, end: range.end };
                        }
                        count += 1;
                    }
                    Ok(None) => break,
                    Err(_) => passed += 1,
                }
            }
            black_box(passed);
            let unit = header.debug_info_offset().0 as u64;
            sum = sum.wrapping_add(count as u64 ^ room[count - 1].end ^ unit);
        }
        self.ranges = room;
        sum
    }

    fn lookup_ours(&mut self, address: u64) -> u64 {
        let mut found = Found::default();
        let fault =
            unsafe { mallethill_lookup(self.bytes.as_ptr(), self.bytes.len(), self.big, address, &mut found) };
        assert_eq!(fault.number, 0);
        assert!(found.found);
        found.set ^ found.debug_info_offset ^ found.end ^ found.passed
    }

    fn lookup_gimli(&mut self, address: u64) -> u64 {
        let mut passed = 0;
        let mut headers = self.gimlis().headers();
        while let Some(header) = headers.next().unwrap() {
            let mut entries = header.entries();
            loop {
                match entries.next() {
                    Ok(Some(entry)) if holds(&entry, address) => {
                        let (set, unit) = (header.offset().0 as u64, header.debug_info_offset().0 as u64);
                        return set ^ unit ^ entry.range().end ^ passed;
                    }
                    Ok(Some(_)) => {}
                    Ok(None) => break,
                    Err(_) => passed += 1,
                }
            }
        }
        panic!("not found");
    }

    /// The numbers of the whole section, into the same room again and again.
    fn numbers_ours(&mut self) -> u64 {
        let (mut sum, mut place) = (0u64, 0);
        while place < self.bytes.len() {
            let rest = &self.bytes[place..];
            let mut read = Numbers::default();
            let fault = unsafe {
                let (numbers, room) = (self.numbers.as_mut_ptr(), self.numbers.len());
                mallethill_uleb128(rest.as_ptr(), rest.len(), numbers, room, &mut read)
            };
            assert_eq!(fault.number, 0);
            sum = sum.wrapping_add(read.count ^ self.numbers[read.count as usize - 1]);
            place += read.taken as usize;
        }
        sum
    }

    fn numbers_gimli(&mut self) -> u64 {
        let mut sum = 0u64;
        let mut reader = EndianSlice::new(&self.bytes, self.endian());
        while !reader.is_empty() {
            let mut count = 0;
            while count < self.numbers.len() && !reader.is_empty() {
                self.numbers[count] = reader.read_uleb128().unwrap();
                count += 1;
            }
            sum = sum.wrapping_add(count as u64 ^ self.numbers[count - 1]);
        }
        sum
    }

    /// A bare pass: the sum of the bytes as words of eight.
    fn bare(&mut self) -> u64 {
        let mut sum = 0u64;
        for word in self.bytes.chunks_exact(8) {
            sum = sum.wrapping_add(u64::from_ne_bytes(word.try_into().unwrap()));
        }
        sum
    }
}

/// Something of each header, so that both sides have to have read them.
fn digest(headers: &[Header]) -> u64 {
    headers.iter().fold(0, |sum, header| sum.wrapping_add(header.offset ^ header.debug_info_offset))
}

fn holds(entry: &ArangeEntry, address: u64) -> bool {
    let range = entry.range();
    range.begin <= address && address < range.end
}

/// The least time that one call took of ours, of gimli's and of the bare pass, which take turns.
fn race(
    bench: &mut Bench,
    patience: Duration,
    ours: impl Fn(&mut Bench) -> u64,
    gimlis: impl Fn(&mut Bench) -> u64,
) -> [Duration; 3] {
    assert_eq!(ours(bench), gimlis(bench), "ours and gimli's answers");
    let mut least = [Duration::MAX; 3];
    // a call of a small section is too short for the clock: many are timed as one
    let many = (1 << 16) / bench.bytes.len() as u32 + 1;
    let start = Instant::now();
    while start.elapsed() < patience {
        for (place, call) in [&ours as &dyn Fn(&mut Bench) -> u64, &gimlis, &Bench::bare].into_iter().enumerate() {
            let begin = Instant::now();
            for _ in 0..many {
                black_box(call(black_box(bench)));
            }
            least[place] = least[place].min(begin.elapsed() / many);
        }
    }
    least
}

/// Runs one race and prints its line: the section's bytes, how many things were read, and the nanoseconds for each.
fn line(
    name: &str,
    bench: &mut Bench,
    count: usize,
    patience: Duration,
    ours: impl Fn(&mut Bench) -> u64,
    gimlis: impl Fn(&mut Bench) -> u64,
) {
    let [ours, gimlis, bare] = race(bench, patience, ours, gimlis).map(|time| time.as_secs_f64() * 1e9 / count as f64);
    println!("{name}|{} {count} {ours} {gimlis} {bare}", bench.bytes.len());
}

const SHORT: usize = 2;
const LONG: usize = 1000;

fn main() {
    let patience = Duration::from_millis(std::env::args().nth(1).map_or(400, |arg| arg.parse().unwrap()));
    let run = |kind: &str, len: usize, shape: &Sets| {
        let (bytes, sets, tuples, last) = sets(len, shape);
        let mut bench = Bench::new(bytes, shape.big);
        let name = format!("{kind}, {shape}");
        match kind {
            "headers" => line(&name, &mut bench, sets, patience, Bench::headers_ours, Bench::headers_gimli),
            "tuples" => line(&name, &mut bench, tuples, patience, Bench::tuples_ours, Bench::tuples_gimli),
            _ => line(&name, &mut bench, tuples, patience, |b| b.lookup_ours(last), |b| b.lookup_gimli(last)),
        }
    };

    println!("\nBy size of the section");
    let lengths = (0..9).map(|power| 1024usize << (2 * power));
    for len in lengths.clone() {
        run("headers", len, &Sets { size: 8, tuples: SHORT, big: false });
    }
    for len in lengths.clone() {
        run("tuples", len, &Sets { size: 8, tuples: LONG.min(len / 20), big: false });
    }
    for len in lengths.clone() {
        run("lookup", len, &Sets { size: 8, tuples: SHORT, big: false });
    }
    println!("\nBy shape of the sets");
    for kind in ["headers", "tuples", "lookup"] {
        for tuples in [SHORT, LONG] {
            for (size, big) in [(4, false), (4, true), (8, false), (8, true)] {
                run(kind, 1 << 16, &Sets { size, tuples, big });
            }
        }
    }
    println!("\nUnsigned LEB128 numbers, by size and by their bits");
    let run = |len: usize, bits: std::ops::RangeInclusive<u32>| {
        let name = format!("numbers of {} to {} bits", bits.start(), bits.end());
        let (bytes, count) = numbers(len, bits);
        let mut bench = Bench::new(bytes, false);
        line(&name, &mut bench, count, patience, Bench::numbers_ours, Bench::numbers_gimli);
    };
    for len in lengths {
        run(len, 1..=7);
    }
    for bits in [8..=14, 15..=21, 29..=35, 64..=64, 1..=16, 1..=32, 1..=64] {
        run(1 << 16, bits);
    }
}
