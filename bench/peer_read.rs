//! Reads a file of meter volumes again and again, with only std: the tests of the fields and the checksum of `hh_bench
//! read meters`, in one pass over the bytes. It does not know quotes. If there is a fault, it tells neither its row nor
//! its column.
//! Build: rustc -O -C codegen-units=1 peer_read.rs. Usage: peer_read FILE TIMES
use std::time::Instant;

const HEADER: [&[u8]; COLUMNS] = [b"unit", b"date", b"period", b"metered_mwh", b"tlm", b"balancing_mwh"];
const COLUMNS: usize = 6;
const MOST_BYTES: usize = 1_048_576;
const MOST_ROWS: usize = 20_000;
const MOST_VOLUME: i64 = 10_000_000;
const MOST_TLM: i64 = 20_000_000;
const DAYS_BEFORE: [u16; 13] = [0, 31, 59, 90, 120, 151, 181, 212, 243, 273, 304, 334, 365];

type Refusal = &'static str;

struct Row {
    unit: [u8; 16],
    unit_len: usize,
    date: u16,
    period: u8,
    metered: i64,
    tlm: i64,
    balancing: i64,
}

/// The fields of a record, and how many there are. Only the first six are kept.
struct Record<'a> {
    fields: [&'a [u8]; COLUMNS],
    count: usize,
}

impl<'a> Record<'a> {
    fn push(&mut self, field: &'a [u8]) {
        if self.count < COLUMNS {
            self.fields[self.count] = field;
        }
        self.count += 1;
    }
}

/// The record that begins at a place. The place moves to the byte after it. Empty lines are no records.
fn next_record<'a>(bytes: &'a [u8], place: &mut usize) -> Option<Record<'a>> {
    let mut at = *place;
    while at < bytes.len() && matches!(bytes[at], b'\n' | b'\r') {
        at += 1;
    }
    if at == bytes.len() {
        return None;
    }
    let mut record = Record { fields: [b""; COLUMNS], count: 0 };
    let mut begin = at;
    while at < bytes.len() {
        let byte = bytes[at];
        if byte <= b',' {
            if byte == b',' {
                record.push(&bytes[begin..at]);
                begin = at + 1;
            } else if byte == b'\n' || byte == b'\r' {
                break;
            }
        }
        at += 1;
    }
    record.push(&bytes[begin..at]);
    *place = at;
    Some(record)
}

fn unit_of(text: &[u8]) -> Option<([u8; 16], usize)> {
    let mut unit = [0; 16];
    if text.is_empty() || text.len() > unit.len() {
        return None;
    }
    for (place, byte) in text.iter().enumerate() {
        if !matches!(byte, b'A'..=b'Z' | b'0'..=b'9' | b'_' | b'-') {
            return None;
        }
        unit[place] = *byte;
    }
    Some((unit, text.len()))
}

/// The days from 1970-01-01 to a date from 2001-01-01 to 2099-12-31.
fn date_of(text: &[u8]) -> Option<u16> {
    if text.len() != 10 || text[4] != b'-' || text[7] != b'-' {
        return None;
    }
    let digits = |from: usize, to: usize| {
        text[from..to].iter().try_fold(0, |number: u16, byte| byte.is_ascii_digit().then(|| number * 10 + u16::from(byte - b'0')))
    };
    let (year, month, day) = (digits(0, 4)?, digits(5, 7)?, digits(8, 10)?);
    if !(2001..=2099).contains(&year) || !(1..=12).contains(&month) {
        return None;
    }
    let leap = u16::from(year % 4 == 0);
    let before = DAYS_BEFORE[usize::from(month) - 1];
    let length = DAYS_BEFORE[usize::from(month)] - before + if month == 2 { leap } else { 0 };
    if !(1..=length).contains(&day) {
        return None;
    }
    Some((year - 1970) * 365 + (year - 1969) / 4 + before + if month > 2 { leap } else { 0 } + day - 1)
}

/// The units of 10^-decimals that a text writes, from `least` to `most`.
fn units_of(text: &[u8], decimals: u32, least: i64, most: i64) -> Option<i64> {
    let (negative, digits) = match text {
        [b'-', digits @ ..] => (true, digits),
        _ => (false, text),
    };
    let mut units: i64 = 0;
    let mut point = None;
    for (place, byte) in digits.iter().enumerate() {
        match byte {
            b'0'..=b'9' => units = units.checked_mul(10)?.checked_add(i64::from(byte - b'0'))?,
            b'.' if point.is_none() && place > 0 => point = Some(place),
            _ => return None,
        }
    }
    let behind = point.map_or(0, |point| digits.len() - point - 1) as u32;
    if digits.is_empty() || behind > decimals || (point.is_some() && behind == 0) {
        return None;
    }
    let units = units.checked_mul(10_i64.pow(decimals - behind))?;
    let units = if negative { -units } else { units };
    (least <= units && units <= most).then_some(units)
}

fn row_of(fields: &[&[u8]; COLUMNS]) -> Option<Row> {
    let (unit, unit_len) = unit_of(fields[0])?;
    Some(Row {
        unit,
        unit_len,
        date: date_of(fields[1])?,
        period: units_of(fields[2], 0, 1, 50)? as u8,
        metered: units_of(fields[3], 3, -MOST_VOLUME, MOST_VOLUME)?,
        tlm: units_of(fields[4], 7, 0, MOST_TLM)?,
        balancing: units_of(fields[5], 3, -MOST_VOLUME, MOST_VOLUME)?,
    })
}

fn rows_of(bytes: &[u8]) -> Result<Vec<Row>, Refusal> {
    if bytes.len() > MOST_BYTES {
        return Err("10 FileTooLarge");
    }
    let bytes = bytes.strip_prefix(b"\xef\xbb\xbf").unwrap_or(bytes);
    let mut place = 0;
    let header = next_record(bytes, &mut place).ok_or("12 BadHeader")?;
    if header.count != COLUMNS || header.fields != HEADER {
        return Err("12 BadHeader");
    }
    let mut rows = Vec::new();
    while let Some(record) = next_record(bytes, &mut place) {
        if rows.len() == MOST_ROWS {
            return Err("11 TooManyRows");
        }
        if record.count != COLUMNS {
            return Err("13 BadRecord");
        }
        rows.push(row_of(&record.fields).ok_or("14 BadField")?);
    }
    Ok(rows)
}

fn mixed(sum: u64, number: i64) -> u64 {
    let sum = sum.wrapping_mul(1_099_511_628_211);
    sum.wrapping_add(number.unsigned_abs()).wrapping_mul(2).wrapping_add(u64::from(number < 0))
}

fn mixed_row(sum: u64, row: &Row) -> u64 {
    let sum = row.unit[..row.unit_len].iter().fold(sum, |sum, byte| mixed(sum, i64::from(*byte)));
    let numbers = [i64::from(row.date), i64::from(row.period), row.metered, row.tlm, row.balancing];
    numbers.iter().fold(sum, |sum, number| mixed(sum, *number))
}

fn main() {
    let words: Vec<String> = std::env::args().collect();
    let bytes = std::fs::read(&words[1]).unwrap();
    let mut told = String::from("0 0");
    for _ in 0..words[2].parse().unwrap() {
        let begin = Instant::now();
        let read = rows_of(&bytes);
        eprintln!("{}", begin.elapsed().as_nanos());
        told = match read {
            Ok(rows) => format!("{} {}", rows.len(), rows.iter().fold(0, mixed_row)),
            Err(refusal) => format!("refused {refusal}"),
        };
    }
    println!("{told}");
}
