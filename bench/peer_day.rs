//! Runs the `load` lines of a script of `settle script` in memory, with only std, and prints the same bytes for good
//! input: the speed to come close to. It checks nothing. It assumes that lines and rows are accepted, and that files
//! are plain (LF, no quotes, no mark, no empty line). Of an accepted file it keeps the kind and the name, not the
//! bytes.
//! Build: rustc -O -C codegen-units=1 peer_day.rs. Usage: peer_day SCRIPT. The lead is 60 minutes.
#![allow(dead_code)] // (what is in force is kept as a run would read it, and nothing here does)
use std::collections::HashMap;
use std::convert::TryInto;
use std::hash::{BuildHasherDefault, Hasher};
use std::io::{Read, Write};

const MOST: usize = 50;
const LEAD: i64 = 3600;

// ---------------------------------------------------------------- names

/// A text of at most 24 bytes, filled up with zeros.
#[derive(Clone, Copy, PartialEq, Eq, Hash)]
struct Key(u64, u64, u64);

#[derive(Default)]
struct Fold(u64);

impl Hasher for Fold {
    fn write(&mut self, bytes: &[u8]) {
        for b in bytes {
            self.write_u64(u64::from(*b));
        }
    }
    fn write_u64(&mut self, word: u64) {
        let product = u128::from(self.0 ^ word) * 0x9e37_79b9_7f4a_7c15;
        self.0 = product as u64 ^ (product >> 64) as u64;
    }
    fn finish(&self) -> u64 {
        self.0
    }
}

type Ids = HashMap<Key, u32, BuildHasherDefault<Fold>>;

fn key(text: &[u8]) -> Key {
    let mut bytes = [0; 24];
    bytes[..text.len()].copy_from_slice(text);
    Key(word(&bytes, 0), word(&bytes, 8), word(&bytes, 16))
}

// ---------------------------------------------------------------- reading; texts are ASCII, with 32 bytes more

const ONES: u64 = 0x0101_0101_0101_0101;
const HIGHS: u64 = 0x8080_8080_8080_8080;
const ZEROS: u64 = 0x3030_3030_3030_3030;
const TENS: [u64; 8] = [1, 10, 100, 1000, 10_000, 100_000, 1_000_000, 10_000_000];

#[inline(always)]
fn word(window: &[u8], at: usize) -> u64 {
    u64::from_le_bytes(window[at..at + 8].try_into().unwrap())
}

#[inline(always)]
fn window(data: &[u8], at: u32) -> &[u8; 32] {
    let at = at as usize;
    data[at..at + 32].try_into().unwrap()
}

/// The number of bits before the first comma in eight bytes, or 64.
#[inline(always)]
fn comma(word: u64) -> u32 {
    let other = word ^ ONES * b',' as u64;
    (other.wrapping_sub(ONES) & !other & HIGHS).trailing_zeros() & !7
}

/// The field at `at`, and the place after its comma.
#[inline(always)]
fn name(data: &[u8], at: u32) -> (Key, u32) {
    let window = window(data, at);
    let cut = |word: u64, bits: u32| word & ((1 << bits) - 1);
    let (first, second) = (word(window, 0), word(window, 8));
    let bits = comma(first);
    if bits < 64 {
        return (Key(cut(first, bits), 0, 0), at + bits / 8 + 1);
    }
    let bits = comma(second);
    if bits < 64 {
        return (Key(first, cut(second, bits), 0), at + bits / 8 + 9);
    }
    let third = word(window, 16);
    let bits = comma(third);
    (Key(first, second, cut(third, bits & 63)), at + bits / 8 + 17)
}

/// The place after the comma of the field at `at`.
#[inline(always)]
fn skip(data: &[u8], mut at: u32) -> u32 {
    loop {
        let bits = comma(word(window(data, at), 0));
        if bits < 64 {
            return at + bits / 8 + 1;
        }
        at += 8;
    }
}

/// The number whose digits' values are in eight bytes, the first digit in the lowest byte.
#[inline(always)]
fn eight(values: u64) -> u64 {
    let pairs = values.wrapping_mul(10).wrapping_add(values >> 8);
    let low = (pairs & 0x0000_00ff_0000_00ff).wrapping_mul(0x000f_4240_0000_0064);
    let high = (pairs >> 16 & 0x0000_00ff_0000_00ff).wrapping_mul(0x0000_2710_0000_0001);
    low.wrapping_add(high) >> 32
}

/// The values of eight bytes as digits, and a high bit in each byte that is no digit.
#[inline(always)]
fn digits(word: u64) -> (u64, u64) {
    let values = word ^ ZEROS;
    (values, values.wrapping_add(ONES * 0x76) & HIGHS)
}

/// The number at `at` times 10^D, and the place after the mark that ends it.
#[inline(always)]
fn fixed<const D: u32>(data: &[u8], at: u32) -> (i64, u32) {
    let window = window(data, at);
    let negative = window[0] == b'-';
    let (values, marks) = digits(word(window, usize::from(negative)));
    if marks == 0 {
        return fixed_long::<D>(data, at);
    }
    let first = marks.trailing_zeros() & 56;
    let later = marks & (marks - 1);
    let (value, size);
    if values >> first & 0xff != u64::from(b'.' ^ b'0') {
        value = eight(values << (64 - first)) * TENS[D as usize];
        size = first / 8;
    } else if later != 0 {
        // The digits before the point move up to those after it.
        let (second, front) = (later.trailing_zeros() & 56, marks ^ (marks - 1));
        let joined = values << 8 & front | values & !front;
        value = eight(joined << (64 - second)) * TENS[(D + 1 - (second - first) / 8) as usize & 7];
        size = second / 8;
    } else {
        let whole = if first == 8 { values & 0xff } else { eight(values << (64 - first)) };
        let (values, marks) = digits(word(window, usize::from(negative) + first as usize / 8 + 1));
        let bits = marks.trailing_zeros() & 56;
        value = whole * TENS[D as usize] + eight((values & ((1 << bits) - 1)) << (64 - 8 * D));
        size = first / 8 + 1 + bits / 8;
    }
    (if negative { -(value as i64) } else { value as i64 }, at + u32::from(negative) + size + 1)
}

/// The same for a number that begins with unneeded zeros.
#[cold]
fn fixed_long<const D: u32>(data: &[u8], at: u32) -> (i64, u32) {
    let rest = &data[at as usize..];
    let size = rest.iter().position(|b| *b == b',' || *b == b'\n').unwrap();
    let text = std::str::from_utf8(&rest[..size]).unwrap();
    let mut parts = text.trim_start_matches('-').splitn(2, '.');
    let whole: i64 = parts.next().unwrap().parse().unwrap();
    let part = format!("{:0<1$}", parts.next().unwrap_or(""), D as usize);
    let value = whole * 10i64.pow(D) + part.parse::<i64>().unwrap_or(0);
    (if text.starts_with('-') { -value } else { value }, at + size as u32 + 1)
}

fn number(text: &[u8]) -> i64 {
    std::str::from_utf8(text).unwrap().parse().unwrap()
}

fn read_file<'a>(path: &str, buffer: &'a mut Vec<u8>) -> &'a [u8] {
    buffer.clear();
    std::fs::File::open(path).unwrap().read_to_end(buffer).unwrap();
    if buffer.last() != Some(&b'\n') {
        buffer.push(b'\n');
    }
    let size = buffer.len();
    buffer.resize(size + 32, 0);
    let header = buffer.iter().position(|b| *b == b'\n').unwrap() + 1;
    &buffer[header..]
}

// ---------------------------------------------------------------- days

fn days_before(year: i64, month: i64, day: i64) -> i64 {
    let (year, month) = if month > 2 { (year, month - 3) } else { (year - 1, month + 9) };
    365 * year + year / 4 - year / 100 + year / 400 + (153 * month + 2) / 5 + day - 719_469
}

fn date(text: &[u8]) -> i64 {
    days_before(number(&text[..4]), number(&text[5..7]), number(&text[8..10]))
}

fn end_date(text: &[u8]) -> i64 {
    if text.is_empty() { days_before(2099, 12, 31) } else { date(text) }
}

/// The second of local midnight, by GMT0BST,M3.5.0/1,M10.5.0.
fn start(text: &[u8], day: i64) -> i64 {
    let change = |month| {
        let last = days_before(number(&text[..4]), month, 31);
        last - (last + 4) % 7
    };
    day * 86_400 - if change(3) < day && day <= change(10) { 3600 } else { 0 }
}

fn period_count(text: &[u8], day: i64) -> usize {
    // The changes are in March and October, so it does not matter if the next day is in another year.
    ((start(text, day + 1) - start(text, day)) / 1800) as usize
}

// ---------------------------------------------------------------- the office

#[derive(Clone, Copy, Default, PartialEq)]
struct Meter {
    metered: i32,
    tlm: i32,
    balancing: i32,
}

struct Move {
    account: u32,
    rows: [(i32, i32); MOST],
}

struct Unit {
    leads: Vec<(i64, u32)>, // by the first day of each
    weighs: bool,
    range: (i64, i64),
}

struct Party {
    text: Vec<u8>,
    range: (i64, i64),
}

/// What is in force for a date. Lists are by period, then by unit or account.
struct Day {
    number: i64,
    text: [u8; 10],
    start: i64,
    count: usize,
    prices: [i64; MOST],
    meters: Vec<Vec<Meter>>,
    sold: Vec<Vec<i64>>,
    contracts: Vec<Option<Box<[i32; MOST]>>>, // by reference
    moves: Vec<Vec<Move>>,                    // by unit
    touched: [bool; MOST], // changed in value since a run
}

#[derive(Default)]
struct Office {
    parties: Vec<Party>,
    party_ids: Ids,
    account_ids: Ids,
    names: Vec<([u8; 12], usize)>, // of accounts, with their lengths
    units: Vec<Unit>,
    unit_ids: Ids,
    unit_keys: Vec<Key>,
    references: Vec<(u32, u32)>,
    reference_ids: Ids,
    days: Vec<Day>,
    day_ids: HashMap<[u8; 10], usize>,
    files: HashMap<(Vec<u8>, Vec<u8>), (usize, usize)>,
}

/// The date of the last row: its text, its place in `days`, and its latest late period.
#[derive(Clone, Copy)]
struct Memo {
    moment: i64,
    text: [u8; 10],
    day: usize,
    late: usize,
}

fn widened(old: Option<(i64, i64)>, new: (i64, i64)) -> (i64, i64) {
    old.map_or(new, |old| (old.0.min(new.0), old.1.max(new.1)))
}

impl Office {
    fn day(&mut self, text: [u8; 10]) -> usize {
        let (units, accounts) = (self.units.len(), self.names.len());
        let days = &mut self.days;
        let at = *self.day_ids.entry(text).or_insert_with(|| {
            let number = date(&text);
            days.push(Day {
                number,
                text,
                start: start(&text, number),
                count: period_count(&text, number),
                prices: [0; MOST],
                meters: vec![Vec::new(); MOST],
                sold: vec![Vec::new(); MOST],
                contracts: Vec::new(),
                moves: Vec::new(),
                touched: [true; MOST],
            });
            days.len() - 1
        });
        let day = &mut days[at];
        for period in 0..day.count {
            day.meters[period].resize(units, Meter::default());
            day.sold[period].resize(accounts, 0);
        }
        day.moves.resize_with(units, Vec::new);
        at
    }

    /// Reads the date and the period at `at`.
    #[inline(always)]
    fn date_and_period(&mut self, data: &[u8], at: u32, memo: &mut Memo) -> (usize, u32) {
        let head = window(data, at);
        let text: [u8; 10] = head[..10].try_into().unwrap();
        if text != memo.text {
            self.turn(text, memo);
        }
        let digit = |n: usize| usize::from(head[n] & 15);
        if head[12] == b',' {
            return (digit(11) - 1, at + 13);
        }
        if head[13] == b',' {
            return (10 * digit(11) + digit(12) - 1, at + 14);
        }
        let (period, at) = fixed::<0>(data, at + 11);
        (period as usize - 1, at)
    }

    #[cold]
    fn turn(&mut self, text: [u8; 10], memo: &mut Memo) {
        memo.text = text;
        memo.day = self.day(text);
        let since = memo.moment.saturating_sub(self.days[memo.day].start - LEAD);
        memo.late = if since < 0 { 0 } else { (since / 1800 + 1).min(MOST as i64) as usize };
    }

    /// The unit at `at`. Files often list units in the same order in each period, or one unit after the other.
    #[inline(always)]
    fn unit(&self, data: &[u8], at: u32, last: &mut usize) -> u32 {
        let (key, at) = name(data, at);
        if self.unit_keys.get(*last + 1) == Some(&key) {
            *last += 1;
        } else if self.unit_keys[*last] != key {
            *last = self.unit_ids[&key] as usize;
        }
        at
    }

    fn load_parties(&mut self, data: &[u8]) -> usize {
        let mut rows = 0;
        for line in data.split(|b| *b == b'\n').take_while(|line| line.first().is_some_and(|b| *b != 0)) {
            rows += 1;
            let mut fields = line.split(|b| *b == b',');
            let text = fields.next().unwrap();
            let range = (date(fields.next().unwrap()), end_date(fields.next().unwrap()));
            let id = *self.party_ids.entry(key(text)).or_insert(self.parties.len() as u32);
            if let Some(party) = self.parties.get_mut(id as usize) {
                party.range = widened(Some(party.range), range);
                continue;
            }
            for side in [b"-P", b"-C"] {
                let account = [text, side].concat();
                let mut padded = [b' '; 12];
                padded[..account.len()].copy_from_slice(&account);
                self.account_ids.insert(key(&account), self.names.len() as u32);
                self.names.push((padded, account.len()));
            }
            self.parties.push(Party { text: text.to_vec(), range });
        }
        rows
    }

    fn load_units(&mut self, data: &[u8]) -> usize {
        let mut rows = 0;
        for line in data.split(|b| *b == b'\n').take_while(|line| line.first().is_some_and(|b| *b != 0)) {
            rows += 1;
            let mut fields = line.split(|b| *b == b',');
            let mut field = || fields.next().unwrap();
            let unit = key(field());
            let lead = 2 * self.party_ids[&key(field())] + u32::from(field() == b"C");
            let weighs = field() == b"no";
            let range = (date(field()), end_date(field()));
            let id = *self.unit_ids.entry(unit).or_insert(self.units.len() as u32);
            if let Some(unit) = self.units.get_mut(id as usize) {
                unit.range = widened(Some(unit.range), range);
                match unit.leads.last_mut() {
                    Some(last) if last.1 == lead => last.0 = last.0.min(range.0),
                    _ => {
                        unit.leads.push((range.0, lead));
                        for day in self.days.iter_mut().filter(|day| range.0 <= day.number && day.number <= range.1) {
                            day.touched = [true; MOST];
                        }
                    }
                }
                continue;
            }
            self.units.push(Unit { leads: vec![(range.0, lead)], weighs, range });
            self.unit_keys.push(unit);
        }
        rows
    }

    fn load_meters(&mut self, data: &[u8], memo: &mut Memo) -> usize {
        let (mut at, mut rows, mut unit) = (0, 0, 0);
        while data[at as usize] != 0 {
            let period;
            at = self.unit(data, at, &mut unit);
            (period, at) = self.date_and_period(data, at, memo);
            let (metered, tlm, balancing);
            (metered, at) = fixed::<3>(data, at);
            (tlm, at) = fixed::<7>(data, at);
            (balancing, at) = fixed::<3>(data, at);
            let day = &mut self.days[memo.day];
            let meter = Meter { metered: metered as i32, tlm: tlm as i32, balancing: balancing as i32 };
            let known = &mut day.meters[period][unit];
            day.touched[period] |= *known != meter;
            *known = meter;
            rows += 1;
        }
        rows
    }

    fn load_prices(&mut self, data: &[u8], memo: &mut Memo) -> usize {
        let (mut at, mut rows) = (0, 0);
        while data[at as usize] != 0 {
            let (period, price);
            (period, at) = self.date_and_period(data, at, memo);
            (price, at) = fixed::<5>(data, at);
            let day = &mut self.days[memo.day];
            day.touched[period] |= day.prices[period] != price;
            day.prices[period] = price;
            rows += 1;
        }
        rows
    }

    fn load_contracts(&mut self, data: &[u8], memo: &mut Memo) -> (usize, usize) {
        let (mut at, mut rows, mut late) = (0, 0, 0);
        let mut last = (key(b""), 0);
        while data[at as usize] != 0 {
            rows += 1;
            let (reference, period, kwh);
            (reference, at) = name(data, at);
            if reference != last.0 {
                let next = self.references.len() as u32;
                last = (reference, *self.reference_ids.entry(reference).or_insert(next) as usize);
                if last.1 == self.references.len() {
                    let (seller, after) = name(data, at);
                    let (buyer, _) = name(data, after);
                    self.references.push((self.account_ids[&seller], self.account_ids[&buyer]));
                }
            }
            at = skip(data, skip(data, at));
            (period, at) = self.date_and_period(data, at, memo);
            (kwh, at) = fixed::<3>(data, at);
            if period < memo.late {
                late += 1;
                continue;
            }
            let day = &mut self.days[memo.day];
            if day.contracts.len() <= last.1 {
                day.contracts.resize_with(last.1 + 1, || None);
            }
            let volume = &mut day.contracts[last.1].get_or_insert_with(|| Box::new([0; MOST]))[period];
            let more = kwh - i64::from(*volume);
            *volume = kwh as i32;
            let (seller, buyer) = self.references[last.1];
            day.sold[period][seller as usize] += more;
            day.sold[period][buyer as usize] -= more;
            day.touched[period] |= more != 0;
        }
        (rows - late, late)
    }

    fn load_reallocations(&mut self, data: &[u8], memo: &mut Memo) -> (usize, usize) {
        let (mut at, mut rows, mut late, mut unit) = (0, 0, 0, 0);
        let mut last = (key(b""), 0);
        while data[at as usize] != 0 {
            rows += 1;
            let (account, period, percent, fix);
            at = self.unit(data, at, &mut unit);
            (account, at) = name(data, at);
            if account != last.0 {
                last = (account, self.account_ids[&account]);
            }
            (period, at) = self.date_and_period(data, at, memo);
            (percent, at) = fixed::<5>(data, at);
            (fix, at) = fixed::<3>(data, at);
            if period < memo.late {
                late += 1;
                continue;
            }
            let day = &mut self.days[memo.day];
            let moves = &mut day.moves[unit];
            let place = moves.iter().position(|known| known.account == last.1).unwrap_or_else(|| {
                moves.push(Move { account: last.1, rows: [(0, 0); MOST] });
                moves.len() - 1
            });
            let (known, new) = (&mut moves[place].rows[period], (percent as i32, fix as i32));
            day.touched[period] |= *known != new;
            *known = new;
        }
        (rows - late, late)
    }

    fn load(&mut self, moment: i64, kind: &[u8], path: &str, buffer: &mut Vec<u8>) -> String {
        let name = path.rsplit('/').next().unwrap().as_bytes().to_vec();
        let register = (kind.to_vec(), name);
        let (applied, late) = match self.files.get(&register) {
            Some(kept) => *kept,
            None => {
                let data = read_file(path, buffer);
                let memo = &mut Memo { moment, text: [0; 10], day: 0, late: 0 };
                let done = match kind {
                    b"parties" => (self.load_parties(data), 0),
                    b"units" => (self.load_units(data), 0),
                    b"meters" => (self.load_meters(data, memo), 0),
                    b"prices" => (self.load_prices(data, memo), 0),
                    b"contracts" => self.load_contracts(data, memo),
                    _ => self.load_reallocations(data, memo),
                };
                self.files.insert(register, done);
                done
            }
        };
        format!("applied={applied} late={late}\n")
    }
}

fn main() {
    let mut office = Office::default();
    let script = std::fs::read_to_string(std::env::args().nth(1).unwrap()).unwrap();
    let mut buffer = Vec::with_capacity((1 << 20) + 64);
    let mut replies = String::new();
    for line in script.lines() {
        let words: Vec<&str> = line.split(' ').collect();
        replies += &office.load(number(words[1].as_bytes()), words[3].as_bytes(), words[4], &mut buffer);
    }
    std::hint::black_box(&office);
    std::io::stdout().write_all(replies.as_bytes()).unwrap();
}
