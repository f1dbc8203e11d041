//! Runs a script of `settle script` in memory, with only std, and prints the same bytes for good input: the speed to
//! come close to. It checks nothing. It assumes that lines and rows are accepted, and that files are plain (LF, no
//! quotes, no mark, no empty line). Of an accepted file it keeps the kind and the name, not the bytes.
//! Build: rustc -O -C codegen-units=1 peer_office.rs. Usage: peer_office [--lead-minutes N] [--whole] [--times] SCRIPT
//! A run settles the periods whose data changed since the date's last run, and keeps the others. --whole settles all of
//! them again. --times tells on standard error what the lines took.
use std::collections::HashMap;
use std::convert::{TryFrom, TryInto};
use std::hash::{BuildHasherDefault, Hasher};
use std::io::{Read, Write};
use std::rc::Rc;
use std::time::{Duration, Instant};

const MOST: usize = 50;

// ---------------------------------------------------------------- names

/// A text of at most 24 bytes, filled up with zeros.
#[derive(Clone, Copy, PartialEq, Eq, Hash)]
struct Key(u64, u64, u64);

#[derive(Default)]
struct Fold(u64);

impl Hasher for Fold {
    fn write(&mut self, bytes: &[u8]) {
        for b in bytes {
            self.write_u64(u64::from(*b));
        }
    }
    fn write_u64(&mut self, word: u64) {
        let product = u128::from(self.0 ^ word) * 0x9e37_79b9_7f4a_7c15;
        self.0 = product as u64 ^ (product >> 64) as u64;
    }
    fn finish(&self) -> u64 {
        self.0
    }
}

type Ids = HashMap<Key, u32, BuildHasherDefault<Fold>>;

fn key(text: &[u8]) -> Key {
    let mut bytes = [0; 24];
    bytes[..text.len()].copy_from_slice(text);
    Key(word(&bytes, 0), word(&bytes, 8), word(&bytes, 16))
}

// ---------------------------------------------------------------- reading; texts are ASCII, with 32 bytes more

const ONES: u64 = 0x0101_0101_0101_0101;
const HIGHS: u64 = 0x8080_8080_8080_8080;
const ZEROS: u64 = 0x3030_3030_3030_3030;
const TENS: [u64; 8] = [1, 10, 100, 1000, 10_000, 100_000, 1_000_000, 10_000_000];

#[inline(always)]
fn word(window: &[u8], at: usize) -> u64 {
    u64::from_le_bytes(window[at..at + 8].try_into().unwrap())
}

#[inline(always)]
fn window(data: &[u8], at: u32) -> &[u8; 32] {
    let at = at as usize;
    data[at..at + 32].try_into().unwrap()
}

/// The number of bits before the first comma in eight bytes, or 64.
#[inline(always)]
fn comma(word: u64) -> u32 {
    let other = word ^ ONES * b',' as u64;
    (other.wrapping_sub(ONES) & !other & HIGHS).trailing_zeros() & !7
}

/// The field at `at`, and the place after its comma.
#[inline(always)]
fn name(data: &[u8], at: u32) -> (Key, u32) {
    let window = window(data, at);
    let cut = |word: u64, bits: u32| word & ((1 << bits) - 1);
    let (first, second) = (word(window, 0), word(window, 8));
    let bits = comma(first);
    if bits < 64 {
        return (Key(cut(first, bits), 0, 0), at + bits / 8 + 1);
    }
    let bits = comma(second);
    if bits < 64 {
        return (Key(first, cut(second, bits), 0), at + bits / 8 + 9);
    }
    let third = word(window, 16);
    let bits = comma(third);
    (Key(first, second, cut(third, bits & 63)), at + bits / 8 + 17)
}

/// The place after the comma of the field at `at`.
#[inline(always)]
fn skip(data: &[u8], mut at: u32) -> u32 {
    loop {
        let bits = comma(word(window(data, at), 0));
        if bits < 64 {
            return at + bits / 8 + 1;
        }
        at += 8;
    }
}

/// The number whose digits' values are in eight bytes, the first digit in the lowest byte.
#[inline(always)]
fn eight(values: u64) -> u64 {
    let pairs = values.wrapping_mul(10).wrapping_add(values >> 8);
    let low = (pairs & 0x0000_00ff_0000_00ff).wrapping_mul(0x000f_4240_0000_0064);
    let high = (pairs >> 16 & 0x0000_00ff_0000_00ff).wrapping_mul(0x0000_2710_0000_0001);
    low.wrapping_add(high) >> 32
}

/// The values of eight bytes as digits, and a high bit in each byte that is no digit.
#[inline(always)]
fn digits(word: u64) -> (u64, u64) {
    let values = word ^ ZEROS;
    (values, values.wrapping_add(ONES * 0x76) & HIGHS)
}

/// The number at `at` times 10^D, and the place after the mark that ends it.
#[inline(always)]
fn fixed<const D: u32>(data: &[u8], at: u32) -> (i64, u32) {
    let window = window(data, at);
    let negative = window[0] == b'-';
    let (values, marks) = digits(word(window, usize::from(negative)));
    if marks == 0 {
        return fixed_long::<D>(data, at);
    }
    let first = marks.trailing_zeros() & 56;
    let later = marks & (marks - 1);
    let (value, size);
    if values >> first & 0xff != u64::from(b'.' ^ b'0') {
        value = eight(values << (64 - first)) * TENS[D as usize];
        size = first / 8;
    } else if later != 0 {
        // The digits before the point move up to those after it.
        let (second, front) = (later.trailing_zeros() & 56, marks ^ (marks - 1));
        let joined = values << 8 & front | values & !front;
        value = eight(joined << (64 - second)) * TENS[(D + 1 - (second - first) / 8) as usize & 7];
        size = second / 8;
    } else {
        let whole = if first == 8 { values & 0xff } else { eight(values << (64 - first)) };
        let (values, marks) = digits(word(window, usize::from(negative) + first as usize / 8 + 1));
        let bits = marks.trailing_zeros() & 56;
        value = whole * TENS[D as usize] + eight((values & ((1 << bits) - 1)) << (64 - 8 * D));
        size = first / 8 + 1 + bits / 8;
    }
    (if negative { -(value as i64) } else { value as i64 }, at + u32::from(negative) + size + 1)
}

/// The same for a number that begins with unneeded zeros.
#[cold]
fn fixed_long<const D: u32>(data: &[u8], at: u32) -> (i64, u32) {
    let rest = &data[at as usize..];
    let size = rest.iter().position(|b| *b == b',' || *b == b'\n').unwrap();
    let text = std::str::from_utf8(&rest[..size]).unwrap();
    let mut parts = text.trim_start_matches('-').splitn(2, '.');
    let whole: i64 = parts.next().unwrap().parse().unwrap();
    let part = format!("{:0<1$}", parts.next().unwrap_or(""), D as usize);
    let value = whole * 10i64.pow(D) + part.parse::<i64>().unwrap_or(0);
    (if text.starts_with('-') { -value } else { value }, at + size as u32 + 1)
}

fn number(text: &[u8]) -> i64 {
    std::str::from_utf8(text).unwrap().parse().unwrap()
}

fn read_file<'a>(path: &str, buffer: &'a mut Vec<u8>) -> &'a [u8] {
    buffer.clear();
    std::fs::File::open(path).unwrap().read_to_end(buffer).unwrap();
    if buffer.last() != Some(&b'\n') {
        buffer.push(b'\n');
    }
    let size = buffer.len();
    buffer.resize(size + 32, 0);
    let header = buffer.iter().position(|b| *b == b'\n').unwrap() + 1;
    &buffer[header..]
}

// ---------------------------------------------------------------- days

fn days_before(year: i64, month: i64, day: i64) -> i64 {
    let (year, month) = if month > 2 { (year, month - 3) } else { (year - 1, month + 9) };
    365 * year + year / 4 - year / 100 + year / 400 + (153 * month + 2) / 5 + day - 719_469
}

fn date(text: &[u8]) -> i64 {
    days_before(number(&text[..4]), number(&text[5..7]), number(&text[8..10]))
}

fn end_date(text: &[u8]) -> i64 {
    if text.is_empty() { days_before(2099, 12, 31) } else { date(text) }
}

/// The second of local midnight, by GMT0BST,M3.5.0/1,M10.5.0.
fn start(text: &[u8], day: i64) -> i64 {
    let change = |month| {
        let last = days_before(number(&text[..4]), month, 31);
        last - (last + 4) % 7
    };
    day * 86_400 - if change(3) < day && day <= change(10) { 3600 } else { 0 }
}

fn period_count(text: &[u8], day: i64) -> usize {
    // The changes are in March and October, so it does not matter if the next day is in another year.
    ((start(text, day + 1) - start(text, day)) / 1800) as usize
}

// ---------------------------------------------------------------- the office

#[derive(Clone, Copy, Default, PartialEq)]
struct Meter {
    metered: i32,
    tlm: i32,
    balancing: i32,
}

struct Move {
    account: u32,
    rows: [(i32, i32); MOST],
}

struct Unit {
    leads: Vec<(i64, u32)>, // by the first day of each
    weighs: bool,
    range: (i64, i64),
}

impl Unit {
    /// The account that leads it on one of its days.
    fn lead_on(&self, day: i64) -> u32 {
        self.leads[self.leads.partition_point(|(first, _)| *first <= day) - 1].1
    }
}

struct Party {
    text: Vec<u8>,
    range: (i64, i64),
}

#[derive(Clone)]
struct Row {
    energies: [i64; 4],
    charge: i64,
    share: i64,
}

struct Period {
    rows: Vec<Row>,
    residual: i64,
}

struct Run {
    kind: Vec<u8>,
    accounts: Rc<Vec<u32>>,
    units: Rc<Vec<u32>>,
    periods: Vec<Rc<Period>>,
    nets: Vec<i64>,
    summary: String,
}

/// What is in force for a date. Lists are by period, then by unit or account.
struct Day {
    number: i64,
    text: [u8; 10],
    start: i64,
    count: usize,
    prices: [i64; MOST],
    meters: Vec<Vec<Meter>>,
    sold: Vec<Vec<i64>>,
    contracts: Vec<Option<Box<[i32; MOST]>>>, // by reference
    moves: Vec<Vec<Move>>,                    // by unit
    touched: [bool; MOST], // changed in value since the last run
    runs: Vec<Run>,
}

#[derive(Default)]
struct Office {
    lead_seconds: i64,
    whole: bool,
    parties: Vec<Party>,
    party_ids: Ids,
    account_ids: Ids,
    names: Vec<([u8; 12], usize)>, // of accounts, with their lengths
    units: Vec<Unit>,
    unit_ids: Ids,
    unit_keys: Vec<Key>,
    references: Vec<(u32, u32)>,
    reference_ids: Ids,
    days: Vec<Day>,
    day_ids: HashMap<[u8; 10], usize>,
    files: HashMap<(Vec<u8>, Vec<u8>), (usize, usize)>,
    moved: Vec<i64>,
}

/// The date of the last row: its text, its place in `days`, and its latest late period.
#[derive(Clone, Copy)]
struct Memo {
    moment: i64,
    text: [u8; 10],
    day: usize,
    late: usize,
}

fn widened(old: Option<(i64, i64)>, new: (i64, i64)) -> (i64, i64) {
    old.map_or(new, |old| (old.0.min(new.0), old.1.max(new.1)))
}

impl Office {
    fn day(&mut self, text: [u8; 10]) -> usize {
        let (units, accounts) = (self.units.len(), self.names.len());
        let days = &mut self.days;
        let at = *self.day_ids.entry(text).or_insert_with(|| {
            let number = date(&text);
            days.push(Day {
                number,
                text,
                start: start(&text, number),
                count: period_count(&text, number),
                prices: [0; MOST],
                meters: vec![Vec::new(); MOST],
                sold: vec![Vec::new(); MOST],
                contracts: Vec::new(),
                moves: Vec::new(),
                touched: [true; MOST],
                runs: Vec::new(),
            });
            days.len() - 1
        });
        let day = &mut days[at];
        for period in 0..day.count {
            day.meters[period].resize(units, Meter::default());
            day.sold[period].resize(accounts, 0);
        }
        day.moves.resize_with(units, Vec::new);
        at
    }

    /// Reads the date and the period at `at`.
    #[inline(always)]
    fn date_and_period(&mut self, data: &[u8], at: u32, memo: &mut Memo) -> (usize, u32) {
        let head = window(data, at);
        let text: [u8; 10] = head[..10].try_into().unwrap();
        if text != memo.text {
            self.turn(text, memo);
        }
        let digit = |n: usize| usize::from(head[n] & 15);
        if head[12] == b',' {
            return (digit(11) - 1, at + 13);
        }
        if head[13] == b',' {
            return (10 * digit(11) + digit(12) - 1, at + 14);
        }
        let (period, at) = fixed::<0>(data, at + 11);
        (period as usize - 1, at)
    }

    #[cold]
    fn turn(&mut self, text: [u8; 10], memo: &mut Memo) {
        memo.text = text;
        memo.day = self.day(text);
        let since = memo.moment.saturating_sub(self.days[memo.day].start - self.lead_seconds);
        memo.late = if since < 0 { 0 } else { (since / 1800 + 1).min(MOST as i64) as usize };
    }

    /// The unit at `at`. Files often list units in the same order in each period, or one unit after the other.
    #[inline(always)]
    fn unit(&self, data: &[u8], at: u32, last: &mut usize) -> u32 {
        let (key, at) = name(data, at);
        if self.unit_keys.get(*last + 1) == Some(&key) {
            *last += 1;
        } else if self.unit_keys[*last] != key {
            *last = self.unit_ids[&key] as usize;
        }
        at
    }

    fn load_parties(&mut self, data: &[u8]) -> usize {
        let mut rows = 0;
        for line in data.split(|b| *b == b'\n').take_while(|line| line.first().is_some_and(|b| *b != 0)) {
            rows += 1;
            let mut fields = line.split(|b| *b == b',');
            let text = fields.next().unwrap();
            let range = (date(fields.next().unwrap()), end_date(fields.next().unwrap()));
            let id = *self.party_ids.entry(key(text)).or_insert(self.parties.len() as u32);
            if let Some(party) = self.parties.get_mut(id as usize) {
                party.range = widened(Some(party.range), range);
                continue;
            }
            for side in [b"-P", b"-C"] {
                let account = [text, side].concat();
                let mut padded = [b' '; 12];
                padded[..account.len()].copy_from_slice(&account);
                self.account_ids.insert(key(&account), self.names.len() as u32);
                self.names.push((padded, account.len()));
                self.moved.push(0);
            }
            self.parties.push(Party { text: text.to_vec(), range });
        }
        rows
    }

    fn load_units(&mut self, data: &[u8]) -> usize {
        let mut rows = 0;
        for line in data.split(|b| *b == b'\n').take_while(|line| line.first().is_some_and(|b| *b != 0)) {
            rows += 1;
            let mut fields = line.split(|b| *b == b',');
            let mut field = || fields.next().unwrap();
            let unit = key(field());
            let lead = 2 * self.party_ids[&key(field())] + u32::from(field() == b"C");
            let weighs = field() == b"no";
            let range = (date(field()), end_date(field()));
            let id = *self.unit_ids.entry(unit).or_insert(self.units.len() as u32);
            if let Some(unit) = self.units.get_mut(id as usize) {
                unit.range = widened(Some(unit.range), range);
                match unit.leads.last_mut() {
                    Some(last) if last.1 == lead => last.0 = last.0.min(range.0),
                    _ => {
                        unit.leads.push((range.0, lead));
                        for day in self.days.iter_mut().filter(|day| range.0 <= day.number && day.number <= range.1) {
                            day.touched = [true; MOST];
                        }
                    }
                }
                continue;
            }
            self.units.push(Unit { leads: vec![(range.0, lead)], weighs, range });
            self.unit_keys.push(unit);
        }
        rows
    }

    fn load_meters(&mut self, data: &[u8], memo: &mut Memo) -> usize {
        let (mut at, mut rows, mut unit) = (0, 0, 0);
        while data[at as usize] != 0 {
            let period;
            at = self.unit(data, at, &mut unit);
            (period, at) = self.date_and_period(data, at, memo);
            let (metered, tlm, balancing);
            (metered, at) = fixed::<3>(data, at);
            (tlm, at) = fixed::<7>(data, at);
            (balancing, at) = fixed::<3>(data, at);
            let day = &mut self.days[memo.day];
            let meter = Meter { metered: metered as i32, tlm: tlm as i32, balancing: balancing as i32 };
            let known = &mut day.meters[period][unit];
            day.touched[period] |= *known != meter;
            *known = meter;
            rows += 1;
        }
        rows
    }

    fn load_prices(&mut self, data: &[u8], memo: &mut Memo) -> usize {
        let (mut at, mut rows) = (0, 0);
        while data[at as usize] != 0 {
            let (period, price);
            (period, at) = self.date_and_period(data, at, memo);
            (price, at) = fixed::<5>(data, at);
            let day = &mut self.days[memo.day];
            day.touched[period] |= day.prices[period] != price;
            day.prices[period] = price;
            rows += 1;
        }
        rows
    }

    fn load_contracts(&mut self, data: &[u8], memo: &mut Memo) -> (usize, usize) {
        let (mut at, mut rows, mut late) = (0, 0, 0);
        let mut last = (key(b""), 0);
        while data[at as usize] != 0 {
            rows += 1;
            let (reference, period, kwh);
            (reference, at) = name(data, at);
            if reference != last.0 {
                let next = self.references.len() as u32;
                last = (reference, *self.reference_ids.entry(reference).or_insert(next) as usize);
                if last.1 == self.references.len() {
                    let (seller, after) = name(data, at);
                    let (buyer, _) = name(data, after);
                    self.references.push((self.account_ids[&seller], self.account_ids[&buyer]));
                }
            }
            at = skip(data, skip(data, at));
            (period, at) = self.date_and_period(data, at, memo);
            (kwh, at) = fixed::<3>(data, at);
            if period < memo.late {
                late += 1;
                continue;
            }
            let day = &mut self.days[memo.day];
            if day.contracts.len() <= last.1 {
                day.contracts.resize_with(last.1 + 1, || None);
            }
            let volume = &mut day.contracts[last.1].get_or_insert_with(|| Box::new([0; MOST]))[period];
            let more = kwh - i64::from(*volume);
            *volume = kwh as i32;
            let (seller, buyer) = self.references[last.1];
            day.sold[period][seller as usize] += more;
            day.sold[period][buyer as usize] -= more;
            day.touched[period] |= more != 0;
        }
        (rows - late, late)
    }

    fn load_reallocations(&mut self, data: &[u8], memo: &mut Memo) -> (usize, usize) {
        let (mut at, mut rows, mut late, mut unit) = (0, 0, 0, 0);
        let mut last = (key(b""), 0);
        while data[at as usize] != 0 {
            rows += 1;
            let (account, period, percent, fix);
            at = self.unit(data, at, &mut unit);
            (account, at) = name(data, at);
            if account != last.0 {
                last = (account, self.account_ids[&account]);
            }
            (period, at) = self.date_and_period(data, at, memo);
            (percent, at) = fixed::<5>(data, at);
            (fix, at) = fixed::<3>(data, at);
            if period < memo.late {
                late += 1;
                continue;
            }
            let day = &mut self.days[memo.day];
            let moves = &mut day.moves[unit];
            let place = moves.iter().position(|known| known.account == last.1).unwrap_or_else(|| {
                moves.push(Move { account: last.1, rows: [(0, 0); MOST] });
                moves.len() - 1
            });
            let (known, new) = (&mut moves[place].rows[period], (percent as i32, fix as i32));
            day.touched[period] |= *known != new;
            *known = new;
        }
        (rows - late, late)
    }

    fn load(&mut self, moment: i64, kind: &[u8], path: &str, buffer: &mut Vec<u8>) -> String {
        let name = path.rsplit('/').next().unwrap().as_bytes().to_vec();
        let register = (kind.to_vec(), name);
        let (applied, late) = match self.files.get(&register) {
            Some(kept) => *kept,
            None => {
                let data = read_file(path, buffer);
                let memo = &mut Memo { moment, text: [0; 10], day: 0, late: 0 };
                let done = match kind {
                    b"parties" => (self.load_parties(data), 0),
                    b"units" => (self.load_units(data), 0),
                    b"meters" => (self.load_meters(data, memo), 0),
                    b"prices" => (self.load_prices(data, memo), 0),
                    b"contracts" => self.load_contracts(data, memo),
                    _ => self.load_reallocations(data, memo),
                };
                self.files.insert(register, done);
                done
            }
        };
        format!("applied={applied} late={late}\n")
    }

    fn run(&mut self, text: &[u8], kind: &[u8]) -> String {
        let at = self.day(text.try_into().unwrap());
        let Office { days, parties: all_parties, units: all_units, names, moved, whole, .. } = self;
        let day = &mut days[at];
        if let Some(run) = day.runs.iter().find(|run| run.kind == kind) {
            return run.summary.clone();
        }
        let within = |range: (i64, i64)| range.0 <= day.number && day.number <= range.1;
        let mut parties: Vec<u32> = (0..all_parties.len() as u32).filter(|id| within(all_parties[*id as usize].range)).collect();
        parties.sort_unstable_by_key(|id| &all_parties[*id as usize].text);
        let accounts: Vec<u32> = parties.iter().flat_map(|id| [2 * id, 2 * id + 1]).collect();
        let units: Vec<u32> = (0..all_units.len() as u32).filter(|id| within(all_units[*id as usize].range)).collect();
        let former = day.runs.last();
        let same = !*whole && former.is_some_and(|run| *run.accounts == accounts && *run.units == units);
        let (accounts, units) = match former {
            Some(run) if same => (run.accounts.clone(), run.units.clone()),
            _ => (Rc::new(accounts), Rc::new(units)),
        };
        let leads: Vec<u32> = units.iter().map(|id| all_units[*id as usize].lead_on(day.number)).collect();
        let mut space = Space { totals: vec![Totals::default(); names.len()], rests: Vec::new() };
        let periods: Vec<Rc<Period>> = (0..day.count)
            .map(|period| match former {
                Some(run) if same && !day.touched[period] => run.periods[period].clone(),
                _ => Rc::new(space.settle(day, period, &accounts, &units, &leads, all_units)),
            })
            .collect();
        let mut nets = vec![0; accounts.len()];
        let mut residual = 0;
        for period in &periods {
            for (net, row) in nets.iter_mut().zip(&period.rows) {
                *net += row.charge + row.share;
            }
            residual += period.residual;
        }
        let mut posted = vec![0; names.len()];
        for (account, net) in accounts.iter().zip(&nets) {
            posted[*account as usize] = *net;
        }
        if let Some(run) = former {
            for (account, net) in run.accounts.iter().zip(&run.nets) {
                posted[*account as usize] -= net;
            }
        }
        for (moved, pence) in moved.iter_mut().zip(&posted) {
            *moved += pence;
        }
        let summary = format!(
            "run {} {} periods {} accounts {} residual {residual} postings {}\n",
            String::from_utf8_lossy(text),
            String::from_utf8_lossy(kind),
            day.count,
            accounts.len(),
            posted.iter().filter(|pence| **pence != 0).count()
        );
        day.touched = [false; MOST];
        day.runs.push(Run { kind: kind.to_vec(), accounts, units, periods, nets, summary: summary.clone() });
        summary
    }
}

// ---------------------------------------------------------------- one period

#[derive(Clone, Copy, Default)]
struct Totals {
    credited: i64,
    balancing: i64,
    weight: i64,
}

struct Space {
    totals: Vec<Totals>,
    rests: Vec<u128>,
}

/// near(n, 2^k * odd), if 2^k * odd is even.
#[inline(always)]
fn near(n: i128, k: u32, odd: u64) -> i64 {
    let whole = u128::from(odd) << k;
    let size = n.unsigned_abs() + whole / 2;
    let parts = match u64::try_from(size >> k) {
        Ok(small) => (small / odd) as i64,
        Err(_) => (size / whole) as i64,
    };
    if n < 0 { -parts } else { parts }
}

impl Space {
    fn settle(&mut self, day: &Day, period: usize, accounts: &[u32], ids: &[u32], leads: &[u32], units: &[Unit]) -> Period {
        let totals = &mut self.totals;
        totals.fill(Totals::default());
        let meters = &day.meters[period];
        for (id, lead) in ids.iter().zip(leads) {
            let (unit, meter) = (&units[*id as usize], meters[*id as usize]);
            let (metered, tlm, balancing) = (i64::from(meter.metered), i64::from(meter.tlm), i64::from(meter.balancing));
            let mut rest = metered * tlm;
            for other in &day.moves[*id as usize] {
                let (percent, fix) = other.rows[period];
                let share = (metered - balancing) * i64::from(percent) + i64::from(fix) * 10_000_000;
                let part = near(i128::from(share) * i128::from(tlm), 7, 78_125);
                rest -= part;
                let to = &mut totals[other.account as usize];
                to.credited += part;
                to.weight += if unit.weighs { part.abs() } else { 0 };
            }
            let to = &mut totals[*lead as usize];
            to.credited += rest;
            to.weight += if unit.weighs { rest.abs() } else { 0 };
            to.balancing += balancing * tlm;
        }
        let (price, sold) = (i128::from(day.prices[period]), &day.sold[period]);
        let (mut residual, mut weights) = (0, 0);
        let mut rows = Vec::with_capacity(accounts.len());
        for id in accounts {
            let account = totals[*id as usize];
            let contracts = sold[*id as usize] * 10_000_000;
            let imbalance = account.credited - account.balancing - contracts;
            let charge = near(-i128::from(imbalance) * price, 13, 1_220_703_125);
            residual -= charge;
            weights += i128::from(account.weight);
            rows.push(Row { energies: [account.credited, account.balancing, contracts, imbalance], charge, share: 0 });
        }
        self.apportion(residual, weights, accounts, &mut rows);
        Period { rows, residual }
    }

    /// A quotient is guessed in floating point, and then corrected by its remainder.
    fn apportion(&mut self, residual: i64, weights: i128, accounts: &[u32], rows: &mut [Row]) {
        let size = residual.abs();
        let whole = if weights == 0 { accounts.len() as i128 } else { weights };
        let ratio = size as f64 / whole as f64;
        let mut left = size;
        self.rests.clear();
        for (place, (id, row)) in accounts.iter().zip(rows.iter_mut()).enumerate() {
            let weight = if weights == 0 { 1 } else { self.totals[*id as usize].weight };
            let mut share = (weight as f64 * ratio) as i64;
            let mut rest = i128::from(size) * i128::from(weight) - i128::from(share) * whole;
            while rest < 0 {
                share -= 1;
                rest += whole;
            }
            while rest >= whole {
                share += 1;
                rest -= whole;
            }
            left -= share;
            row.share = share;
            self.rests.push((rest as u128) << 16 | (0xffff - place) as u128);
        }
        if left > 0 {
            self.rests.select_nth_unstable_by(left as usize - 1, |a, b| b.cmp(a));
            for rest in &self.rests[..left as usize] {
                rows[0xffff - (*rest & 0xffff) as usize].share += 1;
            }
        }
        if residual < 0 {
            for row in rows {
                row.share = -row.share;
            }
        }
    }
}

// ---------------------------------------------------------------- writing

const BUFFER: usize = 1 << 17;

struct Out {
    buffer: Vec<u8>,
    at: usize,
}

/// Eight digits of a number, the first in the lowest byte.
#[inline(always)]
fn eight_digits(number: u64) -> u64 {
    let fours = number / 10_000 | number % 10_000 << 32;
    let high = fours * 10_486 >> 20 & 0x7f_0000_007f;
    let twos = high | (fours - 100 * high) << 16;
    let high = twos * 103 >> 10 & 0x000f_000f_000f_000f;
    high | (twos - 10 * high) << 8
}

/// Sixteen bytes, with the number at the right after blanks, and how many blanks there are.
#[inline(always)]
fn right(size: u64) -> (u128, u32) {
    let found = u128::from(eight_digits(size / 100_000_000)) | u128::from(eight_digits(size % 100_000_000)) << 64;
    let bits = (found | 1 << 120).trailing_zeros() & !7;
    let twice = |word: u64| u128::from(word) << 64 | u128::from(word);
    ((found | twice(ZEROS)) ^ (((1 << bits) - 1) & twice(ONES * 0x10)), bits / 8)
}

/// Eight bytes, with the number at the right after blanks, and how many blanks there are.
#[inline(always)]
fn right_eight(size: u64) -> (u64, u32) {
    let found = eight_digits(size);
    let bits = (found | 1 << 56).trailing_zeros() & !7;
    ((found | ZEROS) ^ (((1 << bits) - 1) & ONES * 0x10), bits / 8)
}

/// The whole part in eight bytes after blanks, how many blanks there are, and the ten decimals.
#[inline(always)]
fn energy(ticks: i64) -> (u64, u32, [u8; 11]) {
    let size = ticks.unsigned_abs();
    let (whole, blanks) = right_eight(size / 10_000_000_000);
    let decimals = size % 10_000_000_000;
    let (two, rest) = (decimals / 100_000_000, eight_digits(decimals % 100_000_000) | ZEROS);
    let mut text = [b'.'; 11];
    text[1] = b'0' + (two / 10) as u8;
    text[2] = b'0' + (two % 10) as u8;
    text[3..].copy_from_slice(&rest.to_le_bytes());
    (whole, blanks, text)
}

#[inline(always)]
fn sign(number: i64, other: u8) -> u8 {
    if number < 0 { b'-' } else { other }
}

impl Out {
    fn flush(&mut self) {
        std::io::stdout().write_all(&self.buffer[..self.at]).unwrap();
        self.at = 0;
    }

    /// The next N bytes. The text goes on after the first `used` of them. If that is 0, the caller sets it.
    #[inline(always)]
    fn room<const N: usize>(&mut self, used: usize) -> &mut [u8; N] {
        if self.at + N > BUFFER {
            self.flush();
        }
        let at = self.at;
        self.at += used;
        (&mut self.buffer[at..at + N]).try_into().unwrap()
    }

    fn text(&mut self, text: &[u8]) {
        for part in text.chunks(1024) {
            self.room::<1024>(part.len())[..part.len()].copy_from_slice(part);
        }
    }

    /// A number at the right of 14 or 16 places, with room for its sign.
    #[inline(always)]
    fn place(to: &mut [u8], number: i64) {
        let size = number.unsigned_abs();
        if size < 10_000_000 {
            let (text, blanks) = right_eight(size);
            let mut bytes = text.to_le_bytes();
            bytes[(blanks as usize - 1) & 7] = sign(number, b' ');
            let from = to.len() - 8;
            to[..from].fill(b' ');
            to[from..].copy_from_slice(&bytes);
            return;
        }
        let (text, blanks) = right(size);
        let mut bytes = text.to_le_bytes();
        bytes[(blanks as usize - 1) & 15] = sign(number, b' ');
        let from = 16 - to.len();
        to.copy_from_slice(&bytes[from..]);
    }

    fn day_report(&mut self, day: &Day, run: &Run, names: &[([u8; 12], usize)]) {
        self.text(b"DAY REPORT ");
        self.text(&day.text);
        self.text(b" ");
        self.text(&run.kind);
        self.text(b"\nPER ACCOUNT                  CREDITED            BALANCING            CONTRACTS            IMBALANCE         CHARGE          SHARE\n");
        for (number, period) in run.periods.iter().enumerate() {
            let number = number as i64 + 1;
            let mut head = [b' '; 4];
            head[..3].copy_from_slice(format!("{number:3}").as_bytes());
            for (account, row) in run.accounts.iter().zip(&period.rows) {
                let line = self.room::<131>(131);
                line[..4].copy_from_slice(&head);
                line[4..16].copy_from_slice(&names[*account as usize].0);
                for (n, ticks) in row.energies.iter().enumerate() {
                    let (whole, blanks, decimals) = energy(*ticks);
                    let field: &mut [u8; 21] = (&mut line[16 + 21 * n..37 + 21 * n]).try_into().unwrap();
                    field[..2].copy_from_slice(b"  ");
                    field[2..10].copy_from_slice(&whole.to_le_bytes());
                    field[(1 + blanks as usize) & 15] = sign(*ticks, b' ');
                    field[10..].copy_from_slice(&decimals);
                }
                line[100] = b' ';
                Self::place(&mut line[101..115], row.charge);
                line[115] = b' ';
                Self::place(&mut line[116..130], row.share);
                line[130] = b'\n';
            }
            let line = self.room::<32>(32);
            line[..4].copy_from_slice(&head);
            line[4..17].copy_from_slice(b"RESIDUAL     ");
            Self::place(&mut line[17..31], period.residual);
            line[31] = b'\n';
        }
        for (account, net) in run.accounts.iter().zip(&run.nets) {
            let line = self.room::<34>(34);
            line[..4].copy_from_slice(b"NET ");
            line[4..16].copy_from_slice(&names[*account as usize].0);
            line[16] = b' ';
            Self::place(&mut line[17..33], *net);
            line[33] = b'\n';
        }
        self.text(b"END\n");
    }

    /// Writes a number and a mark at `at`, and returns the place after them.
    #[inline(always)]
    fn number(to: &mut [u8; 256], at: usize, number: i64, mark: u8) -> usize {
        to[at] = b'-';
        let at = at + usize::from(number < 0);
        let size = number.unsigned_abs();
        if size < 100_000_000 {
            let (text, blanks) = right_eight(size);
            to[at..at + 8].copy_from_slice(&(text >> (8 * blanks)).to_le_bytes());
            let end = at + 8 - blanks as usize;
            to[end] = mark;
            return end + 1;
        }
        let (text, blanks) = right(size);
        to[at..at + 16].copy_from_slice(&(text >> (8 * blanks)).to_le_bytes());
        let end = at + 16 - blanks as usize;
        to[end] = mark;
        end + 1
    }

    fn results(&mut self, day: &Day, run: &Run, names: &[([u8; 12], usize)]) {
        self.text(b"date,kind,account,period,credited,balancing,contracts,imbalance,charge,share\n");
        let mut head = [0; 14]; // 2024-07-01,SF,
        head[..10].copy_from_slice(&day.text);
        head[10] = b',';
        head[11..13].copy_from_slice(&run.kind);
        head[13] = b',';
        for (number, period) in run.periods.iter().enumerate() {
            let number = number + 1;
            let mut middle = [b','; 4];
            let middle_size = if number < 10 { 3 } else { 4 };
            middle[1..middle_size - 1].copy_from_slice(&format!("{number}").into_bytes());
            for (account, row) in run.accounts.iter().zip(&period.rows) {
                let line = self.room::<256>(0);
                let (name, size) = names[*account as usize];
                line[..14].copy_from_slice(&head);
                line[14..26].copy_from_slice(&name);
                line[14 + size..18 + size].copy_from_slice(&middle);
                let mut at = 14 + size + middle_size;
                for ticks in row.energies {
                    let (whole, blanks, decimals) = energy(ticks);
                    line[at] = b'-';
                    at += usize::from(ticks < 0);
                    line[at..at + 8].copy_from_slice(&(whole >> (8 * blanks)).to_le_bytes());
                    at += 8 - blanks as usize;
                    line[at..at + 11].copy_from_slice(&decimals);
                    line[at + 11] = b',';
                    at += 12;
                }
                at = Self::number(line, at, row.charge, b',');
                at = Self::number(line, at, row.share, b'\n');
                self.at += at;
            }
        }
    }

    fn balances(&mut self, office: &Office) {
        self.text(b"account,moved_pence\n");
        let mut parties: Vec<usize> = (0..office.parties.len()).collect();
        parties.sort_unstable_by_key(|id| &office.parties[*id].text);
        for id in parties.iter().flat_map(|id| [2 * id, 2 * id + 1]) {
            let line = self.room::<256>(0);
            let (name, size) = office.names[id];
            line[..12].copy_from_slice(&name);
            line[size] = b',';
            let at = Self::number(line, size + 1, office.moved[id], b'\n');
            self.at += at;
        }
    }
}

// ---------------------------------------------------------------- the script

fn main() {
    let mut office = Office { lead_seconds: 3600, ..Office::default() };
    let mut words = std::env::args().skip(1);
    let (mut path, mut times) = (String::new(), false);
    while let Some(word) = words.next() {
        match word.as_str() {
            "--lead-minutes" => office.lead_seconds = 60 * number(words.next().unwrap().as_bytes()),
            "--whole" => office.whole = true,
            "--times" => times = true,
            _ => path = word,
        }
    }
    let script = std::fs::read_to_string(path).unwrap();
    let mut out = Out { buffer: vec![0; BUFFER], at: 0 };
    let mut buffer = Vec::with_capacity((1 << 20) + 64);
    let began = Instant::now();
    let mut spent = [Duration::ZERO; 4];
    for line in script.lines() {
        let words: Vec<&str> = line.split(' ').collect();
        let since = Instant::now();
        let part = match words[0] {
            "load" => {
                let reply = office.load(number(words[1].as_bytes()), words[3].as_bytes(), words[4], &mut buffer);
                out.text(reply.as_bytes());
                0
            }
            "run" => {
                let reply = office.run(words[3].as_bytes(), words[4].as_bytes());
                out.text(reply.as_bytes());
                1
            }
            _ if words[2] == "balances" => {
                out.balances(&office);
                3
            }
            _ => {
                let date: [u8; 10] = words[3].as_bytes().try_into().unwrap();
                let day = &office.days[office.day_ids[&date]];
                let run = day.runs.iter().find(|run| run.kind == words[4].as_bytes()).unwrap();
                if words[2] == "day" {
                    out.day_report(day, run, &office.names);
                    2
                } else {
                    out.results(day, run, &office.names);
                    3
                }
            }
        };
        spent[part] += since.elapsed();
    }
    out.flush();
    if times {
        let names = ["load", "run", "report day", "report csv and balances"];
        let parts: Vec<String> = names.iter().zip(spent).map(|(name, time)| format!("{name} {:.2} ms", time.as_secs_f64() * 1e3)).collect();
        eprintln!("{}; in all {:.2} ms", parts.join(", "), began.elapsed().as_secs_f64() * 1e3);
    }
}
