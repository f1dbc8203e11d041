//! Settles a period of the market's size again and again, with only std: the period and the checksum of
//! crates/hh_bench. It checks nothing and refuses nothing.
//! Build: rustc -O peer_calc.rs. Usage: peer_calc COUNT
use std::collections::HashMap;
use std::time::Instant;

const ACCOUNTS: u32 = 800;
const UNITS: u32 = 2_000;
const CONTRACTS: u32 = 400;
const STEP: u32 = 199;
const TICKS_PER_KWH: i128 = 10_000_000;
const UNITS_PER_PENNY: i128 = 10_000_000_000_000;

#[derive(Clone, Copy, PartialEq, Eq, PartialOrd, Ord, Hash)]
enum Side {
    Production,
    Consumption,
}

#[derive(Clone, Copy, PartialEq, Eq, PartialOrd, Ord, Hash)]
struct Account<'a> {
    party: &'a str,
    side: Side,
}

struct Subsidiary<'a> {
    account: Account<'a>,
    percent: i64,
    fixed: i64,
}

struct Unit<'a> {
    id: String,
    lead: Account<'a>,
    interconnector: bool,
    metered: i64,
    tlm: i64,
    balancing: i64,
    subsidiaries: Vec<Subsidiary<'a>>,
}

struct Contract<'a> {
    seller: Account<'a>,
    buyer: Account<'a>,
    volume: i64,
}

struct Period<'a> {
    accounts: Vec<Account<'a>>,
    units: Vec<Unit<'a>>,
    contracts: Vec<Contract<'a>>,
    price: i64,
}

#[derive(Clone, Default)]
struct Row {
    credited: i128,
    balancing: i128,
    contracts: i128,
    weight: i128,
    imbalance: i128,
    charge: i128,
    share: i128,
}

struct Credit<'a> {
    unit: &'a str,
    account: Account<'a>,
    credited: i128,
}

struct Settled<'a> {
    rows: Vec<Row>,
    credits: Vec<Credit<'a>>,
    residual: i128,
}

fn near(n: i128, m: i128) -> i128 {
    let size = (2 * n.abs() + m) / (2 * m);
    if n < 0 { -size } else { size }
}

/// What a unit gives each subsidiary, with the rest for its lead account.
fn push_credits<'a>(unit: &'a Unit, credits: &mut Vec<Credit<'a>>) {
    let tlm = i128::from(unit.tlm);
    let volume = i128::from(unit.metered - unit.balancing);
    let mut rest = i128::from(unit.metered) * tlm;
    for subsidiary in &unit.subsidiaries {
        let part = volume * i128::from(subsidiary.percent) + i128::from(subsidiary.fixed) * TICKS_PER_KWH;
        let credited = near(part * tlm, TICKS_PER_KWH);
        rest -= credited;
        credits.push(Credit { unit: &unit.id, account: subsidiary.account, credited });
    }
    credits.push(Credit { unit: &unit.id, account: unit.lead, credited: rest });
}

/// Shares out the residual by the rows' weights, by largest remainders.
fn share(rows: &mut [Row], residual: i128) {
    let mut sum: i128 = rows.iter().map(|row| row.weight).sum();
    if sum == 0 {
        rows.iter_mut().for_each(|row| row.weight = 1);
        sum = rows.len() as i128;
    }
    let sign = if residual < 0 { -1 } else { 1 };
    let mut left = residual.abs();
    let mut remainders = Vec::with_capacity(rows.len());
    for (place, row) in rows.iter_mut().enumerate() {
        let product = residual.abs() * row.weight;
        row.share = sign * (product / sum);
        left -= product / sum;
        remainders.push((product % sum, place));
    }
    remainders.sort_by(|a, b| b.0.cmp(&a.0));
    for (_, place) in remainders.iter().take(left as usize) {
        rows[*place].share += sign;
    }
}

fn settle<'a>(period: &'a Period) -> Settled<'a> {
    let places: HashMap<Account, usize> = period.accounts.iter().enumerate().map(|(place, account)| (*account, place)).collect();
    let mut rows = vec![Row::default(); period.accounts.len()];
    let mut credits = Vec::new();
    for unit in &period.units {
        let first = credits.len();
        push_credits(unit, &mut credits);
        for credit in &credits[first..] {
            let row = &mut rows[places[&credit.account]];
            row.credited += credit.credited;
            if !unit.interconnector {
                row.weight += credit.credited.abs();
            }
        }
        rows[places[&unit.lead]].balancing += i128::from(unit.balancing) * i128::from(unit.tlm);
    }
    for contract in &period.contracts {
        let ticks = i128::from(contract.volume) * TICKS_PER_KWH;
        rows[places[&contract.seller]].contracts += ticks;
        rows[places[&contract.buyer]].contracts -= ticks;
    }
    let mut residual = 0;
    for row in &mut rows {
        row.imbalance = row.credited - row.balancing - row.contracts;
        row.charge = near(-row.imbalance * i128::from(period.price), UNITS_PER_PENNY);
        residual -= row.charge;
    }
    share(&mut rows, residual);
    credits.sort_unstable_by(|a, b| a.unit.cmp(b.unit).then(a.account.cmp(&b.account)));
    Settled { rows, credits, residual }
}

/// A linear congruential generator of 64 bits.
struct Draw {
    state: u64,
}

impl Draw {
    fn below(&mut self, limit: u32) -> u32 {
        self.state = self.state.wrapping_mul(6_364_136_223_846_793_005).wrapping_add(1_442_695_040_888_963_407);
        (self.state >> 33) as u32 % limit
    }

    fn signed(&mut self, most: u32) -> i64 {
        i64::from(self.below(2 * most + 1)) - i64::from(most)
    }
}

fn generated<'a>(parties: &'a [String]) -> Period<'a> {
    let account_at = |place: u32| {
        let place = place % ACCOUNTS;
        let side = if place % 2 == 0 { Side::Production } else { Side::Consumption };
        Account { party: &parties[place as usize / 2], side }
    };
    let mut draw = Draw { state: 1 };
    let mut units = Vec::new();
    for number in 0..UNITS {
        let lead = draw.below(ACCOUNTS);
        let interconnector = draw.below(10) == 0;
        let metered = draw.signed(500_000);
        let tlm = 9_700_000 + i64::from(draw.below(600_000));
        let balancing = draw.signed(5_000);
        let subsidiaries = (1..4)
            .map(|number| Subsidiary {
                account: account_at(lead + number * STEP),
                percent: i64::from(draw.below(3_000_000)),
                fixed: draw.signed(1_000),
            })
            .collect();
        units.push(Unit { id: format!("T_UNIT-{number}"), lead: account_at(lead), interconnector, metered, tlm, balancing, subsidiaries });
    }
    let mut contracts = Vec::new();
    for _ in 0..CONTRACTS {
        let seller = draw.below(ACCOUNTS);
        let buyer = seller + 1 + draw.below(ACCOUNTS - 1);
        contracts.push(Contract { seller: account_at(seller), buyer: account_at(buyer), volume: draw.signed(90_000) });
    }
    Period { accounts: (0..ACCOUNTS).map(account_at).collect(), units, contracts, price: 7_345_678 }
}

fn mixed(sum: u64, amount: i128) -> u64 {
    let sum = sum.wrapping_mul(1_099_511_628_211);
    sum.wrapping_add(amount.unsigned_abs() as u64).wrapping_mul(2).wrapping_add(u64::from(amount < 0))
}

fn checksum_of(settled: &Settled) -> u64 {
    let mut sum = mixed(0, settled.residual);
    for row in &settled.rows {
        for amount in [row.credited, row.balancing, row.contracts, row.imbalance, row.charge, row.share] {
            sum = mixed(sum, amount);
        }
    }
    settled.credits.iter().fold(sum, |sum, credit| mixed(sum, credit.credited))
}

fn main() {
    let times: u32 = std::env::args().nth(1).unwrap().parse().unwrap();
    let parties: Vec<String> = (0..ACCOUNTS / 2).map(|party| format!("PARTY{party:04}")).collect();
    let period = generated(&parties);
    let mut checksum = 0;
    for _ in 0..times {
        let begin = Instant::now();
        let settled = settle(&period);
        eprintln!("{}", begin.elapsed().as_nanos());
        checksum = checksum_of(&settled);
    }
    println!("{checksum}");
}
