//! A cabinet in plain Rust: accounts as rows of 128 bytes, months, and the calls that are measured.

use crate::decree::{CIRCUITS, Facts};

pub const ROW: usize = 128;
const REGISTERS: usize = 2 * CIRCUITS;
const SIZE: u64 = 1_000_000;
const MOST_KWH: u64 = 100_000;
const MOST_CENTS: i64 = 1_000_000_000_000;
const MONTHS: usize = 1_200;

/// Why a call is refused.
#[derive(Clone, Copy, Debug, PartialEq, Eq)]
pub enum Refusal {
    AllPosted,
    Outside,
    Vacant,
    BrokenRow,
    Index,
    Difference,
    NotReady,
    Period,
    NotPosted,
    NoPlan,
    Payment,
    Balance,
}

#[derive(Clone, Debug)]
struct Account {
    ready: bool,
    class: u8,
    marks: u8,
    power: u16,
    exempt: u16,
    kinds: [u8; CIRCUITS],
    next: u16,
    indices: [u32; REGISTERS],
    waiting: [u32; REGISTERS],
    balance: i64,
}

fn four(bytes: &[u8]) -> u32 {
    u32::from_be_bytes([bytes[0], bytes[1], bytes[2], bytes[3]])
}

impl Account {
    fn decode(row: &[u8; ROW]) -> Result<Account, Refusal> {
        let mut account = Account {
            ready: row[0] == 2,
            class: row[1],
            marks: row[2],
            power: u16::from_be_bytes([row[3], row[4]]),
            exempt: u16::from_be_bytes([row[5], row[6]]),
            kinds: [row[7], row[8], row[9], row[10], row[11], row[12]],
            next: u16::from_be_bytes([row[13], row[14]]),
            indices: [0; REGISTERS],
            waiting: [0; REGISTERS],
            balance: i64::from_be_bytes(row[111..119].try_into().unwrap()),
        };
        for i in 0..REGISTERS {
            account.indices[i] = four(&row[15 + 4 * i..]);
            account.waiting[i] = four(&row[63 + 4 * i..]);
        }
        let zeros = row[119..].iter().all(|&byte| byte == 0);
        if (row[0] == 1 || row[0] == 2) && zeros && account.keeps_limits() {
            Ok(account)
        } else {
            Err(Refusal::BrokenRow)
        }
    }

    fn keeps_limits(&self) -> bool {
        let registers = (0..REGISTERS).all(|i| {
            let used = self.kinds[i / 2] != 0;
            let index = u64::from(self.indices[i]) < if used { SIZE } else { 1 };
            let most = if used && self.ready { MOST_KWH } else { 0 };
            index && u64::from(self.waiting[i]) <= most
        });
        self.class < 2
            && self.marks < 8
            && (self.class == 0 || self.marks < 4)
            && (1..=2_500).contains(&self.power)
            && self.exempt <= self.power
            && self.kinds.iter().all(|&kind| kind < 4)
            && self.next <= 1_200
            && registers
            && self.balance.abs() <= MOST_CENTS
    }

    fn encode(&self) -> [u8; ROW] {
        let mut row = [0; ROW];
        row[0] = if self.ready { 2 } else { 1 };
        row[1] = self.class;
        row[2] = self.marks;
        row[3..5].copy_from_slice(&self.power.to_be_bytes());
        row[5..7].copy_from_slice(&self.exempt.to_be_bytes());
        row[7..13].copy_from_slice(&self.kinds);
        row[13..15].copy_from_slice(&self.next.to_be_bytes());
        for i in 0..REGISTERS {
            row[15 + 4 * i..19 + 4 * i].copy_from_slice(&self.indices[i].to_be_bytes());
            row[63 + 4 * i..67 + 4 * i].copy_from_slice(&self.waiting[i].to_be_bytes());
        }
        row[111..119].copy_from_slice(&self.balance.to_be_bytes());
        row
    }

    fn booked(&mut self, cents: i64) -> Result<(), Refusal> {
        let balance = self.balance + cents;
        if balance.abs() > MOST_CENTS {
            return Err(Refusal::Balance);
        }
        self.balance = balance;
        Ok(())
    }

    fn facts(&self, months: u64, (se, sc): (u64, u64)) -> Facts {
        let kwh = |hours: usize| std::array::from_fn(|c| u64::from(self.waiting[2 * c + hours]));
        Facts {
            marks: self.marks,
            power: u64::from(self.power),
            exempt: u64::from(self.exempt),
            kinds: self.kinds,
            day: kwh(0),
            night: kwh(1),
            months,
            se,
            sc,
        }
    }
}

/// Rows in a bare array, one place a number.
pub struct Cabinet {
    rows: Vec<[u8; ROW]>,
    standing: Vec<bool>,
    months: Vec<(u64, u64)>,
}

impl Cabinet {
    pub fn new(capacity: usize) -> Cabinet {
        Cabinet {
            rows: vec![[0; ROW]; capacity],
            standing: vec![false; capacity],
            months: Vec::with_capacity(MONTHS),
        }
    }

    pub fn post(&mut self, s: u64, mx: u64, nc: u64) -> Result<(usize, u64), Refusal> {
        let rounded = |above: u64, below: u64| (above + (below - 1) / 2) / below;
        if self.months.len() >= MONTHS {
            return Err(Refusal::AllPosted);
        }
        let t1 = rounded(390 * rounded(10_000 * s, 888_131), 1_000);
        let t2 = rounded(185 * rounded(10_000 * mx, 141_151), 1_000);
        self.months.push((4_250 + t1 + t2, nc));
        Ok((self.months.len() - 1, 4_250 + t1 + t2))
    }

    /// A dwelling with circuits of every kind, all its registers at 0.
    pub fn open(&mut self, number: usize) {
        let account = Account {
            ready: false,
            class: 0,
            marks: 3,
            power: 100,
            exempt: 0,
            kinds: [1, 2, 3, 2, 3, 1],
            next: 0,
            indices: [0; REGISTERS],
            waiting: [0; REGISTERS],
            balance: 0,
        };
        self.keep(number, &account);
    }

    fn load(&self, number: usize) -> Result<Account, Refusal> {
        match self.standing.get(number) {
            None => Err(Refusal::Outside),
            Some(false) => Err(Refusal::Vacant),
            Some(true) => Account::decode(&self.rows[number]),
        }
    }

    fn keep(&mut self, number: usize, account: &Account) {
        self.rows[number] = account.encode();
        self.standing[number] = true;
    }

    pub fn read(&mut self, number: usize, indices: &[u64; REGISTERS]) -> Result<(), Refusal> {
        let mut account = self.load(number)?;
        for (i, &index) in indices.iter().enumerate() {
            if index >= SIZE || (account.kinds[i / 2] == 0 && index != 0) {
                return Err(Refusal::Index);
            }
        }
        for (i, &index) in indices.iter().enumerate() {
            let counted = (index + SIZE - u64::from(account.indices[i])) % SIZE;
            let waiting = u64::from(account.waiting[i]) + counted;
            if counted > MOST_KWH || waiting > MOST_KWH {
                return Err(Refusal::Difference);
            }
            account.waiting[i] = waiting as u32;
            account.indices[i] = index as u32;
        }
        account.ready = true;
        self.keep(number, &account);
        Ok(())
    }

    pub fn settle(&mut self, number: usize, end: u64) -> Result<u64, Refusal> {
        let mut account = self.load(number)?;
        if !account.ready {
            return Err(Refusal::NotReady);
        }
        let next = u64::from(account.next);
        if end < next || end - next >= 12 {
            return Err(Refusal::Period);
        }
        let Some(period) = self.months.get(next as usize..=end as usize) else {
            return Err(Refusal::NotPosted);
        };
        let sums = period
            .iter()
            .fold((0, 0), |(se, sc), &(ne, nc)| (se + ne, sc + nc));
        let choice = account.facts(end - next + 1, sums).choose();
        let choice = choice.ok_or(Refusal::NoPlan)?;
        account.booked(choice.cents as i64)?;
        account.next = end as u16 + 1;
        account.waiting = [0; REGISTERS];
        account.ready = false;
        self.keep(number, &account);
        Ok(choice.cents)
    }

    pub fn pay(&mut self, number: usize, cents: u64) -> Result<(), Refusal> {
        let mut account = self.load(number)?;
        if !(1..=1_000_000_000).contains(&cents) {
            return Err(Refusal::Payment);
        }
        account.booked(-(cents as i64))?;
        self.keep(number, &account);
        Ok(())
    }
}
