//! The calls of `include/funderaky.h` as Rust's own types.

/// The facts of a period as numbers, whether within their limits or not.
#[repr(C)]
#[derive(Clone, Copy, Default)]
pub struct Facts {
    pub customer_class: u64,
    pub marks: u64,
    pub power: u64,
    pub exempt: u64,
    pub kinds: [u64; 6],
    pub day: [u64; 6],
    pub night: [u64; 6],
    pub months: u64,
    pub ne_sum: u64,
    pub nc_sum: u64,
}

/// A plan with its price: the two parts before rounding, and the cents.
#[repr(C)]
#[derive(Clone, Copy, Default, Debug, PartialEq, Eq)]
pub struct Plan {
    pub code: u64,
    pub fixed: u64,
    pub energy: u64,
    pub cents: u64,
}

/// A price sheet; those of an estate's own come as bytes.
#[derive(Clone, Copy)]
pub enum Sheet<'a> {
    Decree,
    House(&'a [u8]),
    ProtectedDecree,
    ProtectedHouse(&'a [u8]),
}

/// The number of a refusal.
#[derive(Clone, Copy, Debug, PartialEq, Eq)]
pub struct Refused(pub u64);

#[link(name = "exports", kind = "static")]
unsafe extern "C" {
    safe fn funderaky_month_ne(s: u64, mx: u64, nc: u64) -> u64;
    safe fn funderaky_rating(network: u64, ampere: u64) -> u64;
    fn funderaky_price(
        sheet: u64,
        house: *const u8,
        house_length: usize,
        code: u64,
        facts: &Facts,
        plan: &mut Plan,
    ) -> u64;
    fn funderaky_choose(
        sheet: u64,
        house: *const u8,
        house_length: usize,
        facts: &Facts,
        plan: &mut Plan,
    ) -> u64;
    fn funderaky_row_check(row: *const u8, row_length: usize) -> u64;
}

impl<'a> Sheet<'a> {
    fn number_and_bytes(self) -> (u64, &'a [u8]) {
        match self {
            Sheet::Decree => (0, &[]),
            Sheet::House(bytes) => (1, bytes),
            Sheet::ProtectedDecree => (2, &[]),
            Sheet::ProtectedHouse(bytes) => (3, bytes),
        }
    }
}

fn plan_or_refusal(status: u64, plan: Plan) -> Result<Plan, Refused> {
    if status == 0 {
        Ok(plan)
    } else {
        Err(Refused(status))
    }
}

/// The N_E of a month, in ten-thousandths.
pub fn month_ne(s: u64, mx: u64, nc: u64) -> Option<u64> {
    Some(funderaky_month_ne(s, mx, nc)).filter(|ne| *ne != 0)
}

/// The power of a circuit breaker, in tenths of a kVA.
pub fn rating(network: u64, ampere: u64) -> Option<u64> {
    Some(funderaky_rating(network, ampere)).filter(|tenths| *tenths != 0)
}

/// The price of one plan.
pub fn price(sheet: Sheet, code: u64, facts: &Facts) -> Result<Plan, Refused> {
    let (number, bytes) = sheet.number_and_bytes();
    let mut plan = Plan::default();
    // SAFETY: a slice's pointer is never null and has as many bytes behind it as its length
    // says; the references are whole values of the layouts above, and none overlaps `plan`.
    let status =
        unsafe { funderaky_price(number, bytes.as_ptr(), bytes.len(), code, facts, &mut plan) };
    plan_or_refusal(status, plan)
}

/// The cheapest permitted plan.
pub fn choose(sheet: Sheet, facts: &Facts) -> Result<Plan, Refused> {
    let (number, bytes) = sheet.number_and_bytes();
    let mut plan = Plan::default();
    // SAFETY: as in `price`.
    let status = unsafe { funderaky_choose(number, bytes.as_ptr(), bytes.len(), facts, &mut plan) };
    plan_or_refusal(status, plan)
}

/// Whether bytes are an account's row.
pub fn is_row(row: &[u8]) -> bool {
    // SAFETY: a slice's pointer is never null and has as many bytes behind it as its length says.
    unsafe { funderaky_row_check(row.as_ptr(), row.len()) == 0 }
}
