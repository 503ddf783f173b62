//! Prices a dwelling's year through the static library, and holds it against known figures.

mod funderaky;

use funderaky::{Facts, Plan, Refused, Sheet, choose, is_row, month_ne, price, rating};

/// Codes of the decree sheet with every circuit on the main meter.
const SINGLE_RATE: u64 = 0;
const EXTENDED_TWO_RATE: u64 = 4 * 729;

/// A house sheet of one line: 50 euro a year, a kWh at 6 cents by day and at 4 by night.
const HOUSE_SHEET: [u8; 24] = [
    1, 0, 18, // a line of 18 bytes
    0, 0, 0xC3, 0x50, // 50,000 mills a year
    0, 0, 0, 0, 0, 0, // nothing for power, open to every power
    0x13, 0x88, 0x03, 0xE8, // by day 5,000 / 1,000
    0x0B, 0xB8, 0x03, 0xE8, // by night 3,000 / 1,000
    127, 0, 0, // the end
];

fn euro(cents: u64) -> String {
    format!("EUR {}.{:02}", cents / 100, cents % 100)
}

/// A residential dwelling on one general circuit that asked for the two-rate plan.
fn dwelling(power: u64, ne: u64, nc: u64) -> Facts {
    Facts {
        marks: 1,
        power,
        kinds: [1, 0, 0, 0, 0, 0],
        day: [2_000, 0, 0, 0, 0, 0],
        night: [1_500, 0, 0, 0, 0, 0],
        months: 12,
        ne_sum: 12 * ne,
        nc_sum: 12 * nc,
        ..Facts::default()
    }
}

/// A protected customer with 12.0 kVA and 501 kWh by day.
fn protected(ne: u64, nc: u64) -> Facts {
    Facts {
        marks: 4,
        day: [501, 0, 0, 0, 0, 0],
        night: [0; 6],
        ..dwelling(120, ne, nc)
    }
}

fn show(name: &str, plan: Result<Plan, Refused>) {
    match plan {
        Ok(plan) => println!(
            "  {name:<26}code {:>4}   {:>10}",
            plan.code,
            euro(plan.cents)
        ),
        Err(Refused(number)) => println!("  {name:<26}refused by {number}"),
    }
}

/// The row of a new account: running, residential, two-rate requested, 10.0 kVA, one general circuit.
fn new_row() -> [u8; 128] {
    let mut row = [0; 128];
    row[0] = 1;
    row[2] = 1;
    row[4] = 100;
    row[7] = 1;
    row
}

/// The code and the cents that a sheet's cheapest plan has.
fn cheapest(sheet: Sheet, facts: &Facts) -> Result<(u64, u64), Refused> {
    choose(sheet, facts).map(|plan| (plan.code, plan.cents))
}

fn check_figures() {
    assert_eq!(month_ne(888_131, 141_151, 10_000), Some(10_000));
    assert_eq!(month_ne(892_572, 141_151, 10_000), Some(10_019));
    assert_eq!(month_ne(0, 141_151, 10_000), None);
    assert_eq!(rating(3, 18), Some(125));
    assert_eq!(rating(3, 19), None);
}

fn check_prices(facts: &Facts, social: &Facts) {
    let by_hand = Plan {
        code: 0,
        fixed: 7_200_000_000_000,
        energy: 25_920_000_000_000,
        cents: 23_000,
    };
    let single = price(Sheet::Decree, SINGLE_RATE, facts).map(|plan| plan.cents);
    let extended = price(Sheet::Decree, EXTENDED_TWO_RATE, facts);
    let cut_short = Sheet::House(&HOUSE_SHEET[..23]);
    let too_strong = dwelling(2_501, 10_000, 10_000);
    assert_eq!(cheapest(Sheet::Decree, facts), Ok((729, 30_861)));
    assert_eq!(single, Ok(35_664));
    assert_eq!(extended, Err(Refused(13)));
    assert_eq!(choose(Sheet::House(&HOUSE_SHEET), facts), Ok(by_hand));
    assert_eq!(cheapest(cut_short, facts), Err(Refused(18)));
    assert_eq!(cheapest(Sheet::Decree, &too_strong), Err(Refused(5)));
    assert_eq!(cheapest(Sheet::ProtectedDecree, social), Ok((4_374, 710)));
    let here = Sheet::ProtectedHouse(&HOUSE_SHEET);
    assert_eq!(cheapest(here, social), Ok((1, 710)));
}

fn check_rows() {
    assert!(is_row(&new_row()));
    assert!(!is_row(&new_row()[..127]));
    assert!(!is_row(&[0; 128]));
}

fn main() {
    let ne = month_ne(888_131, 141_151, 10_000).expect("figures within their limits");
    let facts = dwelling(100, ne, 10_000);
    let social = protected(ne, 10_000);

    println!("A year of 2,000 kWh by day and 1,500 by night, N_E {ne}");
    show("decree, the cheapest", choose(Sheet::Decree, &facts));
    show(
        "decree, single rate",
        price(Sheet::Decree, SINGLE_RATE, &facts),
    );
    show(
        "the estate's own sheet",
        choose(Sheet::House(&HOUSE_SHEET), &facts),
    );
    println!("A protected customer's year of 501 kWh");
    show("over the decree", choose(Sheet::ProtectedDecree, &social));
    show(
        "over the estate's sheet",
        choose(Sheet::ProtectedHouse(&HOUSE_SHEET), &social),
    );

    check_figures();
    check_prices(&facts, &social);
    check_rows();
    println!("All as known beforehand.");
}
