//! Known figures: all N figures 10,000 a month over twelve months.

use compare::script::{Answer, Replay};

/// A choice of class 0 and X 0, with the kind, day and night of circuits 0 and 1.
fn chosen(sheet: &str, marks: u64, power: u64, circuits: [(u64, u64, u64); 2]) -> (u64, i128) {
    let [(kind0, day0, night0), (kind1, day1, night1)] = circuits;
    let line = format!(
        "choose {sheet} 0 {marks} {power} 0 {kind0} {kind1} 0 0 0 0 \
         {day0} {night0} {day1} {night1} 0 0 0 0 0 0 0 0 12 120000 120000"
    );
    match Replay::default().line(line.as_bytes()) {
        Some(Answer::Plan { code, cents, .. }) => (code, cents),
        other => panic!("{line}: {other:?}"),
    }
}

const UNUSED: (u64, u64, u64) = (0, 0, 0);

#[test]
fn two_rate_pays_from_527_night_kwh() {
    let plan = |night| chosen("decree", 1, 100, [(1, 2_000, night), UNUSED]);
    assert_eq!(plan(526), (0, 26_010));
    assert_eq!(plan(527), (729, 26_019));
    assert_eq!(plan(1_500), (729, 30_861));
}

#[test]
fn the_30_kva_base_pays_from_21_260_day_kwh() {
    let plan = |day| chosen("decree", 0, 300, [(1, day, 0), UNUSED]);
    assert_eq!(plan(21_259), (0, 218_691));
    assert_eq!(plan(21_260), (1_458, 218_699));
}

#[test]
fn exclusive_night_and_the_extension() {
    let plan = |night| chosen("decree", 3, 100, [(1, 2_000, night), (2, 0, 5_000)]);
    assert_eq!(plan(0), (3, 43_261));
    assert_eq!(plan(1_766), (2_916, 53_289));
}

#[test]
fn the_protected_plan() {
    let plan = |day| chosen("protected-decree", 4, 120, [(1, day, 0), UNUSED]);
    assert_eq!(plan(500), (4_374, 0));
    assert_eq!(plan(501), (4_374, 710));
}

/// The cents of a price, from the whole line.
fn cents(replay: &mut Replay, line: &str) -> i128 {
    match replay.line(line.as_bytes()) {
        Some(Answer::Parts { cents, .. }) => cents,
        other => panic!("{line}: {other:?}"),
    }
}

#[test]
fn the_lower_charge_of_exclusive_night_and_a_half_down() {
    // 4,811 + 19,824 + 7,465.5 + 19,865 cents.
    let line = "price decree 732 0 1 100 0 1 2 0 0 0 0 \
                2000 1500 0 5000 0 0 0 0 0 0 0 0 12 120000 120000";
    assert_eq!(cents(&mut Replay::default(), line), 51_965);
}

#[test]
fn an_extended_base_with_a_peak_shed_meter() {
    // F is 65,990 + 2,033 × 350 + 26,000 mills; 80,354 + 7,230 + 18,904 + 4,944 cents.
    let line = "price decree 3663 1 3 400 50 1 2 3 0 0 0 \
                1000 1000 0 3000 600 400 0 0 0 0 0 0 12 120000 120000";
    assert_eq!(cents(&mut Replay::default(), line), 111_432);
}

#[test]
fn six_months_of_different_figures() {
    // F 9,720 mills, SE 66,000, SC 48,000, 1,000 kWh:
    // 534.6 cents, and (8,214 × 66,000 + 1,698 × 48,000) / 60,000 = 10,393.8 cents.
    let line = "price decree 0 0 0 100 0 1 0 0 0 0 0 \
                400 600 0 0 0 0 0 0 0 0 0 0 6 66000 48000";
    assert_eq!(cents(&mut Replay::default(), line), 10_928);
}

#[test]
fn a_house_line() {
    // F is 10,000 + 100 × (100 - 20 - 30) mills; 1,500 + 6,000 + 1,500 cents.
    let mut replay = Replay::default();
    let sheet = "house 010012 00002710 0064 001e 003c 1388 03e8 07d0 03e8 7f0000";
    let sheet = sheet.replace(' ', "").replacen("house", "house ", 1);
    assert_eq!(replay.line(sheet.as_bytes()), Some(Answer::Lines(1)));
    let line = "price house 0 1 0 100 20 1 0 0 0 0 0 \
                1000 500 0 0 0 0 0 0 0 0 0 0 12 120000 120000";
    assert_eq!(cents(&mut replay, line), 9_000);
    let below = line.replace("100 20", "59 20");
    assert_eq!(replay.line(below.as_bytes()), Some(Answer::NotPermitted));
}
