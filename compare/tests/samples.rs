//! Random scripts: the same for the same seed, and rich enough.

use std::collections::HashSet;

use compare::coverage::Coverage;
use compare::house::{self, Flaw};
use compare::samples::{Part, Set, script};
use compare::script::{Call, read};

fn lines(text: &[u8]) -> impl Iterator<Item = &[u8]> {
    text.split(|byte| *byte == b'\n')
}

/// What a script never reaches.
fn missing(mut coverage: Coverage, text: &[u8]) -> Vec<String> {
    lines(text).for_each(|line| coverage.line(line));
    coverage.missing().into_iter().map(str::to_string).collect()
}

#[test]
fn exactly_so_many_lines_by_the_seed() {
    for part in [Part::Pricing, Part::Table, Part::Journal, Part::Both] {
        let script = |seed, lines| script(seed, &[(part, lines)]);
        for count in [0, 1, 7, 300] {
            let text = script(5, count);
            assert_eq!(text.iter().filter(|byte| **byte == b'\n').count(), count);
            assert_eq!(text, script(5, count));
        }
        assert_ne!(script(5, 300), script(6, 300));
        assert!(script(5, 300).starts_with(&script(5, 7)));
    }
    let parts = [(Part::Pricing, 40), (Part::Journal, 60)];
    let text = script(5, &parts);
    assert_eq!(lines(&text).count(), 101);
    assert!(text.starts_with(&script(5, &parts[..1])));
}

#[test]
fn the_samples_reach_every_category() {
    let none = Vec::<String>::new();
    let prices = Set::Prices.script();
    assert_eq!(missing(Coverage::of_pricing(), &prices), none);
    let everything = Set::Everything.script();
    assert_eq!(missing(Coverage::of_everything(), &everything), none);
}

#[test]
fn other_seeds_reach_every_category() {
    let parts = [
        (Part::Pricing, 4_000),
        (Part::Table, 6_000),
        (Part::Journal, 6_000),
    ];
    for seed in [2, 3] {
        let text = script(seed, &parts);
        let none = Vec::<String>::new();
        assert_eq!(missing(Coverage::of_everything(), &text), none, "{seed}");
    }
}

#[test]
fn every_rating_and_every_cut() {
    let mut ratings = HashSet::new();
    let mut cuts = HashSet::new();
    for line in lines(&Set::Prices.script()) {
        match read(line) {
            Ok(Some(Call::Rating { network, ampere })) => {
                ratings.insert((network, ampere));
            }
            Ok(Some(Call::House { bytes })) => {
                if let Err((Flaw::CutShort | Flaw::MissingEnd, _)) = house::read(&bytes) {
                    cuts.insert(bytes.len());
                }
            }
            _ => {}
        }
    }
    for network in 0..5 {
        assert!((0..21).all(|ampere| ratings.contains(&(network, ampere))));
    }
    assert!((0..8 * 21 + 3).all(|length| cuts.contains(&length)));
}

#[test]
fn boards_of_random_scripts_are_small() {
    let text = script(4, &[(Part::Both, 30_000)]);
    let mut made = 0;
    for line in lines(&text) {
        if let Ok(Some(Call::Board(figures))) = read(line)
            && figures.check().is_ok()
        {
            made += 1;
            assert!(figures.length() < 20_000_000);
        }
    }
    assert!(made > 40);
}
