//! What the lines about prices reach.

use super::{Coverage, each};
use crate::house::{self, Flaw};
use crate::rules::decree::{self, Place, Plan};
use crate::rules::facts::{LARGEST_FIGURE, LARGEST_KWH, LARGEST_POWER};
use crate::rules::{CIRCUITS, Entries, Facts, Kind, Sheet};
use crate::script::{self, Answer, Call, SheetName, Unreadable};

const ANSWERS: [&str; 8] = [
    "tenths",
    "lines",
    "parts",
    "not-permitted",
    "plan",
    "none",
    "refused",
    "unreadable",
];

/// Why lines about prices cannot be taken.
const UNREADABLE: [Unreadable; 9] = [
    Unreadable::UnknownCall,
    Unreadable::MissingWord,
    Unreadable::SurplusWord,
    Unreadable::UnknownSheet,
    Unreadable::NotDigits,
    Unreadable::TooManyDigits,
    Unreadable::DoesNotFit,
    Unreadable::OddHex,
    Unreadable::NotHex,
];

/// Codes of their own interest: the decree's last, the protected plan's, and beyond.
const CODES: [u64; 5] = [4_373, 4_374, 4_375, 65_000, u64::MAX];

/// A number and what holds of it, at a limit or one beyond it.
type Limit = (&'static str, fn(&Entries) -> bool);

const AT_LIMITS: &[Limit] = &[
    ("class 1", |e| e.class == 1),
    ("marks 0", |e| e.marks == 0),
    ("marks 7", |e| e.marks == 7),
    ("power 1", |e| e.power == 1),
    ("power 2500", |e| e.power == LARGEST_POWER),
    ("X = P", |e| e.exempt == e.power),
    ("kind 3", |e| e.kinds.contains(&3)),
    ("six unused circuits", |e| e.kinds == [0; CIRCUITS]),
    ("day kWh 100000", |e| e.day.contains(&LARGEST_KWH)),
    ("night kWh 100000", |e| e.night.contains(&LARGEST_KWH)),
    ("all kWh 100000", |e| {
        e.day == [LARGEST_KWH; 6] && e.night == e.day
    }),
    ("SE largest", |e| e.se == LARGEST_FIGURE * e.months),
    ("SC largest", |e| e.sc == LARGEST_FIGURE * e.months),
];

const BEYOND_LIMITS: &[Limit] = &[
    ("class 2", |e| e.class == 2),
    ("marks 8", |e| e.marks == 8),
    ("class 1 with mark 4", |e| {
        e.class == 1 && (4..8).contains(&e.marks)
    }),
    ("power 0", |e| e.power == 0),
    ("power 2501", |e| e.power == LARGEST_POWER + 1),
    ("X = P + 1", |e| e.exempt == e.power.saturating_add(1)),
    ("kind 4", |e| e.kinds.contains(&4)),
    ("day kWh 100001", |e| e.day.contains(&(LARGEST_KWH + 1))),
    ("night kWh 100001", |e| e.night.contains(&(LARGEST_KWH + 1))),
    ("day kWh on an unused circuit", |e| {
        (0..CIRCUITS).any(|i| e.kinds[i] == 0 && e.day[i] == 1)
    }),
    ("night kWh on an unused circuit", |e| {
        (0..CIRCUITS).any(|i| e.kinds[i] == 0 && e.night[i] == 1)
    }),
    ("months 0", |e| e.months == 0),
    ("months 13", |e| e.months == 13),
    ("SE one beyond", |e| {
        e.months <= 12 && e.se == LARGEST_FIGURE * e.months + 1
    }),
    ("SC one beyond", |e| {
        e.months <= 12 && e.sc == LARGEST_FIGURE * e.months + 1
    }),
    ("a number of 2^32 or more", |e| {
        e.to_numbers().iter().any(|n| n >> 32 > 0)
    }),
];

/// The values of a house line in their order, with their limits.
const VALUES: [(&str, u32); 8] = [
    ("charge", house::LARGEST_CHARGE),
    ("mills", house::LARGEST_MILLS as u32),
    ("tenths without charge", house::LARGEST_TENTHS as u32),
    ("least power", house::LARGEST_TENTHS as u32),
    ("day N_E", house::LARGEST_PRICE as u32),
    ("day N_C", house::LARGEST_PRICE as u32),
    ("night N_E", house::LARGEST_PRICE as u32),
    ("night N_C", house::LARGEST_PRICE as u32),
];

/// Why a decree plan is not permitted.
const HINDRANCES: [&str; 6] = [
    "a place that the kind does not allow",
    "exclusive night with day kWh",
    "two-rate not requested",
    "extension not agreed",
    "extended without a night-reserved circuit",
    "extended with an exclusive night meter",
];

/// What holds of a decree plan that is priced.
const PRICED: [&str; 7] = [
    "exclusive night meter without kWh",
    "several circuits on the exclusive night meter",
    "several circuits on the peak-shed meter",
    "extended, reserved circuits without kWh",
    "30 kVA below 300 tenths",
    "30 kVA above 300 tenths",
    "excess above 0",
];

/// All categories.
pub fn names() -> Vec<String> {
    let mut names = line_names();
    names.extend(refusal_names());
    names.extend(answer_names());
    names.extend(plan_names());
    names.extend(house_names());
    names
}

fn line_names() -> Vec<String> {
    let spellings = ["a tab", "repeated blanks", "a leading zero", "20 digits"];
    [
        each("answer ", ANSWERS),
        each("line ", ["blank", "comment"]),
        each("spelling with ", spellings),
        each(
            "unreadable ",
            UNREADABLE.map(|reason| format!("{reason:?}")),
        ),
    ]
    .concat()
}

fn refusal_names() -> Vec<String> {
    let flaws = Flaw::ALL.map(|flaw| format!("{}: {flaw:?}", flaw.cause().number()));
    let values = VALUES.map(|(value, _)| format!("{value} one above"));
    let ratings = [
        "unknown network",
        "ampere below 4",
        "ampere above 18",
        "ampere huge",
    ];
    [
        each("refused ", [5, 18, 19, 20, 21]),
        each("refused 5: ", BEYOND_LIMITS.iter().map(|limit| limit.0)),
        each("refused ", flaws),
        each("refused 19: ", values),
        each("refused 21: ", ratings),
    ]
    .concat()
}

fn answer_names() -> Vec<String> {
    let sums = [
        "X above 0",
        "SE other than SC",
        "SE = SC = 0",
        "SE = 0",
        "SC = 0",
    ];
    let sheets = SheetName::ALL.map(SheetName::word);
    [
        each("answered with ", AT_LIMITS.iter().map(|limit| limit.0)),
        each("answered with months ", 1..=12),
        each("answered with ", sums),
        each("parts of ", sheets),
        each("not-permitted of ", sheets),
        each("plan of ", sheets),
        each("none of ", ["house", "protected-house"]),
        each("price of code ", CODES),
        each("not-permitted, ", HINDRANCES),
        each("parts with ", PRICED),
    ]
    .concat()
}

/// Every base with every choice of meters that it allows.
pub fn base_names() -> Vec<String> {
    let mut names = Vec::new();
    for base in 0..6 {
        for meters in ["main only", "night", "shed", "night and shed"] {
            if base < 4 || !meters.starts_with("night") {
                names.push(format!("base {base}, {meters}"));
            }
        }
    }
    names
}

fn plan_names() -> Vec<String> {
    let ends = ["wins", "loses", "not permitted"];
    let plans = [
        "by tie, lowest code",
        "by tie, price above 0",
        "changes by one kWh",
    ];
    [
        each("price of an extended base, night kWh ", 2_999..=3_001),
        each("price of the protected plan, kWh ", 499..=501),
        each("plan ", base_names()),
        each("plan house line ", 0..8),
        each("protected-decree: protected plan ", ends),
        each("protected-house: protected plan ", ends),
        each("plan ", plans),
    ]
    .concat()
}

fn house_names() -> Vec<String> {
    let powers = ["one below", "at", "above"].map(|power| format!("{power} its least power"));
    let tenths = ["within", "beyond"].map(|tenths| format!("{tenths} the tenths without charge"));
    let asked = ["asked without lines", "answered after a refused reading"];
    [
        each("price of a house line, P ", powers),
        each("parts of a house line, P - X ", tenths),
        each("house of ", (1..=8).map(|count| format!("{count} lines"))),
        each(
            "house hex ",
            ["-", "lower-case", "upper-case", "mixed case"],
        ),
        each("house ", asked),
    ]
    .concat()
}

/// A decree plan by its base and its special meters.
pub fn base_name(plan: &Plan) -> String {
    let meters = match (plan.uses(Place::ExclusiveNight), plan.uses(Place::PeakShed)) {
        (false, false) => "main only",
        (true, false) => "night",
        (false, true) => "shed",
        (true, true) => "night and shed",
    };
    format!("base {}, {meters}", plan.base)
}

impl Coverage {
    pub(super) fn price_call(
        &mut self,
        line: &[u8],
        call: &Call,
        answer: &Answer,
        lines_before: usize,
    ) {
        match call {
            Call::Rating { network, ampere } => {
                if matches!(answer, Answer::Refused(_)) {
                    self.refused_rating(*network, *ampere);
                }
            }
            Call::House { bytes } => self.house(line, bytes, lines_before),
            Call::Price {
                sheet,
                code,
                entries,
            } => {
                self.entries(*sheet, entries, answer);
                if let Ok(facts) = Facts::new(entries) {
                    self.price(*sheet, *code, &facts, answer);
                }
            }
            Call::Choose { sheet, entries } => {
                self.entries(*sheet, entries, answer);
                if let Ok(facts) = Facts::new(entries) {
                    self.choice(*sheet, entries, &facts, answer);
                }
            }
            Call::Board(_) | Call::Rows(_) | Call::Cabinet(_) => {}
        }
    }

    fn refused_rating(&mut self, network: u64, ampere: u64) {
        let known = (1..=3).contains(&network);
        self.count_if(!known, "refused 21: unknown network");
        self.count_if(known && ampere < 4, "refused 21: ampere below 4");
        self.count_if(known && ampere > 18, "refused 21: ampere above 18");
        self.count_if(ampere >> 32 > 0, "refused 21: ampere huge");
    }

    fn house(&mut self, line: &[u8], bytes: &[u8], lines_before: usize) {
        let hex = script::words(line).nth(1).unwrap_or_default();
        let lower = hex.iter().any(u8::is_ascii_lowercase);
        let upper = hex.iter().any(u8::is_ascii_uppercase);
        self.count_if(hex == b"-", "house hex -");
        self.count_if(lower && !upper, "house hex lower-case");
        self.count_if(upper && !lower, "house hex upper-case");
        self.count_if(upper && lower, "house hex mixed case");
        match house::read(bytes) {
            Ok(lines) => self.count(&format!("house of {} lines", lines.len())),
            Err((flaw, place)) => {
                self.count(&format!("refused {}: {flaw:?}", flaw.cause().number()));
                if flaw == Flaw::ValueAboveLimit {
                    self.raised_values(&bytes[place + house::HEAD..]);
                }
            }
        }
        self.after_refused_house = house::read(bytes).is_err() && lines_before > 0;
    }

    /// Which values of a line stand one above their limits.
    fn raised_values(&mut self, content: &[u8]) {
        let mut at = 0;
        for (i, (value, limit)) in VALUES.into_iter().enumerate() {
            let width = if i == 0 { 4 } else { 2 };
            let said = content[at..at + width]
                .iter()
                .fold(0, |n, &byte| n << 8 | u32::from(byte));
            self.count_if(said == limit + 1, &format!("refused 19: {value} one above"));
            at += width;
        }
    }

    /// What holds of the numbers of a price or a choice.
    fn entries(&mut self, sheet: SheetName, entries: &Entries, answer: &Answer) {
        if matches!(answer, Answer::Refused(_)) {
            for (limit, holds) in BEYOND_LIMITS {
                self.count_if(holds(entries), &format!("refused 5: {limit}"));
            }
            return;
        }
        for (limit, holds) in AT_LIMITS {
            self.count_if(holds(entries), &format!("answered with {limit}"));
        }
        self.count(&format!("answered with months {}", entries.months));
        self.count_if(entries.exempt > 0, "answered with X above 0");
        self.count_if(entries.se != entries.sc, "answered with SE other than SC");
        match (entries.se, entries.sc) {
            (0, 0) => self.count("answered with SE = SC = 0"),
            (0, _) => self.count("answered with SE = 0"),
            (_, 0) => self.count("answered with SC = 0"),
            _ => {}
        }
        if sheet == SheetName::House {
            let without = self.replay.house.lines.is_empty();
            self.count_if(without, "house asked without lines");
            let priced = matches!(answer, Answer::Parts { .. } | Answer::Plan { .. });
            let after = self.after_refused_house && priced;
            self.count_if(after, "house answered after a refused reading");
        }
    }

    /// The code that the protected layer adds upon a sheet.
    fn protected_code(&self, sheet: SheetName) -> Option<u64> {
        match sheet {
            SheetName::ProtectedDecree => Some(decree::CODES),
            SheetName::ProtectedHouse => Some(self.replay.house.count()),
            _ => None,
        }
    }

    fn price(&mut self, sheet: SheetName, code: u64, facts: &Facts, answer: &Answer) {
        self.count_if(CODES.contains(&code), &format!("price of code {code}"));
        match sheet {
            SheetName::Decree | SheetName::ProtectedDecree => {
                if let Some(plan) = Plan::of(code) {
                    self.decree_price(&plan, facts);
                }
            }
            SheetName::House | SheetName::ProtectedHouse => self.house_price(code, facts),
        }
        if *answer == Answer::NotPermitted {
            self.count(&format!("not-permitted of {}", sheet.word()));
            return;
        }
        self.count(&format!("parts of {}", sheet.word()));
        if self.protected_code(sheet) == Some(code) {
            let kwh = facts.all_kwh();
            let name = format!("price of the protected plan, kWh {kwh}");
            self.count_if((499..=501).contains(&kwh), &name);
        }
    }

    fn decree_price(&mut self, plan: &Plan, facts: &Facts) {
        let hindrances = hindrances(plan, facts);
        // A hindrance counts where it is the only one.
        if hindrances.iter().filter(|holds| **holds).count() == 1 {
            for (name, holds) in HINDRANCES.into_iter().zip(hindrances) {
                self.count_if(holds, &format!("not-permitted, {name}"));
            }
        }
        if hindrances.contains(&true) {
            return;
        }
        for (name, holds) in PRICED.into_iter().zip(circumstances(plan, facts)) {
            self.count_if(holds, &format!("parts with {name}"));
        }
        let (_, night) = plan.kwh_on(Place::Main, facts);
        let name = format!("price of an extended base, night kWh {night}");
        let bends = plan.is_extended() && (2_999..=3_001).contains(&night);
        self.count_if(bends, &name);
    }

    fn house_price(&mut self, code: u64, facts: &Facts) {
        let line = usize::try_from(code)
            .ok()
            .and_then(|code| self.replay.house.lines.get(code));
        let Some(line) = line.copied() else { return };
        let above = facts.profile.power - i128::from(line.least_power);
        let powers = match above {
            ..-1 => return,
            -1 => "one below",
            0 => "at",
            1.. => "above",
        };
        self.count(&format!(
            "price of a house line, P {powers} its least power"
        ));
        if above >= 0 {
            let tenths = facts.profile.power - facts.profile.exempt;
            let within = tenths <= i128::from(line.without_charge);
            let tenths = if within { "within" } else { "beyond" };
            let name = format!("parts of a house line, P - X {tenths} the tenths without charge");
            self.count(&name);
        }
    }

    fn choice(&mut self, sheet: SheetName, entries: &Entries, facts: &Facts, answer: &Answer) {
        let Answer::Plan { code, parts, .. } = *answer else {
            self.count(&format!("none of {}", sheet.word()));
            return;
        };
        self.count(&format!("plan of {}", sheet.word()));
        self.winner(sheet, code, facts);
        let all = script::sheet(&self.replay.house, sheet);
        let tied = (code + 1..all.count())
            .filter_map(|other| all.price(other, facts))
            .any(|other| other.sum() == parts.sum());
        drop(all);
        self.count_if(tied, "plan by tie, lowest code");
        self.count_if(tied && parts.sum() > 0, "plan by tie, price above 0");
        if let Some((sheet_before, entries_before, code_before)) = &self.before {
            let steps: u64 = entries_before
                .to_numbers()
                .iter()
                .zip(entries.to_numbers())
                .map(|(before, now)| before.abs_diff(now))
                .sum();
            let changes = *sheet_before == sheet && steps == 1 && *code_before != code;
            self.count_if(changes, "plan changes by one kWh");
        }
        self.before = Some((sheet, entries.clone(), code));
    }

    /// Which plan won.
    fn winner(&mut self, sheet: SheetName, code: u64, facts: &Facts) {
        let protected = self.protected_code(sheet);
        if protected == Some(code) {
            self.count(&format!("{}: protected plan wins", sheet.word()));
            return;
        }
        if matches!(sheet, SheetName::House | SheetName::ProtectedHouse) {
            self.count(&format!("plan house line {code}"));
        } else if let Some(plan) = Plan::of(code) {
            self.count(&format!("plan {}", base_name(&plan)));
        }
        if let Some(code) = protected {
            let all = script::sheet(&self.replay.house, sheet);
            let offered = all.price(code, facts).is_some();
            drop(all);
            let how = if offered { "loses" } else { "not permitted" };
            self.count(&format!("{}: protected plan {how}", sheet.word()));
        }
    }
}

fn circuits_on(plan: &Plan, place: Place) -> impl Iterator<Item = usize> {
    (0..CIRCUITS).filter(move |&circuit| plan.places[circuit] == place)
}

/// Which of `HINDRANCES` stand against a plan.
fn hindrances(plan: &Plan, facts: &Facts) -> [bool; 6] {
    let profile = &facts.profile;
    let is = |circuit: usize, kind: Kind| profile.kinds[circuit] == kind;
    let on_night = || circuits_on(plan, Place::ExclusiveNight);
    let two_rate = matches!(plan.base, 1 | 3 | 4 | 5);
    let extended = plan.is_extended();
    [
        !on_night().all(|circuit| is(circuit, Kind::NightReserved))
            || !circuits_on(plan, Place::PeakShed).all(|circuit| is(circuit, Kind::Interruptible)),
        on_night().any(|circuit| is(circuit, Kind::NightReserved) && facts.day[circuit] > 0),
        two_rate && !profile.two_rate_requested(),
        extended && !profile.extension_agreed(),
        extended && !profile.kinds.contains(&Kind::NightReserved),
        extended && on_night().next().is_some(),
    ]
}

/// Which of `PRICED` hold of a permitted plan.
fn circumstances(plan: &Plan, facts: &Facts) -> [bool; 7] {
    let profile = &facts.profile;
    let nights = circuits_on(plan, Place::ExclusiveNight).count();
    let is_30_kva = matches!(plan.base, 2 | 3 | 5);
    let reserved_kwh: i128 = (0..CIRCUITS)
        .filter(|&circuit| profile.kinds[circuit] == Kind::NightReserved)
        .map(|circuit| facts.day[circuit] + facts.night[circuit])
        .sum();
    [
        nights > 0 && plan.kwh_on(Place::ExclusiveNight, facts) == (0, 0),
        nights > 1,
        circuits_on(plan, Place::PeakShed).count() > 1,
        plan.is_extended() && reserved_kwh == 0,
        is_30_kva && profile.power - profile.exempt < 300,
        is_30_kva && profile.power - profile.exempt > 300,
        !is_30_kva && profile.excess() > 0,
    ]
}
