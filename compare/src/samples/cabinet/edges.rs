//! Openings and payments at their limits.

use crate::cabinet::Opening;
use crate::cabinet::account::{LARGEST_INDEX, LARGEST_PAYMENT, LAST_MONTH, REGISTERS};
use crate::rules::CIRCUITS;
use crate::rules::facts::LARGEST_POWER;
use crate::samples::calls::open_words;
use crate::samples::{Turn, Writer};

/// Moves some numbers of an opening, with a random register at hand.
pub type Push = fn(&mut Writer, &mut Opening, usize);

/// To a limit.
const TO_LIMITS: [Push; 14] = [
    |_, o, _| (o.class, o.marks) = (1, 3),
    |_, o, _| (o.class, o.marks) = (0, 7),
    |_, o, _| (o.power, o.exempt) = (1, 0),
    |_, o, _| (o.power, o.exempt) = (1, 1),
    |_, o, _| (o.power, o.exempt) = (LARGEST_POWER, 0),
    |_, o, _| o.exempt = o.power,
    |_, o, _| o.first = 0,
    |_, o, _| o.first = LAST_MONTH,
    |_, o, _| (o.kinds, o.indices) = ([0; CIRCUITS], [0; REGISTERS]),
    |_, o, r| (o.kinds[r / 2], o.indices[r]) = (1, LARGEST_INDEX),
    |_, o, r| (o.kinds[r / 2], o.indices[r]) = (3, 0),
    |_, o, _| (o.kinds, o.indices) = ([2; CIRCUITS], [LARGEST_INDEX; REGISTERS]),
    |w, o, _| o.first = w.due(),
    |w, o, _| o.first = (w.due() + 1).min(LAST_MONTH),
];

/// Beyond a limit.
pub const BEYOND_LIMITS: [Push; 22] = [
    |_, o, _| o.class = 2,
    |_, o, _| o.marks = 8,
    |w, o, _| (o.class, o.marks) = (1, w.rng.range(4, 7)),
    |_, o, _| (o.power, o.exempt) = (0, 0),
    |_, o, _| o.power = LARGEST_POWER + 1,
    |_, o, _| o.exempt = o.power + 1,
    |_, o, r| o.kinds[r / 2] = 4,
    |_, o, _| o.first = LAST_MONTH + 1,
    |_, o, r| (o.kinds[r / 2], o.indices[r]) = (1, LARGEST_INDEX + 1),
    |_, o, r| (o.kinds[r / 2], o.indices[r]) = (0, 1),
    |w, o, _| o.class = w.huge(0),
    |w, o, _| o.marks = w.huge(o.marks),
    |w, o, _| o.power = w.huge(o.power),
    |_, o, _| o.exempt = u64::MAX,
    |w, o, r| o.kinds[r / 2] = w.huge(1),
    |w, o, _| o.first = w.huge(o.first).max(LAST_MONTH + 1),
    |w, o, r| o.indices[r] = w.huge(0).max(LARGEST_INDEX + 1),
    |_, o, r| (o.kinds[r / 2], o.indices[r]) = (0, LARGEST_INDEX),
    |_, o, _| o.first = 65_536,
    |_, o, _| o.kinds[5] = 256,
    |_, o, _| o.indices[11] = u64::MAX,
    |_, o, _| (o.class, o.power, o.first) = (2, 0, LAST_MONTH + 1),
];

impl Writer {
    pub fn pushed_opening(&mut self, push: Push) -> Opening {
        let habit = self.habit();
        let mut opening = self.opening(&habit);
        let register = self.rng.below(REGISTERS);
        push(self, &mut opening, register);
        opening
    }

    /// Openings at their limits in turn.
    pub fn edge_opening(&mut self) {
        if self.is_board_full() {
            return self.close_account();
        }
        let Some(number) = self.vacant_number() else {
            return self.close_account();
        };
        let push = TO_LIMITS[self.turn(Turn::EdgeOpening, TO_LIMITS.len())];
        let opening = self.pushed_opening(push);
        self.say(open_words(number, &opening));
        self.habits.remove(&number);
        self.look_at(number);
    }

    /// The least and the largest payment.
    pub fn edge_payment(&mut self) {
        let Some((number, _)) = self.any_account() else {
            return self.open_account();
        };
        let amount = self.rng.pick(&[1, 1, 2, LARGEST_PAYMENT]);
        self.say_numbers("pay", &[number, amount]);
        self.look_at(number);
    }
}
