//! Lines about ratings, house sheets, prices and choices.

mod break_even;
mod facts;
mod houses;
mod limits;
mod topics;

pub use facts::Wanted;

use super::Writer;

impl Writer {
    pub fn pricing(&mut self) {
        self.empty_house();
        while !self.is_full() {
            self.any_pricing_topic();
        }
    }
}
