//! Encodings at the end of every script, on what its other calls leave.

use super::{any_side, store_changed, store_faulty, wrong_length, Composer, FEW_ROUNDS};
use crate::encoding::bits_of;
use crate::exchange::OTHERS;
use crate::generate::encodings::{self, any_closed, without_encoding, Encoding};
use crate::press::{term_in, Side};
use crate::random::Random;
use crate::replay::Operation;
use crate::table::LONGEST_TABLE;
use crate::term::{Term, WORKSPACE};

/// Exports of the forms that are there, then encodings and exports of every kind.
pub fn exchange(random: &mut Random, composer: &mut Composer) {
    composer.budget = composer.budget.min(FEW_ROUNDS);
    for side in [Side::Left, Side::Right] {
        if random.percent(50) {
            composer.export(random, side, 15);
        }
    }
    // Workspaces of a wrong length come in few scripts.
    let calls = match composer.has_right_lengths() {
        true => random.between(5, 8),
        false => random.between(12, 20),
    };
    for _ in 0..calls {
        any_exchange(random, composer);
        match random.below(12) {
            0 => composer.store_behind(random),
            1 => composer.print(),
            2 => composer.press(random.pick(&[0, 1, FEW_ROUNDS])),
            3 => composer.show(),
            _ => {}
        }
    }
    composer.print();
}

fn any_exchange(random: &mut Random, composer: &mut Composer) {
    let side = any_side(random);
    let room = composer.room(side);
    match random.below(20) {
        0..=7 => composer.any_encoding(random),
        8..=10 => {
            let term = any_closed(random, room);
            composer.bring(random, side, &term);
            composer.export(random, side, 5);
        }
        11 => {
            let term = any_closed(random, room);
            composer.bring(random, side, &term);
            composer.there_and_back(random, side);
        }
        12..=16 => {
            let other = random.pick(&OTHERS);
            let term = without_encoding(random, other, room);
            composer.load_table(random, side, &term);
            composer.export(random, side, 30);
        }
        17 if composer.has_right_lengths() => {
            let words = match random.percent(50) {
                true => store_changed,
                false => store_faulty,
            };
            words(random, composer, side);
            composer.export(random, side, 5);
        }
        17 | 18 => composer.there_and_back(random, side),
        _ => composer.export_much(random, side),
    }
}

impl Composer {
    fn has_right_lengths(&self) -> bool {
        let lengths = [self.machine.left.len(), self.machine.right.len()];
        lengths.iter().all(|length| WORKSPACE.contains(length))
    }

    /// The words that a side's workspace has, or might have.
    fn room(&self, side: Side) -> usize {
        let length = self.workspace(side).len();
        length.clamp(*WORKSPACE.start(), *WORKSPACE.end())
    }

    fn import(&mut self, side: Side, encoding: Encoding) {
        let Encoding { bytes, count } = encoding;
        self.add(Operation::Import { side, count, bytes });
    }

    /// An encoding of any kind, most often one that is refused.
    fn any_encoding(&mut self, random: &mut Random) {
        let side = any_side(random);
        let encoding = encodings::any(random, self.room(side));
        self.import(side, encoding);
    }

    /// Brings a closed term in by an encoding, a line or a table.
    fn bring(&mut self, random: &mut Random, side: Side, term: &Term) {
        match random.below(4) {
            0 => self.type_in(random, side, term),
            1 => self.load_table(random, side, term),
            _ => self.import(side, Encoding::of(term).with_spare(random)),
        }
    }

    /// The encoding of a side's term, if it has one.
    fn encoding(&self, side: Side) -> Option<Encoding> {
        let term = term_in(self.workspace(side), self.length(side)).ok()?;
        let bits = bits_of(&term).filter(|_| term.is_closed())?;
        Some(Encoding::of_bits(&bits))
    }

    /// Exports a side's term, with `wrong` of 100 lengths wrong, or more where
    /// the workspace is, into enough bytes, too few or more.
    fn export(&mut self, random: &mut Random, side: Side, wrong: usize) {
        let length = self.length(side);
        let enough = match self.encoding(side) {
            Some(encoding) => encoding.bytes.len(),
            None => (length as usize).div_ceil(3),
        };
        let any = random.below(enough + 1);
        let more = enough + random.between(1, 9);
        let one_less = enough.saturating_sub(1);
        let bytes = random.pick(&[
            enough, enough, enough, one_less, one_less, one_less, more, more, 0, any,
        ]);
        let bytes = match random.percent(1) {
            true => LONGEST_TABLE,
            false => bytes.min(LONGEST_TABLE),
        };
        let wrong = match WORKSPACE.contains(&self.workspace(side).len()) {
            true => wrong,
            false => 50,
        };
        let length = wrong_length(random, length, wrong);
        self.add(Operation::Export {
            side,
            length,
            bytes,
        });
    }

    /// Exports a side's term, and imports what was exported.
    fn there_and_back(&mut self, random: &mut Random, side: Side) {
        let Some(encoding) = self.encoding(side) else {
            return self.export(random, side, 10);
        };
        let encoding = encoding.with_spare(random);
        let bytes = encoding.bytes.len().min(LONGEST_TABLE);
        let length = self.length(side);
        self.add(Operation::Export {
            side,
            length,
            bytes,
        });
        if bytes == encoding.bytes.len() {
            self.import(any_side(random), encoding);
        }
    }

    /// Exports a term whose bits are about as many as a script lends.
    fn export_much(&mut self, random: &mut Random, side: Side) {
        // With 321 items they are 7 less, with one more they are too many.
        let items = random.between(321, 322);
        let term = match random.percent(50) {
            true => encodings::wide(random),
            false => encodings::wide_of(200, items),
        };
        if term.size() > self.room(side) {
            return self.there_and_back(random, side);
        }
        self.load_table(random, side, &term);
        let length = self.length(side);
        let bytes = LONGEST_TABLE - random.below(2);
        self.add(Operation::Export {
            side,
            length,
            bytes,
        });
    }
}
