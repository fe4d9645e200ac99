//! Importers and exporters of encodings.

use crate::{first_met, workspace, Told};
use reference::encoding;
use reference::generate::scripts;
use reference::on_large_stack;
use reference::replay::{run_watched, Operation};
use reference::words::read;

mistakes! {
    Mistake;
    MISTAKES:
    // Other bits.
    LowestBitFirst,
    KindsExchanged,
    IndexFromOne,
    RunEndsAtWindow,
    RunOfOneWindow,
    RunBehindAWindowIsNew,
    RunInOneByte,
    RunInSixteenBits,
    WindowWithoutItsLastBit,
    // Other encodings are accepted or refused.
    CountNotTested,
    CountMayPassByOne,
    CountIsBelowTheBytes,
    CountInSixteenBits,
    CountTimesEight,
    LastZeroNotNeeded,
    EndIsZeros,
    LeftOverNotTested,
    LeftOverZerosAllowed,
    LeftOverUpToAByte,
    PaddingNotTested,
    PaddingOfLastByteOnly,
    PaddingOfOtherBytesOnly,
    PaddingFirstBitNotTested,
    PaddingLastBitNotTested,
    SpareBytesRefused,
    EmptyIsVariable,
    // Free variables and room.
    ClosedNotTested,
    FreeNumberUpTo255,
    ClosedByOneMore,
    BindersStayBehindAbstractions,
    FitsBelowC,
    FitsByOneMore,
    // The order of the checks.
    EncodingBeforeWorkspace,
    RoomBeforeWorkspace,
    ClosedBeforeWorkspace,
    RoomBeforeEncoding,
    ClosedBeforeEncoding,
    ClosedBeforeRoom,
    // What is left in the workspace, and the answer.
    ZerosLeftOut,
    ClearedWhenRefused,
    WrittenThoughOpen,
    WrittenThoughTooLong,
    AnswersBits;
}

/// A reader without recursion: bits from the first to the last, with a list of
/// the binders around each term that is still to come.
struct Reader<'a> {
    mistake: Mistake,
    bytes: &'a [u8],
    count: u64,
    at: u64,
    words: Vec<u32>,
    open: bool,
}

impl Reader<'_> {
    fn is(&self, mistake: Mistake) -> bool {
        self.mistake == mistake
    }

    /// The bit at a place; past the bytes it is 0.
    fn bit_at(&self, at: u64) -> bool {
        let Some(byte) = self.bytes.get((at / 8) as usize) else {
            return false;
        };
        match self.is(Mistake::LowestBitFirst) {
            true => byte >> (at % 8) & 1 == 1,
            false => byte << (at % 8) & 128 == 128,
        }
    }

    fn bit(&mut self) -> Option<bool> {
        // Past the bytes nothing but zeros would come, without an end.
        let last = self.at > 8 * self.bytes.len() as u64 + 64;
        let zeros = self.is(Mistake::EndIsZeros) && !last;
        if self.at >= self.count && !zeros || last {
            return None;
        }
        self.at += 1;
        Some(self.at <= self.count && self.bit_at(self.at - 1))
    }

    /// Whether the bits begin with a whole term.
    fn whole(&mut self) -> bool {
        if self.count == 0 && self.is(Mistake::EmptyIsVariable) {
            self.words.push(0);
            self.open = true;
            return true;
        }
        let mut waiting = vec![0];
        while let Some(binders) = waiting.pop() {
            let Some(first) = self.bit() else {
                return false;
            };
            if first {
                let Some(ones) = self.run() else {
                    return false;
                };
                self.variable(ones, binders, &mut waiting);
                continue;
            }
            let Some(second) = self.bit() else {
                return false;
            };
            match second != self.is(Mistake::KindsExchanged) {
                false => {
                    self.words.push(1);
                    waiting.push(binders + 1);
                }
                true => {
                    self.words.push(2);
                    waiting.extend([binders, binders]);
                }
            }
        }
        true
    }

    /// The ones of a run of which the first is read, and its zero.
    fn run(&mut self) -> Option<u64> {
        let start = self.at - 1;
        let mut ones = 1;
        loop {
            let edge = self.at.is_multiple_of(64);
            match self.mistake {
                Mistake::RunEndsAtWindow if edge => return Some(ones),
                Mistake::RunOfOneWindow if self.at - start == 64 => return Some(ones),
                Mistake::RunBehindAWindowIsNew if edge => ones = 0,
                Mistake::WindowWithoutItsLastBit if self.at % 64 == 63 => {
                    // The last bit of the window is taken for the zero.
                    self.bit()?;
                    return Some(ones);
                }
                _ => {}
            }
            match self.bit() {
                Some(true) => ones += 1,
                Some(false) => return Some(ones),
                None if self.is(Mistake::LastZeroNotNeeded) => return Some(ones),
                None => return None,
            }
        }
    }

    fn variable(&mut self, ones: u64, binders: u64, waiting: &mut [u64]) {
        let index = match self.mistake {
            Mistake::IndexFromOne => ones,
            Mistake::RunInOneByte => ones.wrapping_sub(1) % 256,
            Mistake::RunInSixteenBits => ones.wrapping_sub(1) % 65_536,
            _ => ones.wrapping_sub(1),
        };
        let bound = match self.mistake {
            Mistake::FreeNumberUpTo255 => index < binders + 256,
            Mistake::ClosedByOneMore => index <= binders,
            Mistake::ClosedNotTested => true,
            _ => index < binders,
        };
        self.open |= !bound;
        self.words.push((index as u32).wrapping_mul(8));
        if let (Some(next), true) = (
            waiting.last_mut(),
            self.is(Mistake::BindersStayBehindAbstractions),
        ) {
            *next = binders.max(*next);
        }
    }

    /// Whether a bit past the count is 1 among those that are tested.
    fn breaks_padding(&self) -> bool {
        let lent = 8 * self.bytes.len() as u64;
        let byte_end = self.count.next_multiple_of(8);
        let (from, to) = match self.mistake {
            Mistake::PaddingNotTested => (lent, lent),
            Mistake::PaddingOfLastByteOnly => (self.count, byte_end.min(lent)),
            Mistake::PaddingOfOtherBytesOnly => (byte_end, lent),
            Mistake::PaddingFirstBitNotTested => (self.count + 1, lent),
            Mistake::PaddingLastBitNotTested => (self.count, lent.saturating_sub(1)),
            _ => (self.count, lent),
        };
        (from..to).any(|at| self.bit_at(at))
    }
}

/// The answer, with the numbers of refusals, and the workspace after it.
fn import(
    mistake: Mistake,
    bytes: &[u8],
    count: u32,
    workspace: &[u32],
) -> (Result<u32, u32>, Vec<u32>) {
    let is = |other| mistake == other;
    let lent = 8 * bytes.len() as u64;
    let count = match mistake {
        Mistake::CountInSixteenBits => u64::from(count % 65_536),
        Mistake::CountTimesEight => u64::from(count % (1 << 29)),
        Mistake::CountNotTested => u64::from(count).min(lent),
        _ => u64::from(count),
    };
    let past = match mistake {
        Mistake::CountMayPassByOne => count > lent + 1,
        Mistake::CountIsBelowTheBytes => count >= lent,
        _ => count > lent,
    };
    let mut reader = Reader {
        mistake,
        bytes,
        count: count.min(lent + 1),
        at: 0,
        words: Vec::new(),
        open: false,
    };
    let whole = reader.whole();
    let rest = reader.at..reader.count;
    let left_over = match mistake {
        Mistake::LeftOverNotTested => false,
        Mistake::LeftOverZerosAllowed => rest.clone().any(|at| reader.bit_at(at)),
        Mistake::LeftOverUpToAByte => rest.end.saturating_sub(rest.start) >= 8,
        _ => rest.start < rest.end,
    };
    let spare = is(Mistake::SpareBytesRefused) && lent >= count + 8;
    let fault = past || !whole || left_over || spare || reader.breaks_padding();
    let mut workspace = workspace.to_vec();
    let capacity = workspace.len();
    let words = &reader.words;
    let room = match mistake {
        Mistake::FitsBelowC => words.len() + 1 > capacity,
        Mistake::FitsByOneMore => words.len() > capacity + 1,
        _ => words.len() > capacity,
    };
    let open = reader.open;
    let refused = first_met(&[
        (is(Mistake::EncodingBeforeWorkspace) && fault, 12),
        (is(Mistake::RoomBeforeWorkspace) && !fault && room, 8),
        (is(Mistake::ClosedBeforeWorkspace) && !fault && open, 13),
        (!(16..=2_048).contains(&capacity), 7),
        (is(Mistake::RoomBeforeEncoding) && room, 8),
        (is(Mistake::ClosedBeforeEncoding) && open, 13),
        (fault, 12),
        (is(Mistake::ClosedBeforeRoom) && open, 13),
        (room, 8),
        (open, 13),
    ]);
    let written = match refused {
        None => true,
        Some(13) => is(Mistake::WrittenThoughOpen),
        Some(8) => is(Mistake::WrittenThoughTooLong),
        Some(_) => false,
    };
    if written {
        let zeros = match is(Mistake::ZerosLeftOut) {
            true => 0,
            false => capacity,
        };
        let all = words.iter().copied().chain(vec![0; zeros]);
        for (place, word) in workspace.iter_mut().zip(all) {
            *place = word;
        }
    }
    if refused.is_some() && is(Mistake::ClearedWhenRefused) {
        workspace.fill(0);
    }
    let answer = match is(Mistake::AnswersBits) {
        true => count as usize,
        false => words.len(),
    };
    (refused.map_or(Ok(answer as u32), Err), workspace)
}

mistakes! {
    Slip;
    SLIPS:
    // Other bits.
    LowestBitFirst,
    KindsExchanged,
    IndexWithoutItsZero,
    RunOfIndex,
    RunUpToAWindow,
    RunAcrossBytesIsCut,
    // Bytes.
    RestKept,
    RestOfLastByteKept,
    RestIsOnes,
    OneByteMoreNeeded,
    RoundedDown,
    RoomByWords,
    BitsInSixteen,
    AnswersBytes,
    AnswersWords,
    FilledThoughTooFew,
    ClearedWhenRefused,
    // What has an encoding.
    FreeNotTested,
    FreeByOneMore,
    ConstructorLeftOut,
    NumeralIsItsEntry,
    CaseLeftOut,
    LengthNotTested,
    AllWordsTested,
    // The order of the checks.
    TermBeforeWorkspace,
    RoomBeforeTerm,
    EncodingBeforeTerm,
    RoomBeforeEncoding;
}

/// The bits of words from the first to the last, and whether they are those of
/// a closed term.
fn bits_of_words(slip: Slip, words: &[u32]) -> (Vec<bool>, bool) {
    let mut bits = Vec::new();
    let mut closed = true;
    // The binders around each term that is still to come.
    let mut waiting = vec![0];
    for word in words {
        let binders = waiting.pop().unwrap_or(0);
        let (kind, payload) = (word % 8, word / 8);
        match kind {
            0 => {
                let limit = binders + u32::from(slip == Slip::FreeByOneMore);
                closed &= payload < limit || slip == Slip::FreeNotTested;
                let mut ones = payload as usize + 1;
                match slip {
                    Slip::RunOfIndex => ones -= 1,
                    Slip::RunUpToAWindow => ones = ones.min(64),
                    Slip::RunAcrossBytesIsCut if ones > 8 => ones = 8,
                    _ => {}
                }
                bits.extend(vec![true; ones]);
                if slip != Slip::IndexWithoutItsZero {
                    bits.push(false);
                }
            }
            1 | 2 => {
                let is_application = (kind == 2) != (slip == Slip::KindsExchanged);
                bits.extend([false, is_application]);
                match kind {
                    1 => waiting.push(binders + 1),
                    _ => waiting.extend([binders, binders]),
                }
            }
            3 if slip == Slip::ConstructorLeftOut => {
                waiting.extend(vec![binders; payload as usize % 16]);
            }
            4 if slip == Slip::CaseLeftOut => {
                waiting.extend(vec![binders; payload as usize % 16 + 1]);
            }
            5 if slip == Slip::CaseLeftOut => waiting.push(binders + payload % 16),
            6 if slip == Slip::NumeralIsItsEntry => {
                bits.extend([false; 4]);
                for _ in 0..payload {
                    bits.extend([false, true, true, true, false]);
                }
                bits.extend([true, false]);
            }
            _ => closed = false,
        }
    }
    (bits, closed)
}

/// The answer, with the numbers of refusals, and the bytes after it.
fn export(slip: Slip, workspace: &[u32], length: u32, bytes: usize) -> (Result<u32, u32>, Vec<u8>) {
    let is = |other| slip == other;
    let mut bytes = vec![7; bytes];
    let capacity = workspace.len();
    let given = match slip {
        Slip::LengthNotTested => capacity.min(length as usize),
        _ => length as usize,
    };
    let words = workspace.get(..given);
    let term = words.and_then(read);
    let tested = match is(Slip::AllWordsTested) {
        true => workspace,
        false => words.unwrap_or(workspace),
    };
    let whole = words.filter(|_| term.is_some()).unwrap_or(&[]);
    let (mut bits, mut closed) = bits_of_words(slip, whole);
    if is(Slip::AllWordsTested) {
        closed &= tested.iter().all(|word| word % 8 < 3);
    }
    let has_other = tested.iter().any(|word| word % 8 > 2);
    let needed = match slip {
        Slip::OneByteMoreNeeded => bits.len() / 8 + 1,
        Slip::RoundedDown => bits.len() / 8,
        Slip::RoomByWords => bits.len().div_ceil(8).max(given),
        Slip::BitsInSixteen => (bits.len() % 65_536).div_ceil(8),
        _ => bits.len().div_ceil(8),
    };
    let few = needed > bytes.len();
    let refused = first_met(&[
        (is(Slip::TermBeforeWorkspace) && term.is_none(), 10),
        (!(16..=2_048).contains(&capacity), 7),
        (is(Slip::RoomBeforeTerm) && bytes.is_empty(), 8),
        (is(Slip::EncodingBeforeTerm) && has_other, 13),
        (term.is_none(), 10),
        (is(Slip::RoomBeforeEncoding) && few, 8),
        (!closed, 13),
        (few, 8),
    ]);
    let too_few = refused == Some(8) && is(Slip::FilledThoughTooFew);
    if refused.is_none() || too_few {
        let last = bytes.len().min(needed);
        match slip {
            Slip::RestKept => bytes[..last].fill(0),
            Slip::RestIsOnes => {
                bytes.fill(0);
                let full = bits.len().next_multiple_of(8);
                bits.resize(full, true);
            }
            Slip::RestOfLastByteKept => {
                bytes.fill(0);
                if let (true, Some(byte)) = (bits.len() % 8 > 0, bytes.get_mut(bits.len() / 8)) {
                    *byte = 7 & (255 >> (bits.len() % 8));
                }
            }
            _ => bytes.fill(0),
        }
        for (at, _) in bits.iter().enumerate().filter(|(_, bit)| **bit) {
            if let Some(byte) = bytes.get_mut(at / 8) {
                *byte |= match is(Slip::LowestBitFirst) {
                    true => 1 << (at % 8),
                    false => 128 >> (at % 8),
                };
            }
        }
    }
    if refused.is_some() && is(Slip::ClearedWhenRefused) {
        bytes.fill(0);
    }
    let answer = match slip {
        Slip::AnswersBytes => bits.len().div_ceil(8),
        Slip::AnswersWords => given,
        _ => bits.len(),
    };
    (refused.map_or(Ok(answer as u32), Err), bytes)
}

#[test]
fn scripts_tell_wrong_importers() {
    let told = on_large_stack(|| {
        let mut told = Told::of(MISTAKES);
        for case in 0..1_200 {
            run_watched(&scripts::script(71, case), |before, operation| {
                if let Operation::Import { side, count, bytes } = operation {
                    let before = workspace(before, *side);
                    let mut after = before.to_vec();
                    let answer = encoding::import(bytes, *count, &mut after);
                    let expected = (answer.map_err(|refusal| refusal.number()), after);
                    told.look(&expected, |mistake| import(mistake, bytes, *count, before));
                }
            });
        }
        told
    });
    told.assert_all(6);
}

#[test]
fn scripts_tell_wrong_exporters() {
    let told = on_large_stack(|| {
        let mut told = Told::of(SLIPS);
        for case in 0..800 {
            run_watched(&scripts::script(72, case), |before, operation| {
                if let Operation::Export {
                    side,
                    length,
                    bytes,
                } = operation
                {
                    let before = workspace(before, *side);
                    let mut after = vec![7; *bytes];
                    let answer = encoding::export(before, *length, &mut after);
                    let expected = (answer.map_err(|refusal| refusal.number()), after);
                    told.look(&expected, |slip| export(slip, before, *length, *bytes));
                }
            });
        }
        told
    });
    told.assert_all(6);
}
