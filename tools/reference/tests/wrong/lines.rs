//! Readers of lines.

use crate::{first_met, workspace, Told};
use reference::generate::scripts;
use reference::line::read_line;
use reference::on_large_stack;
use reference::replay::{run_watched, Operation};

mistakes! {
    Mistake;
    MISTAKES:
    // Another term.
    BodyIsOneItem,
    BodyOfAnArgumentIsOneItem,
    GroupsToTheRight,
    // Other lines are accepted.
    LeadingZeros,
    NumberInSixteenBits,
    NumberInThirtyTwoBits,
    NumberCutToSixteenBits,
    LargestIndexIsOneMore,
    SpaceAtStart,
    SpaceAtEnd,
    SpacesInARow,
    SpaceBehindBackslash,
    SpaceBehindOpen,
    SpaceBeforeClose,
    NoSpaceBeforeOpen,
    NoSpaceBehindClose,
    NoSpaceBeforeBackslash,
    OpenToTheEnd,
    ClosedTooOften,
    TabIsSpace,
    NewlineAtEnd,
    EndsAtByteZero,
    EmptyIsIndexZero,
    SevenBits,
    LengthUpTo1025,
    LengthNotTested,
    // Other lines are refused.
    LargestIndexIsOneLess,
    AbstractionOnlyFirst,
    NoParenthesesAroundAnIndex,
    NoParenthesesInParentheses,
    FewParentheses,
    FewAbstractions,
    FewItems,
    LengthUpTo1023,
    // Free numbers and room.
    FreeNumberNotTested,
    FreeNumberUpTo254,
    FreeNumberUpTo256,
    FreeNumberIsIndex,
    BindersStayBehindParentheses,
    BindersInOneByte,
    FitsBelowC,
    FitsByOneMore,
    FitsByBytes,
    // The order of the checks.
    GrammarBeforeWorkspace,
    FreeNumberBeforeWorkspace,
    RoomBeforeWorkspace,
    FreeNumberBeforeGrammar,
    RoomBeforeGrammar,
    RoomBeforeFreeNumber,
    // What is left in the workspace, and the answer.
    ZerosLeftOut,
    ClearedWhenOutside,
    WrittenThoughFree,
    WrittenThoughTooLong,
    AnswersBytes;
}

/// What stays open up to the end of the line or of a parenthesis.
#[derive(Clone, Copy, Debug, PartialEq, Eq)]
enum Opened {
    Line,
    Parenthesis,
    /// An abstraction that is the first item of what is around it, or not.
    Abstraction {
        first: bool,
    },
}

/// What is open, with the words of the items that stand in it so far.
struct Frame {
    opened: Opened,
    items: Vec<Vec<u32>>,
}

/// A reader without recursion: bytes from left to right, with a list of all
/// that is open.
struct Reader {
    mistake: Mistake,
    open: Vec<Frame>,
    binders: u32,
    /// Whether the last bytes were an item.
    behind_item: bool,
    free_too_large: bool,
    words: usize,
}

impl Reader {
    fn new(mistake: Mistake) -> Self {
        let line = Frame {
            opened: Opened::Line,
            items: Vec::new(),
        };
        Reader {
            mistake,
            open: vec![line],
            binders: 0,
            behind_item: false,
            free_too_large: false,
            words: 0,
        }
    }

    fn is(&self, mistake: Mistake) -> bool {
        self.mistake == mistake
    }

    fn top(&mut self) -> &mut Frame {
        let last = self.open.len() - 1;
        &mut self.open[last]
    }

    /// The words of the line, if it is one.
    fn line(&mut self, line: &[u8]) -> Option<Vec<u32>> {
        let longest = match self.mistake {
            Mistake::LengthUpTo1023 => 1_023,
            Mistake::LengthUpTo1025 => 1_025,
            Mistake::LengthNotTested => usize::MAX,
            _ => 1_024,
        };
        let empty = line.is_empty() && !self.is(Mistake::EmptyIsIndexZero);
        if empty || line.len() > longest {
            return None;
        }
        let mut line = line.to_vec();
        self.mend(&mut line);
        let mut at = 0;
        while at < line.len() {
            at += self.next(&line, at)?;
        }
        let close = self.is(Mistake::OpenToTheEnd);
        while self.open.len() > 1 {
            let is_parenthesis = self.top().opened == Opened::Parenthesis;
            if !self.behind_item || is_parenthesis && !close {
                return None;
            }
            self.close()?;
        }
        let frame = self.open.pop()?;
        if !self.behind_item {
            return None;
        }
        self.grouped(frame.items)
    }

    /// Makes bytes right that the reader takes for right ones.
    fn mend(&self, line: &mut Vec<u8>) {
        match self.mistake {
            Mistake::TabIsSpace => line
                .iter_mut()
                .filter(|byte| **byte == b'\t')
                .for_each(|byte| *byte = b' '),
            Mistake::EmptyIsIndexZero if line.is_empty() => line.push(b'0'),
            Mistake::SevenBits => line.iter_mut().for_each(|byte| *byte &= 127),
            Mistake::EndsAtByteZero => {
                let end = line.iter().position(|byte| *byte == 0);
                line.truncate(end.unwrap_or(line.len()));
            }
            Mistake::NewlineAtEnd if line.ends_with(b"\n") => line.truncate(line.len() - 1),
            Mistake::SpaceAtEnd if line.ends_with(b" ") => line.truncate(line.len() - 1),
            Mistake::SpaceAtStart if line.starts_with(b" ") => {
                line.remove(0);
            }
            _ => {}
        }
    }

    /// Takes what stands at a place; the number of its bytes.
    fn next(&mut self, line: &[u8], at: usize) -> Option<usize> {
        let before = at.checked_sub(1).map(|at| line[at]);
        let after = line.get(at + 1).copied();
        match line[at] {
            b' ' => {
                let skipped = match self.mistake {
                    Mistake::SpacesInARow => before == Some(b' ') && at > 0,
                    Mistake::SpaceBehindBackslash => before == Some(b'\\'),
                    Mistake::SpaceBehindOpen => before == Some(b'('),
                    Mistake::SpaceBeforeClose => after == Some(b')') && self.behind_item,
                    _ => false,
                };
                if !skipped {
                    self.behind_item.then_some(())?;
                    self.behind_item = false;
                    self.items_follow()?;
                }
                Some(1)
            }
            b'(' => {
                self.begin_item(self.is(Mistake::NoSpaceBeforeOpen), before)?;
                let inside = self.is(Mistake::NoParenthesesInParentheses);
                (!inside || before != Some(b'(')).then_some(())?;
                self.open(Opened::Parenthesis);
                let opened = |frame: &&Frame| frame.opened == Opened::Parenthesis;
                let few = self.open.iter().filter(opened).count() <= 64;
                (few || !self.is(Mistake::FewParentheses)).then_some(1)
            }
            b')' => {
                self.behind_item.then_some(())?;
                while matches!(self.top().opened, Opened::Abstraction { .. }) {
                    self.close()?;
                }
                match self.top().opened {
                    Opened::Parenthesis => self.close()?,
                    _ => self.is(Mistake::ClosedTooOften).then_some(())?,
                }
                Some(1)
            }
            b'\\' => {
                self.begin_item(self.is(Mistake::NoSpaceBeforeBackslash), before)?;
                let first = self.top().items.is_empty();
                (first || !self.is(Mistake::AbstractionOnlyFirst)).then_some(())?;
                self.open(Opened::Abstraction { first });
                self.binders += 1;
                self.words += 1;
                (self.binders <= 64 || !self.is(Mistake::FewAbstractions)).then_some(1)
            }
            b'0'..=b'9' => {
                self.begin_item(false, before)?;
                let ahead = line[at..].iter();
                let digits = ahead.take_while(|byte| byte.is_ascii_digit()).count();
                let alone = before == Some(b'(') && line.get(at + digits) == Some(&b')');
                (!alone || !self.is(Mistake::NoParenthesesAroundAnIndex)).then_some(())?;
                let index = self.index(&line[at..at + digits])?;
                self.add(vec![8 * index])?;
                Some(digits)
            }
            _ => None,
        }
    }

    /// An item may begin, since a space was before it or since none is needed.
    fn begin_item(&mut self, lenient: bool, before: Option<u8>) -> Option<()> {
        let behind_close = self.is(Mistake::NoSpaceBehindClose) && before == Some(b')');
        if self.behind_item && (lenient || behind_close) {
            self.behind_item = false;
            self.items_follow()?;
        }
        (!self.behind_item).then_some(())
    }

    /// Another item follows; bodies of one item end here.
    fn items_follow(&mut self) -> Option<()> {
        loop {
            let ends = match (self.top().opened, self.mistake) {
                (Opened::Abstraction { .. }, Mistake::BodyIsOneItem) => true,
                (Opened::Abstraction { first }, Mistake::BodyOfAnArgumentIsOneItem) => !first,
                _ => false,
            };
            if !ends {
                break;
            }
            self.close()?;
            self.behind_item = false;
        }
        // Each item but the first one is behind an application.
        self.words += 1;
        Some(())
    }

    fn open(&mut self, opened: Opened) {
        let items = Vec::new();
        self.open.push(Frame { opened, items });
    }

    /// Ends what was opened last; it is an item of what is around it.
    fn close(&mut self) -> Option<()> {
        let frame = self.open.pop()?;
        let mut words = self.grouped(frame.items)?;
        if frame.opened != Opened::Parenthesis {
            words.insert(0, 1);
            let stays = self.is(Mistake::BindersStayBehindParentheses);
            self.binders -= u32::from(!stays);
        }
        self.add(words)
    }

    fn add(&mut self, words: Vec<u32>) -> Option<()> {
        self.behind_item = true;
        let few = self.is(Mistake::FewItems);
        let items = &mut self.top().items;
        items.push(words);
        (!few || items.len() <= 64).then_some(())
    }

    /// The words of items that are applied to each other.
    fn grouped(&self, items: Vec<Vec<u32>>) -> Option<Vec<u32>> {
        if self.is(Mistake::GroupsToTheRight) {
            let items = items.into_iter().rev();
            return items.reduce(|rest, item| [vec![2], item, rest].concat());
        }
        let heads = vec![2; items.len().checked_sub(1)?];
        Some([heads, items.concat()].concat())
    }

    fn index(&mut self, digits: &[u8]) -> Option<u32> {
        let zeros = digits.len() > 1 && digits[0] == b'0';
        if zeros && !self.is(Mistake::LeadingZeros) {
            return None;
        }
        let bits = match self.mistake {
            Mistake::NumberInSixteenBits => 16,
            Mistake::NumberInThirtyTwoBits => 32,
            _ => 127,
        };
        let mut value: u128 = 0;
        for digit in digits {
            value = (10 * value + u128::from(digit - b'0')) % (1 << bits);
            if bits == 127 {
                value = value.min(1 << 64);
            }
        }
        if self.is(Mistake::NumberCutToSixteenBits) && value < 1 << 32 {
            value %= 1 << 16;
        }
        let largest = match self.mistake {
            Mistake::LargestIndexIsOneMore => 32_768,
            Mistake::LargestIndexIsOneLess => 32_766,
            _ => 32_767,
        };
        if value > largest {
            return None;
        }
        self.words += 1;
        let index = value as u32;
        let binders = match self.mistake {
            Mistake::FreeNumberIsIndex => 0,
            Mistake::BindersInOneByte => self.binders % 256,
            _ => self.binders,
        };
        let limit = match self.mistake {
            Mistake::FreeNumberUpTo254 => 254,
            Mistake::FreeNumberUpTo256 => 256,
            Mistake::FreeNumberNotTested => u32::MAX,
            _ => 255,
        };
        self.free_too_large |= index.saturating_sub(binders) > limit;
        Some(index)
    }
}

/// The answer, with the numbers of refusals, and the workspace after it.
fn read(mistake: Mistake, line: &[u8], workspace: &[u32]) -> (Result<u32, u32>, Vec<u32>) {
    let is = |other| mistake == other;
    let mut workspace = workspace.to_vec();
    let capacity = workspace.len();
    let mut reader = Reader::new(mistake);
    let term = reader.line(line);
    let words = match mistake {
        Mistake::FitsByBytes => line.len(),
        Mistake::FitsBelowC => reader.words + 1,
        Mistake::FitsByOneMore => reader.words.saturating_sub(1),
        _ => reader.words,
    };
    let (free, room) = (reader.free_too_large, words > capacity);
    let read = term.is_some();
    let refused = first_met(&[
        (is(Mistake::GrammarBeforeWorkspace) && !read, 11),
        (is(Mistake::FreeNumberBeforeWorkspace) && read && free, 6),
        (is(Mistake::RoomBeforeWorkspace) && read && room, 8),
        (!(16..=2_048).contains(&capacity), 7),
        (is(Mistake::FreeNumberBeforeGrammar) && free, 6),
        (is(Mistake::RoomBeforeGrammar) && room, 8),
        (!read, 11),
        (is(Mistake::RoomBeforeFreeNumber) && room, 8),
        (free, 6),
        (room, 8),
    ]);
    let term = term.unwrap_or_default();
    let written = match refused {
        None => true,
        Some(6) => is(Mistake::WrittenThoughFree),
        Some(8) => is(Mistake::WrittenThoughTooLong),
        Some(_) => false,
    };
    if written {
        let zeros = if is(Mistake::ZerosLeftOut) {
            0
        } else {
            capacity
        };
        let all = term.iter().copied().chain(vec![0; zeros]);
        for (place, word) in workspace.iter_mut().zip(all) {
            *place = word;
        }
    }
    if refused == Some(11) && is(Mistake::ClearedWhenOutside) {
        workspace.fill(0);
    }
    let answer = match is(Mistake::AnswersBytes) {
        true => line.len(),
        false => term.len(),
    };
    (refused.map_or(Ok(answer as u32), Err), workspace)
}

#[test]
fn scripts_tell_wrong_readers() {
    let told = on_large_stack(|| {
        let mut told = Told::of(MISTAKES);
        for case in 0..1_200 {
            run_watched(&scripts::script(61, case), |before, operation| {
                if let Operation::Line { side, line } = operation {
                    let before = workspace(before, *side);
                    let mut after = before.to_vec();
                    let answer = read_line(line, &mut after);
                    let expected = (answer.map_err(|refusal| refusal.number()), after);
                    told.look(&expected, |mistake| read(mistake, line, before));
                }
            });
        }
        told
    });
    told.assert_all(6);
}
