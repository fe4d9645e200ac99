//! Scripts of the program `replay`, for peers that stand in for it where a script has only some of its
//! operations.

use unit::limits::{MAX_TABLE, WORKSPACE};

/// The numbers of operations.
pub const STORE: u32 = 6;
pub const LINE: u32 = 8;
pub const IMPORT: u32 = 9;
pub const EXPORT: u32 = 10;

/// The words of each side's workspace.
pub type Sides = [Vec<u32>; 2];

/// The line for an operation by its number, the words after it and the workspaces; none where the script
/// breaks off.
pub type Operate = fn(u32, &mut Words, &mut Sides) -> Option<String>;

/// What is printed for a script.
pub fn transcript(script: &[u8], operate: Operate) -> String {
    let mut text = String::new();
    if run(&mut Words { ahead: script }, operate, &mut text).is_none() {
        text.push_str("Script\n");
    }
    text
}

fn run(words: &mut Words, operate: Operate, text: &mut String) -> Option<()> {
    let mut sides = [words.workspace()?, words.workspace()?];
    while !words.ahead.is_empty() {
        let operation = words.word()?;
        text.push_str(&operate(operation, words, &mut sides)?);
        text.push('\n');
    }
    Some(())
}

/// The answer of a call by its name, or the number of its refusal.
pub fn answer(name: &str, answer: Result<usize, u32>) -> String {
    match answer {
        Ok(number) => format!("{name} {number}"),
        Err(number) => format!("refused {number}"),
    }
}

/// What is still to be read of a script.
pub struct Words<'a> {
    ahead: &'a [u8],
}

impl Words<'_> {
    pub fn word(&mut self) -> Option<u32> {
        let (word, ahead) = self.ahead.split_first_chunk()?;
        self.ahead = ahead;
        Some(u32::from_le_bytes(*word))
    }

    fn workspace(&mut self) -> Option<Vec<u32>> {
        let c = self.word()? as usize;
        Some(vec![0; c.min(WORKSPACE.end() + 1)])
    }

    /// The workspace of a side.
    pub fn side<'a>(&mut self, sides: &'a mut Sides) -> Option<&'a mut [u32]> {
        let side = sides.get_mut(self.word()? as usize)?;
        Some(side)
    }

    /// A number of words or of bytes.
    pub fn count(&mut self) -> Option<usize> {
        let count = self.word().filter(|&count| count <= MAX_TABLE)?;
        Some(count as usize)
    }

    /// Bytes after their number, a word each.
    pub fn bytes(&mut self) -> Option<Vec<u8>> {
        let count = self.count()?;
        let mut byte = || u8::try_from(self.word()?).ok();
        (0..count).map(|_| byte()).collect()
    }
}
