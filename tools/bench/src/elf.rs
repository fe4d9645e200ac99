//! The size of a program's code and of its functions.

use std::ops::Range;

const ELF_64_LITTLE_ENDIAN: &[u8] = b"\x7fELF\x02\x01";

/// Where the file's header tells of the section headers: their place, the length of one, their
/// number, and which one is that of the section names.
const SECTION_HEADERS: usize = 0x28;
const HEADER_LENGTH: usize = 0x3a;
const HEADER_COUNT: usize = 0x3c;
const NAMES_INDEX: usize = 0x3e;

/// Where a section's header, which begins with its name, tells of the section.
const SECTION_PLACE: usize = 0x18;
const SECTION_LENGTH: usize = 0x20;

/// The bytes of a symbol, which begins with the place of its name, and where it tells of its length.
const SYMBOL: usize = 0x18;
const SYMBOL_LENGTH: usize = 0x10;

/// The bytes of the section `.text` of a 64-bit little-endian ELF file.
pub fn text_size(file: &[u8]) -> Option<usize> {
    section(file, ".text").map(|text| text.len())
}

/// The bytes of a function, if the file names it.
pub fn function_size(file: &[u8], name: &str) -> Option<usize> {
    let names = section(file, ".strtab")?;
    let name = [name.as_bytes(), b"\0"].concat();
    let symbols = file.get(section(file, ".symtab")?)?;
    symbols.chunks_exact(SYMBOL).find_map(|symbol| {
        let its_name = file.get(names.start + number(symbol, 0, 4)?..)?;
        let is_named = its_name.starts_with(&name);
        number(symbol, SYMBOL_LENGTH, 8).filter(|_| is_named)
    })
}

/// Where a section is in the file.
fn section(file: &[u8], name: &str) -> Option<Range<usize>> {
    if !file.starts_with(ELF_64_LITTLE_ENDIAN) {
        return None;
    }
    let headers = number(file, SECTION_HEADERS, 8)?;
    let length = number(file, HEADER_LENGTH, 2)?;
    let header = |index| headers + index * length;
    let names = header(number(file, NAMES_INDEX, 2)?);
    let names = number(file, names + SECTION_PLACE, 8)?;
    let name = [name.as_bytes(), b"\0"].concat();
    let mut sections = (0..number(file, HEADER_COUNT, 2)?).map(header);
    sections.find_map(|section| {
        let its_name = file.get(names + number(file, section, 4)?..)?;
        let start = number(file, section + SECTION_PLACE, 8)?;
        let length = number(file, section + SECTION_LENGTH, 8)?;
        its_name.starts_with(&name).then_some(start..start + length)
    })
}

/// The little-endian number of `length` bytes at `at`.
fn number(file: &[u8], at: usize, length: usize) -> Option<usize> {
    let bytes = file.get(at..)?.get(..length)?.iter().rev();
    Some(bytes.fold(0, |value, byte| value << 8 | usize::from(*byte)))
}

#[cfg(test)]
mod tests {
    use super::*;

    /// A header of 64 bytes, the names, then the headers of `.data`, the names and `.text`, whose name
    /// stands beyond the first 256 bytes of the names.
    fn file() -> Vec<u8> {
        let mut names = b".data\0.names\0".to_vec();
        names.resize(300, b'-');
        names.extend(b".text\0");
        let headers = 64 + names.len() as u16;
        let mut file = ELF_64_LITTLE_ENDIAN.to_vec();
        file.resize(64, 0);
        file[SECTION_HEADERS..SECTION_HEADERS + 2].copy_from_slice(&headers.to_le_bytes());
        file[HEADER_LENGTH] = 64;
        file[HEADER_COUNT] = 3;
        file[NAMES_INDEX] = 1;
        file.extend(names);
        for (name, length) in [(0_u16, 7), (6, 306), (300, 0x1234)] {
            let mut header = vec![0; 64];
            header[..2].copy_from_slice(&name.to_le_bytes());
            header[SECTION_PLACE] = 64;
            header[SECTION_LENGTH..SECTION_LENGTH + 4].copy_from_slice(&u32::to_le_bytes(length));
            file.extend(header);
        }
        file
    }

    #[test]
    fn the_length_of_text_is_found() {
        assert_eq!(text_size(&file()), Some(0x1234));
    }

    /// A header of 64 bytes, the names of sections, those of symbols, three symbols, then the headers.
    fn file_of_functions() -> Vec<u8> {
        let names = b".names\0.strtab\0.symtab\0";
        let symbol_names = b"\0one\0one::two\0";
        let mut file = ELF_64_LITTLE_ENDIAN.to_vec();
        file.resize(64, 0);
        file.extend(names);
        let symbol_names_place = file.len() as u8;
        file.extend(symbol_names);
        let symbols_place = file.len() as u8;
        for (name, length) in [(0, 1), (5, 0x1234_u16), (1, 7)] {
            let mut symbol = [0; SYMBOL];
            symbol[0] = name;
            symbol[SYMBOL_LENGTH..SYMBOL_LENGTH + 2].copy_from_slice(&length.to_le_bytes());
            file.extend(symbol);
        }
        let headers = file.len() as u16;
        file[SECTION_HEADERS..SECTION_HEADERS + 2].copy_from_slice(&headers.to_le_bytes());
        file[HEADER_LENGTH] = 64;
        file[HEADER_COUNT] = 3;
        for (name, place, length) in [
            (0, 64, names.len()),
            (7, symbol_names_place, symbol_names.len()),
            (15, symbols_place, 3 * SYMBOL),
        ] {
            let mut header = vec![0; 64];
            header[0] = name;
            header[SECTION_PLACE] = place;
            header[SECTION_LENGTH] = length as u8;
            file.extend(header);
        }
        file
    }

    #[test]
    fn the_length_of_a_function_is_found() {
        let file = file_of_functions();
        assert_eq!(function_size(&file, "one::two"), Some(0x1234));
        assert_eq!(function_size(&file, "one"), Some(7));
        assert_eq!(function_size(&file, "two"), None);
        assert_eq!(function_size(&file, "one::"), None);
        assert_eq!(function_size(b"#!/bin/sh\n", "one"), None);
    }

    #[test]
    fn other_files_have_no_text() {
        assert_eq!(text_size(b"#!/bin/sh\n"), None);
        assert_eq!(text_size(&file()[..200]), None);
        assert_eq!(text_size(&[]), None);
    }
}
