//! What imports and exports meet, on calls whose answer is derived by hand.

use reference::encoding::Fault;
use reference::exchange::{of_call, Exchange, Other};
use reference::press::Side;
use reference::refusal::Refusal;
use reference::replay::{Machine, Operation};

/// What an import into an empty workspace of `capacity` words meets.
fn import(capacity: u32, bytes: &[u8], count: u32) -> Vec<Exchange> {
    let operation = Operation::Import {
        side: Side::Left,
        count,
        bytes: bytes.to_vec(),
    };
    of_call(&Machine::new(capacity, 16), &operation)
}

/// What an export of all given words meets.
fn export(words: &[u32], bytes: usize) -> Vec<Exchange> {
    export_of(words, words.len() as u32, 16, bytes)
}

fn export_of(words: &[u32], length: u32, capacity: u32, bytes: usize) -> Vec<Exchange> {
    let mut before = Machine::new(16, capacity);
    before.right[..words.len()].copy_from_slice(words);
    let operation = Operation::Export {
        side: Side::Right,
        length,
        bytes,
    };
    of_call(&before, &operation)
}

/// The encoding of so many abstractions around a variable.
fn under(binders: usize, index: usize) -> (Vec<u8>, u32) {
    let text = "00".repeat(binders) + &"1".repeat(index + 1) + "0";
    let bytes = text.as_bytes().chunks(8).map(|part| {
        let place = |(at, bit): (usize, &u8)| u8::from(*bit == b'1') << (7 - at);
        part.iter().enumerate().map(place).sum()
    });
    (bytes.collect(), text.len() as u32)
}

#[test]
fn imports_that_are_accepted() {
    assert_eq!(import(16, &[32], 4), []);
    assert_eq!(import(16, &[32, 0], 4), [Exchange::ImportSpare]);
    let (bytes, count) = under(15, 0);
    assert_eq!(import(16, &bytes, count), [Exchange::ImportFull]);
    // 63 ones, 64 ones; 22 binders and 20 ones end at bit 64.
    let (bytes, count) = under(70, 62);
    assert_eq!(import(100, &bytes, count), []);
    let (bytes, count) = under(70, 63);
    assert_eq!(import(100, &bytes, count), [Exchange::ImportRun]);
    let (bytes, count) = under(22, 19);
    assert_eq!(import(100, &bytes, count), [Exchange::ImportEdge]);
    // The identity stands on the other side.
    let mut before = Machine::new(16, 16);
    before.right[0] = 1;
    let operation = Operation::Import {
        side: Side::Left,
        count: 4,
        bytes: vec![32],
    };
    let met = of_call(&before, &operation);
    assert_eq!(met, [Exchange::ImportExported]);
}

#[test]
fn imports_that_are_refused() {
    let by = Exchange::ImportFault;
    assert_eq!(import(16, &[32], 9), [by(Fault::Count)]);
    assert_eq!(import(16, &[32], 3), [by(Fault::End)]);
    assert_eq!(import(16, &[32], 5), [by(Fault::LeftOver)]);
    assert_eq!(import(16, &[33], 4), [by(Fault::Padding)]);
    // Two faults at once: a bit left over and one past the count.
    assert_eq!(import(16, &[33], 5), []);
    let (bytes, count) = under(16, 0);
    assert_eq!(import(16, &bytes, count), [Exchange::ImportOneWord]);
    let (bytes, count) = under(17, 0);
    assert_eq!(import(16, &bytes, count), []);
    assert_eq!(import(16, &[128], 2), [Exchange::ImportOneBinder]);
    assert_eq!(import(16, &[192], 3), []);
}

#[test]
fn imports_that_meet_two_refusals() {
    let order = Exchange::ImportOrder;
    let of_7 = order(Refusal::Workspace, Refusal::Bits);
    assert_eq!(import(15, &[32], 5), [of_7]);
    assert_eq!(import(15, &[32], 4), []);
    let (bytes, count) = under(17, 17);
    let of_8 = order(Refusal::TooLong, Refusal::NoEncoding);
    assert_eq!(import(16, &bytes, count), [of_8]);
    let of_12 = [
        Exchange::ImportFault(Fault::LeftOver),
        order(Refusal::Bits, Refusal::TooLong),
        order(Refusal::Bits, Refusal::NoEncoding),
    ];
    assert_eq!(import(16, &bytes, count + 1), of_12);
}

#[test]
fn exports() {
    assert_eq!(export(&[1, 0], 1), [Exchange::ExportExact]);
    assert_eq!(export(&[1, 0], 2), [Exchange::ExportSpare]);
    assert_eq!(export(&[1, 0], 0), [Exchange::ExportOneByte]);
    // Nine bits and more.
    assert_eq!(export(&[1, 1, 1, 2, 0, 0], 0), []);
    let by = Exchange::ExportOther;
    assert_eq!(export(&[0], 1), [by(Other::Free)]);
    assert_eq!(export(&[131], 1), [by(Other::Constructor)]);
    assert_eq!(export(&[4, 1, 0], 1), [by(Other::Case)]);
    assert_eq!(export(&[6], 1), [by(Other::Numeral)]);
    // Numeral 0 as subject: two things at once.
    assert_eq!(export(&[4, 6], 1), []);
    let words = [vec![1; 64], vec![8 * 63]].concat();
    let met = export_of(&words, 65, 100, 25);
    assert_eq!(met, [Exchange::ExportExact, Exchange::ExportRun]);
}

#[test]
fn exports_that_meet_two_refusals() {
    let order = Exchange::ExportOrder;
    let of_7 = order(Refusal::Workspace, Refusal::NotATerm);
    assert_eq!(export_of(&[1, 0], 1, 15, 1), [of_7]);
    assert_eq!(export_of(&[1, 0], 2, 15, 1), []);
    let of_10 = [
        order(Refusal::NotATerm, Refusal::NoEncoding),
        order(Refusal::NotATerm, Refusal::TooLong),
    ];
    assert_eq!(export_of(&[131, 0], 2, 16, 0), of_10);
    assert_eq!(export_of(&[131, 0], 2, 16, 1), of_10[..1]);
    assert_eq!(export_of(&[1, 1], 2, 16, 0), of_10[1..]);
    let of_13 = [
        order(Refusal::NoEncoding, Refusal::TooLong),
        Exchange::ExportOther(Other::Free),
    ];
    assert_eq!(export(&[0], 0), of_13);
}
