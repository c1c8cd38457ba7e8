//! Members made by hand: rules 30 and 31 clause by clause.

// Binary numbers are grouped by the fields of a member.
#![allow(clippy::unusual_byte_groupings)]

use outside::checker::{check_members, Answer};
use outside::generate::describe::*;
use outside::generate::fixed::{five_enumerations, full_members, worked_example};
use outside::generate::members::{MembersDesc, GIVEN, HIGH, LENGTH, LOW, SPARE, START, TYPE};
use outside::generate::raw::Raw;

/// The enumerations of `five_enumerations`.
const BYTE: usize = 0;
const INT16: usize = 1;
const INT_32: usize = 2;
const INT64: usize = 3;
const SBYTE: usize = 4;
/// Types after them that are no enumerations.
const ENTITY_TYPE: usize = 5;
const COMPLEX_TYPE: usize = 6;
const TYPE_DEFINITION: usize = 7;

fn image(m: &ModelDesc) -> Vec<u8> {
    m.encode(&Layout::plain()).to_bytes()
}

fn model() -> Vec<u8> {
    let mut m = five_enumerations();
    m.add_type(ENTITY, "E");
    m.add_type(COMPLEX, "C");
    m.add_type(DEFINITION, "D");
    m.types[TYPE_DEFINITION].underlying = 11;
    image(&m)
}

fn members(list: &[(usize, &str, Option<i64>)]) -> MembersDesc {
    let mut members = MembersDesc::default();
    for &(t, name, value) in list {
        members.add(t, name, value);
    }
    members
}

fn answer(raw: &Raw) -> Answer {
    check_members(&model(), &raw.to_bytes())
}

fn verdict(list: &[(usize, &str, Option<i64>)]) -> Answer {
    answer(&members(list).encode())
}

const ACCEPTED: Answer = Answer::MembersAccepted;

fn refused(rule: u32, place: u32) -> Answer {
    Answer::Refused { rule, place }
}

/// Three members; a test changes one field of the middle one.
fn three() -> Raw {
    members(&[
        (BYTE, "Red", None),
        (SBYTE, "Cold", Some(-4)),
        (BYTE, "Green", None),
    ])
    .encode()
}

fn changed(field: usize, value: u32) -> Answer {
    let mut raw = three();
    raw.tables[0][1][field] = value;
    answer(&raw)
}

#[test]
fn packed_by_hand() {
    let header = [0x0402u16, 2, 5].map(u16::to_be_bytes).concat();
    // Type 0, counted, start 0, length 3; type 4, given, start 3, length 2.
    let first = 0b000000_0_000000000000_00000011u128 << 69;
    let second = 0b000100_1_000000000011_00000010u128 << 69 | (-2i64 as u64 as u128) << 5;
    let bytes = |record: u128| record.to_be_bytes()[4..].to_vec();
    let packed = [header, bytes(first), bytes(second), b"RedOn".to_vec()].concat();
    assert_eq!(packed.len(), 6 + 2 * 12 + 5);
    let list = members(&[(BYTE, "Red", None), (SBYTE, "On", Some(-2))]);
    assert_eq!(list.encode().to_bytes(), packed);
    assert_eq!(check_members(&model(), &packed), ACCEPTED);
}

#[test]
fn nothing_to_refuse() {
    assert_eq!(verdict(&[]), ACCEPTED);
    assert_eq!(answer(&three()), ACCEPTED);
    // Equal values, and equal names of different types.
    let list = [
        (INT16, "Same", Some(7)),
        (INT16, "Other", Some(7)),
        (INT64, "Same", Some(7)),
        (BYTE, "Same", None),
    ];
    assert_eq!(verdict(&list), ACCEPTED);
    // Name bytes that no member uses, of any kind.
    let mut raw = three();
    raw.names.as_mut().unwrap().extend([0, b' ', 0xff]);
    assert_eq!(answer(&raw), ACCEPTED);
    raw.tables[0].clear();
    assert_eq!(answer(&raw), ACCEPTED);
}

/// Every length but the right one; the first five have no whole header.
#[test]
fn rule_30_whole_image_length() {
    let mut bytes = three().to_bytes();
    for length in 0..bytes.len() {
        assert_eq!(check_members(&model(), &bytes[..length]), refused(30, 0));
    }
    assert_eq!(check_members(&model(), &bytes), ACCEPTED);
    bytes.push(b'a');
    assert_eq!(check_members(&model(), &bytes), refused(30, 0));
    assert_eq!(check_members(&model(), &[4, 2, 0, 0, 0, 0]), ACCEPTED);
}

#[test]
fn rule_30_whole_image_header() {
    for version in [0x0401, 0x0403, 0x0502, 0] {
        let mut raw = three();
        raw.version = version;
        assert_eq!(answer(&raw), refused(30, 0));
    }
    let mut raw = three();
    raw.names.as_mut().unwrap().resize(4096, b'a');
    assert_eq!(answer(&raw), ACCEPTED);
    raw.names.as_mut().unwrap().push(b'a');
    assert_eq!(answer(&raw), refused(30, 0));
    let (m, members) = full_members();
    let mut raw = members.encode();
    assert_eq!(raw.to_bytes().len(), 16390);
    assert_eq!(check_members(&image(&m), &raw.to_bytes()), ACCEPTED);
    let copy = raw.tables[0][0].clone();
    raw.tables[0].push(copy);
    assert_eq!(check_members(&image(&m), &raw.to_bytes()), refused(30, 0));
}

#[test]
fn rule_30a_spare_bits() {
    for bit in 0..5 {
        assert_eq!(changed(SPARE, 1 << bit), refused(30, 1));
    }
}

/// The type number is past the types, or that of no enumeration.
#[test]
fn rule_30b_30f_type() {
    for t in [ENTITY_TYPE, COMPLEX_TYPE, TYPE_DEFINITION, 8, 63] {
        assert_eq!(changed(TYPE, t as u32), refused(30, 1));
    }
    assert_eq!(changed(TYPE, INT64 as u32), ACCEPTED);
}

/// The names are RedColdGreen, 12 bytes.
#[test]
fn rule_30c_name_absent_or_past_the_bytes() {
    assert_eq!(three().names.unwrap(), b"RedColdGreen");
    assert_eq!(changed(LENGTH, 0), refused(30, 1));
    assert_eq!(changed(LENGTH, 9), ACCEPTED);
    assert_eq!(changed(LENGTH, 10), refused(30, 1));
    assert_eq!(changed(START, 8), ACCEPTED);
    assert_eq!(changed(START, 9), refused(30, 1));
    assert_eq!(changed(START, 4095), refused(30, 1));
    let mut raw = three();
    raw.tables[0][1][START] = 0;
    raw.tables[0][1][LENGTH] = 0;
    assert_eq!(answer(&raw), refused(30, 1));
}

#[test]
fn rule_30d_no_simple_identifier() {
    let long = "x".repeat(129);
    for name in ["9", "1a", "a-b", "a.b", " ", "Grün", "a\0", "[", &long] {
        let list = [(BYTE, "Red", None), (BYTE, name, None)];
        assert_eq!(verdict(&list), refused(30, 1), "{name}");
    }
    for name in ["_", "a9", "Z_0", "Edm", &long[1..]] {
        assert_eq!(verdict(&[(BYTE, name, None)]), ACCEPTED, "{name}");
    }
}

/// A value that is not given is 0 in all its bits.
#[test]
fn rule_30e_value_without_given() {
    let mut raw = three();
    raw.tables[0][1][GIVEN] = 0;
    assert_eq!(answer(&raw), refused(30, 1));
    raw.tables[0][1][HIGH] = 0;
    raw.tables[0][1][LOW] = 0;
    assert_eq!(answer(&raw), ACCEPTED);
    for bit in 0..32 {
        for field in [HIGH, LOW] {
            let mut one = raw.clone();
            one.tables[0][1][field] = 1 << bit;
            assert_eq!(answer(&one), refused(30, 1));
        }
    }
}

#[test]
fn rule_31a_name_of_an_earlier_member() {
    let list = [
        (INT16, "Red", None),
        (BYTE, "Red", None),
        (INT16, "Reddish", None),
        (INT16, "red", None),
        (INT16, "Red", None),
        (INT16, "Red", None),
    ];
    assert_eq!(verdict(&list[..4]), ACCEPTED);
    assert_eq!(verdict(&list), refused(31, 4));
    // By their bytes, wherever they stand.
    let mut raw = members(&[(BYTE, "Red", None), (BYTE, "Blue", None)]).encode();
    raw.names.as_mut().unwrap().extend(b"Red");
    raw.tables[0][1][START..HIGH].copy_from_slice(&[7, 3]);
    assert_eq!(answer(&raw), refused(31, 1));
    raw.tables[0][1][TYPE] = INT16 as u32;
    assert_eq!(answer(&raw), ACCEPTED);
}

/// Names that overlap are names like others.
#[test]
fn rule_31a_names_within_names() {
    let mut overlapping = members(&[]);
    overlapping.text = vec![b'a'; 128];
    for length in 1..=128 {
        overlapping.add(SBYTE, &"a".repeat(length), None);
    }
    let mut raw = overlapping.encode();
    assert_eq!(raw.names.as_ref().unwrap().len(), 128);
    assert_eq!(answer(&raw), ACCEPTED);
    // The same name one byte further on.
    raw.tables[0][9][START] = 1;
    raw.tables[0][9][LENGTH] = 5;
    assert_eq!(answer(&raw), refused(31, 9));
}

/// It counts what the first member of the type has, not the member before.
#[test]
fn rule_31b_given_unlike_the_first() {
    let list = [
        (INT64, "A", Some(1)),
        (BYTE, "A", None),
        (INT64, "B", Some(2)),
        (BYTE, "B", None),
        (INT64, "C", None),
        (INT64, "D", Some(0)),
    ];
    assert_eq!(verdict(&list[..4]), ACCEPTED);
    assert_eq!(verdict(&list), refused(31, 4));
    let list = [(INT64, "A", None), (BYTE, "A", None), (INT64, "B", Some(1))];
    assert_eq!(verdict(&list), refused(31, 2));
}

#[test]
fn rule_31c_lowest_and_highest_value() {
    let types = [
        (BYTE, 0, 255),
        (INT16, -32768, 32767),
        (INT_32, -2147483648, 2147483647),
        (SBYTE, -128, 127),
    ];
    for (t, low, high) in types {
        let of = |value| verdict(&[(t, "First", Some(0)), (t, "Second", Some(value))]);
        for value in [low, high, 0, 1] {
            assert_eq!(of(value), ACCEPTED, "{t} {value}");
        }
        let beyond = [low - 1, high + 1, high + 1 + (1 << 32), i64::MIN, i64::MAX];
        for value in beyond {
            assert_eq!(of(value), refused(31, 1), "{t} {value}");
        }
    }
    for value in [i64::MIN, -1, 0, i64::MAX] {
        assert_eq!(verdict(&[(INT64, "First", Some(value))]), ACCEPTED);
    }
    assert_eq!(verdict(&[(BYTE, "First", Some(-1))]), refused(31, 0));
}

/// Members of a type, with or without values.
fn many(t: usize, count: usize, value: Option<i64>) -> MembersDesc {
    let mut members = MembersDesc::default();
    for i in 0..count {
        members.add(t, &format!("n{i}"), value);
    }
    members
}

#[test]
fn rule_31c_counted_values() {
    let of = |t, count, value| answer(&many(t, count, value).encode());
    assert_eq!(of(BYTE, 256, None), ACCEPTED);
    assert_eq!(of(BYTE, 257, None), refused(31, 256));
    assert_eq!(of(BYTE, 300, None), refused(31, 256));
    assert_eq!(of(SBYTE, 128, None), ACCEPTED);
    assert_eq!(of(SBYTE, 129, None), refused(31, 128));
    for t in [INT16, INT_32, INT64] {
        assert_eq!(of(t, 700, None), ACCEPTED);
    }
    // Given values are not counted.
    assert_eq!(of(BYTE, 300, Some(255)), ACCEPTED);
    assert_eq!(of(SBYTE, 300, Some(-128)), ACCEPTED);
}

/// Members of other types do not count, wherever they stand.
#[test]
fn rule_31c_counts_of_types_in_turn() {
    let mut members = MembersDesc::default();
    for i in 0..128 {
        members.add(SBYTE, &format!("n{i}"), None);
        members.add(BYTE, &format!("n{i}"), None);
        members.add(INT64, &format!("n{i}"), Some(i));
    }
    for i in 128..256 {
        members.add(BYTE, &format!("n{i}"), None);
    }
    assert_eq!(answer(&members.encode()), ACCEPTED);
    let mut more = members.clone();
    more.add(INT16, "n0", None);
    more.add(BYTE, "last", None);
    assert_eq!(answer(&more.encode()), refused(31, 513));
    more = members.clone();
    more.add(SBYTE, "last", None);
    assert_eq!(answer(&more.encode()), refused(31, 512));
}

/// 30 at a later member comes before 31 at an earlier one; within one rule the
/// lowest place answers, whatever the cause.
#[test]
fn two_faults() {
    let list = members(&[(BYTE, "A", Some(256)), (BYTE, "B", Some(1))]);
    assert_eq!(answer(&list.encode()), refused(31, 0));
    let mut raw = list.encode();
    raw.tables[0][1][SPARE] = 1;
    assert_eq!(answer(&raw), refused(30, 1));
    // 30e at the first, 30a at the second.
    raw.tables[0][0][GIVEN] = 0;
    assert_eq!(answer(&raw), refused(30, 0));
    // 31b before 31a, and 31c before 31b.
    let list = [
        (BYTE, "A", Some(1)),
        (BYTE, "B", None),
        (BYTE, "A", Some(1)),
        (INT16, "A", Some(1 << 15)),
    ];
    assert_eq!(verdict(&list), refused(31, 1));
    let list = [list[0], list[3], list[1]];
    assert_eq!(verdict(&list), refused(31, 1));
}

/// The model's own refusal comes first; rule 2 is not asked.
#[test]
fn model_first() {
    let mut m = worked_example();
    m.properties[2].nullable = true;
    assert_eq!(check_members(&image(&m), &[]), refused(15, 11));
    let sound = image(&worked_example());
    assert_eq!(check_members(&sound, &[]), refused(30, 0));
    assert_eq!(check_members(&sound[1..], &[]), refused(1, 0));
    assert_eq!(check_members(&[], &[]), refused(1, 0));
    assert_eq!(check_members(&sound, &[4, 2, 0, 0, 0, 0]), ACCEPTED);
}

/// In a model without types every member is at fault.
#[test]
fn model_without_types() {
    let mut m = ModelDesc::default();
    m.schema("g");
    let one = members(&[(0, "A", None)]).encode().to_bytes();
    assert_eq!(check_members(&image(&m), &one), refused(30, 0));
    assert_eq!(
        check_members(&image(&m), &[4, 2, 0, 0, 0, 1, b'A']),
        ACCEPTED
    );
}
