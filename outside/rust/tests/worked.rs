//! The worked examples of document 01.

// Binary numbers are grouped by the fields of a record.
#![allow(clippy::unusual_byte_groupings)]

use outside::checker::{check_instance, check_model, name_of_record, walk, Answer};
use outside::generate::describe::*;
use outside::generate::fixed::{tours, worked_example, STOP, TEXT, TOUR};
use outside::generate::random::Random;

fn image(m: &ModelDesc) -> Vec<u8> {
    m.encode(&Layout::plain()).to_bytes()
}

fn verdict(m: &ModelDesc) -> Answer {
    check_model(&image(m), &mut [0; 2048])
}

fn refused(rule: u32, place: u32) -> Answer {
    Answer::Refused { rule, place }
}

#[test]
fn a_worked_example() {
    let bytes = image(&worked_example());
    assert_eq!(bytes.len(), 167);
    assert!(bytes.ends_with(b"gTourStopTextNoStopsLabelNextLangToursSpares"));
    let mut buffer = [0xaa; 10];
    let answer = check_model(&bytes, &mut buffer);
    assert_eq!(answer, Answer::ModelAccepted { segments: 4 });
    assert_eq!(buffer, [0, 0, 0, 2, 0, 1, 0, 4, 0xaa, 0xaa]);
}

/// The first record of each table, packed by hand.
#[test]
fn a_packed_by_hand() {
    let bytes = image(&worked_example());
    let header = [0x0402u16, 1, 3, 6, 2, 0, 2, 1, 4, 44];
    let packed: Vec<u8> = header.iter().flat_map(|n| n.to_be_bytes()).collect();
    assert_eq!(bytes[..20], packed);
    // Schema: namespace start 0, length 1; no alias.
    assert_eq!(bytes[20..25], [0x00, 0x00, 0x10, 0x00, 0x00]);
    // Type Tour: all 0 up to the name, start 1, length 4, spare 6.
    assert_eq!(
        bytes[25..31],
        [0, 0, 0b0000_0000, 0b0000_0000, 0b0100_0001, 0b0000_0000]
    );
    // Property Tour.No: type reference 75, name start 13, length 2.
    let no = 0b000000_0_0_0_0_01001011_000000001101_00000010_00000000000_0000_000u64;
    assert_eq!(bytes[43..50], no.to_be_bytes()[1..]);
    // Key of Stop: owner 1, path first 1, count 1.
    let key = 0b000001_00000000001_0001_000000000000_00000000_0000000u64;
    assert_eq!(bytes[91..97], key.to_be_bytes()[2..]);
    // Binding: child 0, path first 2, count 2, target 1.
    let binding = 0b000000_00000000010_0010_000001_00000000000_0000_000000u64;
    assert_eq!(bytes[105..111], binding.to_be_bytes()[2..]);
}

#[test]
fn b_bases_of_each_other() {
    let mut m = worked_example();
    m.types[TOUR].base = Some(STOP);
    m.types[STOP].base = Some(TOUR);
    assert_eq!(verdict(&m), refused(9, 1));
}

#[test]
fn c_d_text_within_text() {
    let mut m = worked_example();
    let inner = m.structural(TEXT, "Inner", TEXT as u32);
    assert_eq!(verdict(&m), refused(12, 3));
    m.properties[inner].nullable = true;
    assert_eq!(verdict(&m), Answer::ModelAccepted { segments: 4 });
}

#[test]
fn e_nullable_key() {
    let mut m = worked_example();
    m.properties[2].nullable = true;
    assert_eq!(verdict(&m), refused(15, 11));
}

#[test]
fn f_key_gone() {
    let mut m = worked_example();
    m.keys.remove(1);
    assert_eq!(verdict(&m), refused(18, 5));
}

#[test]
fn g_longer_path() {
    let mut m = worked_example();
    m.bindings[0].path = names(&["Stops", "Next", "Next"]);
    assert_eq!(verdict(&m), refused(19, 14));
}

#[test]
fn h_no_bytes() {
    assert_eq!(check_model(&[], &mut []), refused(1, 0));
}

#[test]
fn i_lone_schema() {
    let mut m = ModelDesc::default();
    m.schema("g");
    let bytes = image(&m);
    assert_eq!(bytes.len(), 26);
    assert_eq!(
        check_model(&bytes, &mut []),
        Answer::ModelAccepted { segments: 0 }
    );
}

#[test]
fn types_64_and_65() {
    let mut m = ModelDesc::default();
    m.schema("g");
    for t in 0..64 {
        m.add_type(COMPLEX, &format!("T{t}"));
        m.types[t].base = t.checked_sub(1);
    }
    assert_eq!(verdict(&m), Answer::ModelAccepted { segments: 0 });
    m.add_type(COMPLEX, "T64");
    assert_eq!(verdict(&m), refused(1, 0));
}

#[test]
fn names_of_128_and_129_bytes() {
    let mut m = worked_example();
    m.types[TEXT].name = vec![b'x'; 128];
    assert_eq!(verdict(&m), Answer::ModelAccepted { segments: 4 });
    m.types[TEXT].name = vec![b'x'; 129];
    assert_eq!(verdict(&m), refused(5, 3));
}

#[test]
fn path_of_15_segments() {
    let mut m = worked_example();
    let inner = m.structural(TEXT, "Inner", TEXT as u32);
    m.properties[inner].nullable = true;
    let author = m.navigation(TEXT, "Author", STOP);
    m.properties[author].nullable = true;
    let mut path = vec!["Stops", "Label"];
    path.extend(["Inner"; 12]);
    path.push("Author");
    m.bindings[0].path = names(&path);
    assert_eq!(verdict(&m), Answer::ModelAccepted { segments: 17 });
}

#[test]
fn walks_of_the_worked_example() {
    let model = image(&worked_example());
    let instance = tours(2, 3).encode(&mut Random::new(3)).to_bytes();
    assert_eq!(check_instance(&model, &instance), Answer::InstanceAccepted);
    let mut results = [0xaa; 200];
    let answer = walk(&model, &instance, 14, 0, 0, &mut results);
    assert_eq!(
        answer,
        Answer::Walked {
            results: 3,
            opened: 4
        }
    );
    assert_eq!(results[..13], [1, 0, 0, 3, 1, 0, 0, 4, 1, 0, 0, 5, 0xaa]);
    assert_eq!(
        walk(&model, &instance, 14, 1, 0, &mut results),
        refused(27, 0)
    );
    assert_eq!(
        walk(&model, &instance, 14, 0, 2, &mut results),
        refused(28, 0)
    );
    // 22 slots, 20 items: 2 tours with 2 slots, 6 stops with 3, of which one null.
    assert_eq!(
        walk(&model, &instance, 14, 0, 0, &mut results[..4 * 43 - 1]),
        refused(29, 0)
    );
    assert_eq!(
        walk(&model, &instance, 14, 0, 0, &mut results[..4 * 43]),
        answer
    );
}

#[test]
fn names_of_records() {
    let bytes = image(&worked_example());
    let expected = [
        "g", "Tour", "Stop", "Text", "No", "Stops", "No", "Label", "Next", "Lang", "", "", "Tours",
        "Spares", "", "No", "No", "Stops", "Next", "",
    ];
    for (place, name) in expected.iter().enumerate() {
        assert_eq!(name_of_record(&bytes, place as u32), name.as_bytes());
    }
    assert_eq!(name_of_record(&bytes[..166], 0), b"");
    assert_eq!(name_of_record(&[], 0), b"");
}
