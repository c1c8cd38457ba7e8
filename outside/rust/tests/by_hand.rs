//! Cases made by hand, for points where a checker easily goes wrong.

use outside::checker::{check_instance, check_model, name_of_record, walk, Answer};
use outside::generate::describe::*;
use outside::generate::fixed::{
    chain, full_instance, middle, tours, worked_example, STOP, TEXT, TOUR,
};
use outside::generate::instances::{InstanceDesc, NodeDesc, SlotDesc};
use outside::generate::random::Random;

fn image(m: &ModelDesc) -> Vec<u8> {
    m.encode(&Layout::plain()).to_bytes()
}

fn verdict(m: &ModelDesc) -> Answer {
    check_model(&image(m), &mut [0; 2048])
}

fn refused(rule: u32, place: u32) -> Answer {
    Answer::Refused { rule, place }
}

fn slot(property: usize, state: u32, items: &[(u32, u32)]) -> SlotDesc {
    SlotDesc {
        property,
        state,
        items: items.to_vec(),
    }
}

fn packed(instance: &InstanceDesc) -> Vec<u8> {
    instance.encode(&mut Random::new(1)).to_bytes()
}

/// A type that only derives from a cycle is not blamed.
#[test]
fn cycle_beside_a_derived_type() {
    let mut m = worked_example();
    m.add_type(ENTITY, "Third");
    m.types[TOUR].base = Some(STOP);
    m.types[STOP].base = Some(3);
    m.types[3].base = Some(STOP);
    assert_eq!(verdict(&m), refused(9, 2));
}

/// The lowest rule answers, not the lowest place.
#[test]
fn lowest_rule_first() {
    let mut m = worked_example();
    m.schemas[0].alias = b"Edm".to_vec();
    m.children[1].name = b"9".to_vec();
    assert_eq!(verdict(&m), refused(5, 13));
}

#[test]
fn short_buffer_comes_before_spare_bits() {
    let mut raw = worked_example().encode(&Layout::plain());
    raw.tables[7][3][1] = 1;
    let bytes = raw.to_bytes();
    let mut buffer = [7; 7];
    assert_eq!(check_model(&bytes, &mut buffer), refused(2, 0));
    assert_eq!(check_model(&bytes, &mut [7; 8]), refused(3, 18));
    assert_eq!(buffer, [7; 7]);
    assert_eq!(check_instance(&bytes, &[]), refused(3, 18));
}

/// Model with a base type Place, a derived Inn, and a name declared anew.
fn redeclaring() -> ModelDesc {
    let mut m = ModelDesc::default();
    m.schema("g");
    let place = m.add_type(ENTITY, "Place");
    let inn = m.add_type(ENTITY, "Inn");
    m.types[inn].base = Some(place);
    let near = m.navigation(place, "Near", place);
    m.properties[near].nullable = true;
    let near_inn = m.navigation(inn, "Near", inn);
    m.properties[near_inn].nullable = true;
    m.children.push(ChildDesc {
        singleton: true,
        nullable: false,
        type_number: place,
        name: b"Home".to_vec(),
    });
    m.bind(0, &["Near"], 0);
    m
}

/// The slot is opened by name: an inn's own declaration, not the resolved one.
#[test]
fn walk_through_a_name_declared_anew() {
    let model = image(&redeclaring());
    let mut buffer = [0; 2];
    assert_eq!(
        check_model(&model, &mut buffer),
        Answer::ModelAccepted { segments: 1 }
    );
    assert_eq!(buffer, [0, 0]);
    let inn = NodeDesc {
        type_number: 1,
        slots: vec![slot(1, 1, &[(1, 0)])],
    };
    let instance = packed(&InstanceDesc { nodes: vec![inn] });
    let mut results = [9; 13];
    let answer = walk(&model, &instance, 6, 0, 0, &mut results);
    assert_eq!(
        answer,
        Answer::Walked {
            results: 1,
            opened: 1
        }
    );
    assert_eq!(results[..5], [1, 0, 0, 0, 9]);
    let hidden = NodeDesc {
        type_number: 1,
        slots: vec![slot(0, 1, &[(1, 0)])],
    };
    let instance = packed(&InstanceDesc {
        nodes: vec![hidden],
    });
    assert_eq!(check_instance(&model, &instance), refused(23, 0));
}

#[test]
fn redeclared_type_must_derive() {
    let mut m = redeclaring();
    m.properties[1].type_ref = 0;
    assert_eq!(verdict(&m), refused(11, 4));
    let mut m = redeclaring();
    m.properties[1].nullable = false;
    assert_eq!(verdict(&m), refused(11, 4));
}

/// A cast that does not fit puts null; null remains null.
#[test]
fn casts_in_a_walk() {
    let mut m = redeclaring();
    m.bindings[0].path = vec![Seg::Cast(1), Seg::Name(b"Near".to_vec()), Seg::Cast(1)];
    let model = image(&m);
    let place = NodeDesc {
        type_number: 0,
        slots: vec![slot(0, 0, &[])],
    };
    let instance = packed(&InstanceDesc { nodes: vec![place] });
    let mut results = [9; 8];
    let answer = walk(&model, &instance, 6, 0, 0, &mut results);
    assert_eq!(
        answer,
        Answer::Walked {
            results: 1,
            opened: 0
        }
    );
    assert_eq!(results, [255, 0, 0, 0, 9, 9, 9, 9]);
    // Of the segments 7 to 9 the first and the last are casts.
    assert_eq!(name_of_record(&model, 7), b"Inn");
    assert_eq!(name_of_record(&model, 8), b"Near");
    assert_eq!(name_of_record(&model, 9), b"Inn");
}

#[test]
fn instance_rules() {
    let model = image(&worked_example());
    let sound = tours(1, 2);
    let verdict = |i: &InstanceDesc| check_instance(&model, &packed(i));
    assert_eq!(verdict(&sound), Answer::InstanceAccepted);
    assert_eq!(check_instance(&model, &packed(&sound)[..7]), refused(20, 0));
    let mut twice = sound.clone();
    twice.nodes[0].slots[1].items.push((STOP as u32, 1));
    assert_eq!(verdict(&twice), refused(26, 1));
    let mut fewer = sound.clone();
    fewer.nodes[2].slots.remove(1);
    assert_eq!(verdict(&fewer), refused(23, 2));
    let mut enough = sound.clone();
    enough.nodes[1].type_number = 3;
    assert_eq!(verdict(&enough), refused(21, 1));
}

/// Nodes within each other, with a third that only lies within them.
#[test]
fn cycle_of_parts() {
    let mut m = worked_example();
    let inner = m.structural(TEXT, "Inner", TEXT as u32);
    m.properties[inner].nullable = true;
    let model = image(&m);
    let text = |inner: Option<u32>| {
        let items: Vec<(u32, u32)> = inner.map(|n| (TEXT as u32, n)).into_iter().collect();
        let lang = slot(5, 1, &[(STRING, 0)]);
        NodeDesc {
            type_number: TEXT,
            slots: vec![lang, slot(6, items.len() as u32, &items)],
        }
    };
    let line = InstanceDesc {
        nodes: vec![text(None), text(Some(0)), text(Some(1))],
    };
    assert_eq!(
        check_instance(&model, &packed(&line)),
        Answer::InstanceAccepted
    );
    let circle = InstanceDesc {
        nodes: vec![text(None), text(Some(2)), text(Some(1))],
    };
    assert_eq!(check_instance(&model, &packed(&circle)), refused(26, 1));
    let held_twice = InstanceDesc {
        nodes: vec![text(Some(1)), text(Some(0)), text(Some(1))],
    };
    assert_eq!(check_instance(&model, &packed(&held_twice)), refused(26, 0));
}

#[test]
fn partners_of_containment() {
    let mut m = worked_example();
    let tour = m.navigation(STOP, "Tour", TOUR);
    m.properties[1].partner = names(&["Tour"]);
    m.properties[tour].partner = names(&["Stops"]);
    assert_eq!(verdict(&m), Answer::ModelAccepted { segments: 6 });
    m.properties[tour].nullable = true;
    assert_eq!(verdict(&m), refused(17, 5));
    m.properties[tour].nullable = false;
    let other = m.navigation(STOP, "Other", TOUR);
    m.properties[other].partner = names(&["Stops"]);
    assert_eq!(verdict(&m), refused(17, 10));
}

#[test]
fn large_models_are_accepted() {
    let middle = middle();
    assert!(matches!(verdict(&middle), Answer::ModelAccepted { .. }));
    for types in [1, 6, 32, 64] {
        let bytes = chain(types).to_bytes();
        let answer = check_model(&bytes, &mut [0; 2048]);
        assert_eq!(
            answer,
            Answer::ModelAccepted {
                segments: 16 * types as u32
            }
        );
    }
    let full = chain(64);
    let counts: Vec<usize> = full.tables.iter().map(Vec::len).collect();
    assert_eq!(counts, [16, 64, 512, 128, 64, 64, 128, 1024]);
    assert_eq!(full.names.map(|names| names.len()), Some(4096));
}

/// 256 nodes, 1024 slots, 2048 items; one record more is rule 20.
#[test]
fn full_instance_is_accepted() {
    let (m, instance) = full_instance();
    let model = image(&m);
    let raw = instance.encode(&mut Random::new(2));
    let counts: Vec<usize> = raw.tables.iter().map(Vec::len).collect();
    assert_eq!(counts, [256, 1024, 2048]);
    let mut results = vec![0; 4 * (1 + 1024 + 2048)];
    let answer = walk(&model, &raw.to_bytes(), 8, 0, 0, &mut results);
    assert_eq!(
        answer,
        Answer::Walked {
            results: 255,
            opened: 256
        }
    );
    assert_eq!(results[4 * 254..4 * 256], [0, 0, 0, 0, 0, 0, 0, 0]);
    for table in 0..3 {
        let mut more = raw.clone();
        let copy = more.tables[table][0].clone();
        more.tables[table].push(copy);
        assert_eq!(check_instance(&model, &more.to_bytes()), refused(20, 0));
    }
}

#[test]
fn generated_cases_are_as_expected() {
    let mut source = outside::generate::cases::Source::new(11);
    for _ in 0..1000 {
        let (case, expect) = source.next_case();
        let (answer, _) = case.reference();
        assert!(expect.holds(answer), "{expect:?} {answer:?} {case:?}");
    }
}
