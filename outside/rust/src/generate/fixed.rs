//! Models, instances and members that are always the same: the worked example
//! of document 01, a middle-sized model and the largest one.

use super::describe::*;
use super::instances::{InstanceDesc, NodeDesc, SlotDesc};
use super::members::{MembersDesc, UNDERLYING};
use super::models::{self, Shape};
use super::random::Random;
use super::raw::Raw;

/// Types of the worked example.
pub const TOUR: usize = 0;
pub const STOP: usize = 1;
pub const TEXT: usize = 2;

/// The worked example.
pub fn worked_example() -> ModelDesc {
    let mut m = ModelDesc::default();
    m.schema("g");
    m.add_type(ENTITY, "Tour");
    m.add_type(ENTITY, "Stop");
    m.add_type(COMPLEX, "Text");
    m.structural(TOUR, "No", INT32);
    let stops = m.navigation(TOUR, "Stops", STOP);
    m.properties[stops].contains = true;
    m.properties[stops].collection = true;
    m.structural(STOP, "No", INT32);
    let label = m.structural(STOP, "Label", TEXT as u32);
    m.properties[label].nullable = true;
    let next = m.navigation(STOP, "Next", STOP);
    m.properties[next].nullable = true;
    m.structural(TEXT, "Lang", STRING);
    m.key(TOUR, &["No"]);
    m.key(STOP, &["No"]);
    let tours = m.set("Tours", TOUR);
    let spares = m.set("Spares", STOP);
    m.bind(tours, &["Stops", "Next"], spares);
    m
}

/// An instance of the worked example: each tour with stops, each stop with a
/// next one. A stop's label is null.
pub fn tours(tours: usize, stops_each: usize) -> InstanceDesc {
    let single = |property, item| SlotDesc {
        property,
        state: 1,
        items: vec![item],
    };
    let mut nodes = Vec::new();
    let first_stop = |tour: usize| (tours + tour * stops_each) as u32;
    for tour in 0..tours {
        let stops = (0..stops_each as u32).map(|i| (STOP as u32, first_stop(tour) + i));
        let held = SlotDesc {
            property: 1,
            state: 2,
            items: stops.collect(),
        };
        nodes.push(NodeDesc {
            type_number: TOUR,
            slots: vec![single(0, (INT32, tour as u32)), held],
        });
    }
    for stop in 0..tours * stops_each {
        let next = tours + (stop + 1) % (tours * stops_each);
        let label = SlotDesc {
            property: 3,
            state: 0,
            items: Vec::new(),
        };
        let next = single(4, (STOP as u32, next as u32));
        nodes.push(NodeDesc {
            type_number: STOP,
            slots: vec![single(2, (INT32, stop as u32)), label, next],
        });
    }
    InstanceDesc { nodes }
}

/// A model, and an instance of it with 256 nodes, 1024 slots and 2048 items.
/// Node 0 holds all others; its binding is at place 8.
pub fn full_instance() -> (ModelDesc, InstanceDesc) {
    let mut m = ModelDesc::default();
    m.schema("g");
    let part = m.add_type(ENTITY, "Part");
    let tags = m.structural(part, "Tags", INT32);
    m.properties[tags].collection = true;
    m.structural(part, "No", INT32);
    let parts = m.navigation(part, "Parts", part);
    m.properties[parts].collection = true;
    m.properties[parts].contains = true;
    let next = m.navigation(part, "Next", part);
    m.properties[next].nullable = true;
    m.key(part, &["No"]);
    let set = m.set("Set", part);
    m.bind(set, &["Parts", "Next"], set);
    let slot = |property, state, items| SlotDesc {
        property,
        state,
        items,
    };
    let node = |n: u32| {
        let tag_count = if n == 0 { 6 } else { 5 };
        let held = if n == 0 { 1..256 } else { 0..0 };
        NodeDesc {
            type_number: part,
            slots: vec![
                slot(tags, 2, vec![(INT32, n); tag_count]),
                slot(1, 1, vec![(INT32, n)]),
                slot(parts, 2, held.map(|h| (part as u32, h)).collect()),
                slot(next, 1, vec![(part as u32, 255 - n)]),
            ],
        }
    };
    let nodes = (0..256).map(node).collect();
    (m, InstanceDesc { nodes })
}

/// An enumeration for each underlying type, in the order of their codes.
pub fn five_enumerations() -> ModelDesc {
    let mut m = ModelDesc::default();
    m.schema("g");
    for (code, ..) in UNDERLYING {
        let t = m.add_type(ENUMERATION, &format!("Of{code}"));
        m.types[t].underlying = code;
    }
    m
}

/// A model, and members of it: 1024 of one type, with 4096 name bytes.
pub fn full_members() -> (ModelDesc, MembersDesc) {
    let mut m = ModelDesc::default();
    m.schema("g");
    let code = m.add_type(ENUMERATION, "Code");
    m.types[code].underlying = INT32 - 64;
    let mut members = MembersDesc::default();
    for i in 0..1024 {
        members.add(code, &format!("m{i:03x}"), None);
    }
    (m, members)
}

/// About 20 types, 150 properties and 60 segments.
pub fn middle() -> ModelDesc {
    let shape = Shape {
        schemas: 3,
        entities: 9,
        complexes: 7,
        enumerations: 2,
        definitions: 2,
        properties: 140,
        constraints: 5,
        children: 8,
        bindings: 7,
        longest_path: 5,
        long_names: false,
        derived: 60,
        chained: false,
        nested: false,
    };
    let fits = |m: &ModelDesc| {
        let segments: usize = m.all_paths().iter().map(|p| p.3.len()).sum();
        (145..=155).contains(&m.properties.len()) && (55..=65).contains(&segments)
    };
    (1..)
        .map(|seed| models::model(&mut Random::new(seed), &shape))
        .find(fits)
        .expect("some seed fits")
}

/// Names of 128 bytes, cut out of one text so that they all find room.
struct LongNames {
    text: Bytes,
    given: usize,
}

impl LongNames {
    fn new() -> LongNames {
        const LETTERS: &[u8] = b"abcdefghijklmnopqrstuvwxyzABCDEFGHIJKLMNOPQRSTUVWXYZ_";
        let mut r = Random::new(1);
        LongNames {
            text: (0..4096).map(|_| LETTERS[r.below(LETTERS.len())]).collect(),
            given: 0,
        }
    }

    fn next(&mut self) -> Bytes {
        let start = 5 * self.given;
        self.given += 1;
        self.text[start..start + 128].to_vec()
    }

    /// As much of the text as was used, or the model's share of it if more.
    fn text_for(&self, types: usize) -> Bytes {
        let used = 5 * self.given.saturating_sub(1) + 128;
        self.text[..used.max(64 * types)].to_vec()
    }
}

/// A chain of up to 64 types, each derived from the one before, with 8
/// properties, 2 keys, 1 constraint, 1 set, 2 bindings and 16 segments a type.
/// With 64 types every table is full. Names have 128 bytes.
pub fn chain(types: usize) -> Raw {
    let mut names = LongNames::new();
    let mut m = ModelDesc::default();
    for _ in 0..types.div_ceil(4) {
        m.schemas.push(SchemaDesc {
            namespace: names.next(),
            alias: names.next(),
        });
    }
    for t in 0..types {
        chain_type(&mut m, &mut names, t, types - 1);
    }
    chain_keys(&mut m, types);
    chain_sets(&mut m, &mut names, types);
    let layout = Layout {
        names: names.text_for(types),
        ..Layout::plain()
    };
    m.encode(&layout)
}

/// Two containments on the first type; a navigation and plain ones on each.
fn chain_type(m: &mut ModelDesc, names: &mut LongNames, t: usize, last: usize) {
    m.add_type(ENTITY, "");
    m.types[t].schema = t % m.schemas.len();
    m.types[t].name = names.next();
    m.types[t].base = t.checked_sub(1);
    for j in 0..8 {
        let navigates = j == 2 || j < 2 && t == 0;
        let p = if navigates {
            m.navigation(t, "", last)
        } else {
            m.structural(t, "", INT32)
        };
        let property = &mut m.properties[p];
        property.name = names.next();
        property.nullable = j < 4;
        property.contains = navigates && j < 2;
    }
    m.constraints.push(ConstraintDesc {
        property: 8 * t + 2,
        dependent: vec![chain_name(m, 8 * t + 3)],
        principal: vec![chain_name(m, 4)],
    });
}

fn chain_name(m: &ModelDesc, p: usize) -> Seg {
    Seg::Name(m.properties[p].name.clone())
}

/// Keys of the last type, through properties of the first half of the chain.
fn chain_keys(m: &mut ModelDesc, types: usize) {
    for k in 0..2 * types {
        m.keys.push(KeyDesc {
            owner: types - 1,
            path: vec![chain_name(m, 8 * (k / 4) + 4 + k % 4)],
            alias: Vec::new(),
        });
    }
}

/// Two bindings a set, of five containments and a navigation.
fn chain_sets(m: &mut ModelDesc, names: &mut LongNames, types: usize) {
    for c in 0..types {
        m.set("", types - 1);
        m.children[c].name = names.next();
        for way in 0..2 {
            let mut path: Path = (0..5).map(|i| chain_name(m, (c + way) >> i & 1)).collect();
            path.push(chain_name(m, 2));
            m.bindings.push(BindingDesc {
                child: c,
                path,
                target: (c + 1) % types,
                target_path: Vec::new(),
            });
        }
    }
}
