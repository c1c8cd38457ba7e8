//! The inputs of the benchmark: usual ones and hostile ones, made from fixed
//! descriptions, each time the same; and what each may cost.

use crate::generate::cases::Case;
use crate::generate::describe::*;
use crate::generate::fixed::{chain, full_instance, full_members, middle, tours, worked_example};
use crate::generate::instances::{InstanceDesc, NodeDesc, SlotDesc};
use crate::generate::members::{MemberDesc, MembersDesc};
use crate::generate::random::Random;
use crate::generate::raw::Raw;

/// An input with the library's instructions a call over those of the unrelated
/// checker: what is aimed at, and above what the test fails.
pub struct Row {
    pub name: &'static str,
    pub goal: f64,
    pub limit: f64,
    pub make: fn() -> Case,
}

const fn row(name: &'static str, goal: f64, limit: f64, make: fn() -> Case) -> Row {
    Row {
        name,
        goal,
        limit,
        make,
    }
}

/// The limits of the test, all in this table: twice the goals.
pub const ROWS: [Row; 35] = [
    row("worked example", 1.0, 2.0, worked),
    row("middle model", 1.0, 2.0, middle_model),
    row(LARGEST, 1.0, 2.0, largest),
    row("instance of 256 nodes", 1.0, 2.0, tours_checked),
    row("one walk in it", 1.0, 2.0, tours_walked),
    row("names redeclared: instance", 3.0, 6.0, names_instance),
    row("names redeclared: walk", 3.0, 6.0, names_walk),
    row("names redeclared: 128 bindings", 3.0, 6.0, names_bindings),
    row("names redeclared: no segment", 3.0, 6.0, names_alone),
    row("types and children, names alike", 3.0, 6.0, names_alike),
    row("128 keys, aliases alike", 3.0, 6.0, aliases_alike),
    row("types and children, one digest", 3.0, 6.0, names_digest),
    row("64 keys, aliases of one digest", 3.0, 6.0, aliases_digest),
    row(
        "128 bindings, names of one digest",
        3.0,
        6.0,
        bindings_digest,
    ),
    row("16 schemas, names alike", 3.0, 6.0, schemas_alike),
    row("512 long names, no node", 3.0, 6.0, names_unused),
    row("refused 3: 512 long names", 3.0, 6.0, spare_bit),
    row("512 partners", 3.0, 6.0, partners),
    row("instance of 2,048 items", 3.0, 6.0, full),
    row(
        "refused 21: each slot has all items",
        3.0,
        6.0,
        runs_over_all,
    ),
    row("refused 21: each slot has no item", 3.0, 6.0, runs_past),
    row("refused 26: 256 nodes, one twice", 3.0, 6.0, held_twice),
    row("1,800 items at depth 62", 3.0, 6.0, deep_items),
    row("walk through 13 casts", 3.0, 6.0, casts),
    row("2,046 items through a cast", 3.0, 6.0, one_cast),
    row("refused 9: circle of 64 bases", 3.0, 6.0, circle),
    row("refused 14: last segment lost", 3.0, 6.0, lost),
    row("refused 19: last binding", 3.0, 6.0, last_binding),
    row(TENTH, 3.0, 6.0, tenth),
    row("32 members of four types", 1.0, 2.0, usual_members),
    row("1,024 members of one type", 3.0, 6.0, members_of_one),
    row("1,024 members, long names", 3.0, 6.0, members_alike),
    row("1,024 members of 64 types", 3.0, 6.0, members_of_all),
    row("1,024 members, falling names", 3.0, 6.0, members_falling),
    row("refused 31: last of 1,024", 3.0, 6.0, last_member),
];

/// The library's instructions for the largest model over those for a tenth.
pub const GROWTH_GOAL: f64 = 14.0;
pub const GROWTH_LIMIT: f64 = 28.0;

pub const LARGEST: &str = "largest model";
pub const TENTH: &str = "a tenth of the largest model";

/// A model check with room for its segments.
fn model_case(raw: &Raw) -> Case {
    Case::Model {
        image: raw.to_bytes(),
        buffer: vec![0; 2 * raw.tables[7].len()],
    }
}

fn model_bytes(m: &ModelDesc) -> Vec<u8> {
    m.encode(&Layout::plain()).to_bytes()
}

fn instance_bytes(instance: &InstanceDesc) -> Vec<u8> {
    instance.encode(&mut Random::new(1)).to_bytes()
}

fn instance_case(m: &ModelDesc, instance: &InstanceDesc) -> Case {
    Case::Instance {
        model: model_bytes(m),
        instance: instance_bytes(instance),
    }
}

/// A walk of path 0 at a place from node 0, with room for its results.
fn walk_case(m: &ModelDesc, instance: &InstanceDesc, place: u32) -> Case {
    let room = 4 * (1 + instance.slot_count() + instance.item_count());
    Case::Walk {
        model: model_bytes(m),
        instance: instance_bytes(instance),
        place,
        path: 0,
        node: 0,
        buffer: vec![0; room],
    }
}

fn worked() -> Case {
    model_case(&worked_example().encode(&Layout::plain()))
}

fn middle_model() -> Case {
    model_case(&middle().encode(&Layout::plain()))
}

fn largest() -> Case {
    model_case(&chain(64))
}

fn tenth() -> Case {
    model_case(&chain(6))
}

/// 16 tours of 15 stops each.
fn tours_checked() -> Case {
    instance_case(&worked_example(), &tours(16, 15))
}

/// The worked example's binding, from a tour.
fn tours_walked() -> Case {
    let m = worked_example();
    let place = m.place(6, 0);
    walk_case(&m, &tours(16, 15), place)
}

/// A schema and types T0, T1, .. of the kind, each derived from the one before.
fn line_of_types(kind: u32, count: usize) -> ModelDesc {
    let mut m = ModelDesc::default();
    m.schema("g");
    for t in 0..count {
        m.add_type(kind, &format!("T{t}"));
        m.types[t].base = t.checked_sub(1);
    }
    m
}

/// Name number j of eight, of 128 bytes each: alike in their first bytes and
/// in their last three, so that a bucket or a prefix tells none from another.
fn long_name(j: usize) -> Bytes {
    let mut name = vec![b'n'; 128];
    name[124] = b'a' + j as u8;
    name
}

/// 64 types in a line, each of which declares the eight long names anew, to
/// single, nullable navigations to itself. The first four contain.
fn names_model(bindings: usize) -> ModelDesc {
    let mut m = line_of_types(ENTITY, 64);
    for t in 0..64 {
        for j in 0..8 {
            let p = m.navigation(t, "", t);
            m.properties[p].name = long_name(j);
            m.properties[p].nullable = true;
            m.properties[p].contains = j < 4;
        }
    }
    m.set("S", 63);
    m.children[0].singleton = true;
    for b in 0..bindings {
        let numbers = [0, 0, 0, 0, b >> 6, b >> 4 & 3, b >> 2 & 3, 4 + (b & 3)];
        let path = numbers.map(|j| Seg::Name(long_name(j))).to_vec();
        m.bindings.push(BindingDesc {
            child: 0,
            path,
            target: 0,
            target_path: Vec::new(),
        });
    }
    m
}

/// 128 nodes of the last type, with eight null slots each.
fn null_nodes() -> InstanceDesc {
    let slots: Vec<SlotDesc> = (63 * 8..64 * 8).map(|p| slot(p, 0, &[])).collect();
    let node = NodeDesc {
        type_number: 63,
        slots,
    };
    InstanceDesc {
        nodes: vec![node; 128],
    }
}

fn slot(property: usize, state: u32, items: &[(u32, u32)]) -> SlotDesc {
    SlotDesc {
        property,
        state,
        items: items.to_vec(),
    }
}

fn names_instance() -> Case {
    instance_case(&names_model(0), &null_nodes())
}

fn names_walk() -> Case {
    let m = names_model(128);
    let place = m.place(6, 127);
    walk_case(&m, &null_nodes(), place)
}

fn names_bindings() -> Case {
    model_case(&names_model(128).encode(&Layout::plain()))
}

fn names_alone() -> Case {
    model_case(&names_model(0).encode(&Layout::plain()))
}

/// Name number i of 128, of 128 bytes each: one byte of it is another, and the
/// earlier that of two names stands, the sooner they differ.
fn name_alike(i: usize) -> Bytes {
    let mut text = vec![b'a'; 255];
    text[127] = b'b';
    text[i..i + 128].to_vec()
}

/// 64 types and 64 children with the first of these names.
fn types_and_children(name: fn(usize) -> Bytes) -> Case {
    let mut m = line_of_types(ENTITY, 64);
    for i in 0..64 {
        m.types[i].name = name(i);
        m.set("", i);
        m.children[i].name = name(i);
        m.children[i].singleton = true;
    }
    model_case(&m.encode(&Layout::plain()))
}

/// Keys of one type, of two segments each, with the first of these aliases.
fn keys(count: usize, alias: fn(usize) -> Bytes) -> Case {
    let mut m = line_of_types(ENTITY, 1);
    let complex = m.add_type(COMPLEX, "K");
    m.structural(0, "C", complex as u32);
    m.structural(complex, "V", INT32);
    for i in 0..count {
        m.key(0, &["C", "V"]);
        m.keys[i].alias = alias(i);
    }
    model_case(&m.encode(&Layout::plain()))
}

fn names_alike() -> Case {
    types_and_children(name_alike)
}

fn aliases_alike() -> Case {
    keys(128, name_alike)
}

/// Blocks of eight bytes that leave the digest of rules_names the same: 1000003
/// times one word and another more.
const BLOCKS: [&[u8; 8]; 2] = [b"aaaaazzz", b"aaabak87"];

/// Name number i of 128, of 56 bytes each: blocks by the bits of i.
fn name_digest(i: usize) -> Bytes {
    let block = |bit: usize| BLOCKS[i >> bit & 1];
    (0..7).flat_map(block).copied().collect()
}

fn names_digest() -> Case {
    types_and_children(name_digest)
}

fn aliases_digest() -> Case {
    keys(64, name_digest)
}

/// A type that contains itself under 32 names of one digest and refers to
/// itself under four; 128 bindings of eight segments, alike in the first five.
fn bindings_digest() -> Case {
    let mut m = line_of_types(ENTITY, 1);
    for j in 0..36 {
        let p = m.navigation(0, "", 0);
        m.properties[p].name = name_digest(j);
        m.properties[p].nullable = true;
        m.properties[p].contains = j < 32;
    }
    m.set("S", 0);
    m.children[0].singleton = true;
    for b in 0..128 {
        let numbers = [0, 0, 0, 0, 0, 0, b >> 2, 32 + (b & 3)];
        let path = numbers.map(|j| Seg::Name(name_digest(j))).to_vec();
        m.bindings.push(BindingDesc {
            child: 0,
            path,
            target: 0,
            target_path: Vec::new(),
        });
    }
    model_case(&m.encode(&Layout::plain()))
}

/// 16 schemas with an alias each, 32 names of 128 bytes.
fn schemas_alike() -> Case {
    let mut m = ModelDesc::default();
    for i in 0..16 {
        m.schema("");
        m.schemas[i].namespace = name_alike(i);
        m.schemas[i].alias = name_alike(16 + i);
    }
    model_case(&m.encode(&Layout::plain()))
}

/// One type with 512 names of 81 to 127 bytes, all within 127 name bytes: 80
/// to 111 times a, one b, and up to 15 times a again.
fn long_names() -> Raw {
    let mut m = line_of_types(ENTITY, 1);
    let text = [vec![b'a'; 111], vec![b'b'], vec![b'a'; 15]].concat();
    for i in 0..512 {
        let p = m.structural(0, "", INT32);
        m.properties[p].name = text[i % 32..112 + i / 32].to_vec();
    }
    m.encode(&Layout {
        names: text,
        ..Layout::plain()
    })
}

/// That model, and an instance of nothing.
fn names_unused() -> Case {
    Case::Instance {
        model: long_names().to_bytes(),
        instance: instance_bytes(&InstanceDesc::default()),
    }
}

/// That model, with a spare bit of its type set.
fn spare_bit() -> Case {
    let mut raw = long_names();
    let spare = raw.tables[1][0].len() - 1;
    raw.tables[1][0][spare] = 1;
    model_case(&raw)
}

/// 256 nodes, 1,024 slots and 2,048 items.
fn full() -> Case {
    let (m, instance) = full_instance();
    instance_case(&m, &instance)
}

/// The same, with all items in the run of each slot.
fn runs_over_all() -> Case {
    let (m, instance) = full_instance();
    let mut raw = instance.encode(&mut Random::new(1));
    for slot in &mut raw.tables[1] {
        slot[1..4].copy_from_slice(&[2, 0, 2048]);
    }
    Case::Instance {
        model: model_bytes(&m),
        instance: raw.to_bytes(),
    }
}

/// 1,024 slots whose runs go on past the last item, of which there is none.
fn runs_past() -> Case {
    let (m, instance) = full_instance();
    let mut raw = instance.encode(&mut Random::new(1));
    for slot in &mut raw.tables[1] {
        slot[1..4].copy_from_slice(&[2, 0, 2048]);
    }
    raw.tables[2].clear();
    Case::Instance {
        model: model_bytes(&m),
        instance: raw.to_bytes(),
    }
}

/// 32 types in a line and 32 more under the last of them, with 16 properties
/// each, which are each other's partners two by two; one of them contains.
fn partners() -> Case {
    let mut m = line_of_types(ENTITY, 32);
    for leaf in 32..64 {
        m.add_type(ENTITY, &format!("T{leaf}"));
        m.types[leaf].base = Some(31);
        for j in 0..16 {
            let name = |j: usize| format!("P{leaf}x{j}");
            let p = m.navigation(leaf, &name(j), leaf);
            m.properties[p].nullable = true;
            m.properties[p].contains = j == 0;
            m.properties[p].partner = names(&[&name(j ^ 1)]);
        }
    }
    model_case(&m.encode(&Layout::plain()))
}

/// A line of 256 nodes, each within the one before, and the last within the
/// first too; with 1,024 items in all.
fn held_twice() -> Case {
    let mut m = line_of_types(COMPLEX, 1);
    let parts = m.structural(0, "Parts", 0);
    m.properties[parts].collection = true;
    let tags = m.structural(0, "Tags", INT32);
    m.properties[tags].collection = true;
    let node = |n: u32| {
        let held: &[(u32, u32)] = match n {
            0 => &[(0, 1), (0, 255)],
            255 => &[],
            _ => &[(0, n + 1)],
        };
        NodeDesc {
            type_number: 0,
            slots: vec![slot(parts, 2, held), slot(tags, 2, &[(INT32, n); 3])],
        }
    };
    let nodes = (0..256).map(node).collect();
    instance_case(&m, &InstanceDesc { nodes })
}

/// A property of the first type of a line of 63, and eight nodes of the last
/// with 225 items each.
fn deep_items() -> Case {
    let mut m = line_of_types(ENTITY, 63);
    let refs = m.navigation(0, "Refs", 0);
    m.properties[refs].collection = true;
    let node = |n: u32| NodeDesc {
        type_number: 62,
        slots: vec![slot(refs, 2, &[(62, 7 - n); 225])],
    };
    let nodes = (0..8).map(node).collect();
    instance_case(&m, &InstanceDesc { nodes })
}

/// 255 nodes of the last type of a line of 64, taken through 13 casts to the
/// first.
fn casts() -> Case {
    let mut m = line_of_types(ENTITY, 64);
    let no = m.structural(0, "No", INT32);
    let parts = m.navigation(0, "Parts", 0);
    m.properties[parts].collection = true;
    m.properties[parts].contains = true;
    let next = m.navigation(0, "Next", 0);
    m.properties[next].nullable = true;
    m.key(0, &["No"]);
    let set = m.set("Set", 0);
    m.bind(set, &["Parts"], set);
    m.bindings[0].path.extend(vec![Seg::Cast(0); 13]);
    m.bindings[0].path.extend(names(&["Next"]));
    let node = |n: u32| {
        let held: Vec<(u32, u32)> = if n == 0 {
            (1..256).map(|h| (63, h)).collect()
        } else {
            Vec::new()
        };
        NodeDesc {
            type_number: 63,
            slots: vec![
                slot(no, 1, &[(INT32, n)]),
                slot(parts, 2, &held),
                slot(next, 1, &[(63, 255 - n)]),
            ],
        }
    };
    let nodes = (0..256).map(node).collect();
    let place = m.place(6, 0);
    walk_case(&m, &InstanceDesc { nodes }, place)
}

/// A node of the last type of a line of 64 that refers to itself 2,046 times,
/// and a cast to the first after that.
fn one_cast() -> Case {
    let mut m = line_of_types(ENTITY, 64);
    let refs = m.navigation(0, "Refs", 0);
    m.properties[refs].collection = true;
    let set = m.set("Set", 0);
    m.children[set].singleton = true;
    m.bind(set, &["Refs"], set);
    m.bindings[0].path.push(Seg::Cast(0));
    let node = NodeDesc {
        type_number: 63,
        slots: vec![slot(refs, 2, &[(63, 0); 2046])],
    };
    let place = m.place(6, 0);
    walk_case(&m, &InstanceDesc { nodes: vec![node] }, place)
}

/// The first type derives from the last.
fn circle() -> Case {
    let mut raw = chain(64);
    raw.tables[1][0][5] = 64;
    model_case(&raw)
}

/// The last segment has the name of the first schema, which no property has.
fn lost() -> Case {
    let mut raw = chain(64);
    raw.tables[7][1023] = vec![0, 0, raw.tables[0][0][0], raw.tables[0][0][1]];
    model_case(&raw)
}

/// The last binding ends at a containment.
fn last_binding() -> Case {
    let mut raw = chain(64);
    let containment = &raw.tables[2][0];
    raw.tables[7][1023] = vec![0, 0, containment[6], containment[7]];
    model_case(&raw)
}

fn members_case(m: &ModelDesc, members: &MembersDesc) -> Case {
    Case::Members {
        model: model_bytes(m),
        members: members.encode().to_bytes(),
    }
}

/// The underlying types of the enumerations here.
const BYTE: u32 = 3;
const INT64: u32 = 12;
const SBYTE: u32 = 13;

fn enumeration(m: &mut ModelDesc, name: &str, underlying: u32) -> usize {
    let t = m.add_type(ENUMERATION, name);
    m.types[t].underlying = underlying;
    t
}

/// The worked example with four enumerations: days and months are counted,
/// grades and services have given values.
fn usual_members() -> Case {
    let mut m = worked_example();
    let day = enumeration(&mut m, "Day", BYTE);
    let month = enumeration(&mut m, "Month", INT32 - 64);
    let grade = enumeration(&mut m, "Grade", SBYTE);
    let service = enumeration(&mut m, "Service", INT64);
    let mut members = MembersDesc::default();
    for name in ["Mon", "Tue", "Wed", "Thu", "Fri", "Sat", "Sun"] {
        members.add(day, name, None);
    }
    let months = [
        "Jan", "Feb", "Mar", "Apr", "May", "Jun", "Jul", "Aug", "Sep", "Oct", "Nov", "Dec",
    ];
    for name in months {
        members.add(month, name, None);
    }
    let grades = ["Worst", "Poor", "Plain", "Good", "Best"];
    for (value, name) in (-2..).zip(grades) {
        members.add(grade, name, Some(value));
    }
    let services = [
        "None", "Guide", "Meal", "Bus", "Boat", "Bed", "Ticket", "Photo",
    ];
    for (i, name) in services.iter().enumerate() {
        members.add(service, name, Some(1 << i >> 1));
    }
    members_case(&m, &members)
}

fn members_of_one() -> Case {
    let (m, members) = full_members();
    members_case(&m, &members)
}

/// A text of 1,151 bytes whose 1,024 parts of 128 bytes are alike for long and
/// all differ: each part has two b, and each b is one further from the b before
/// it than that one was.
fn text_alike() -> Bytes {
    let stretch = |a: usize| [vec![b'a'; a], vec![b'b']].concat();
    let mut text: Bytes = (32..58).flat_map(stretch).collect();
    text.truncate(1024 + 127);
    text
}

/// 1,024 members of one type whose names are these parts.
fn members_of_text() -> (ModelDesc, MembersDesc) {
    let (m, _) = full_members();
    let text = text_alike();
    let member = |i: usize| MemberDesc {
        type_number: 0,
        value: Some(i as i64),
        name: text[i..i + 128].to_vec(),
    };
    let members = (0..1024).map(member).collect();
    (m, MembersDesc { members, text })
}

fn members_alike() -> Case {
    let (m, members) = members_of_text();
    members_case(&m, &members)
}

/// 16 names of 128 bytes, alike for long, in each of 64 types in turn.
fn members_of_all() -> Case {
    let mut m = ModelDesc::default();
    m.schema("g");
    for t in 0..64 {
        enumeration(&mut m, &format!("T{t}"), INT64);
    }
    let member = |i: usize| MemberDesc {
        type_number: i % 64,
        value: Some(i as i64),
        name: name_alike(i / 64),
    };
    let members = (0..1024).map(member).collect();
    let text = Vec::new();
    members_case(&m, &MembersDesc { members, text })
}

/// Each name comes before those of all earlier members.
fn members_falling() -> Case {
    let (m, mut members) = full_members();
    members.members.reverse();
    members_case(&m, &members)
}

/// The last of these members has the name of the first; its bytes stand at the
/// end of the name bytes once more.
fn last_member() -> Case {
    let (m, mut members) = members_of_text();
    let name = members.members[0].name.clone();
    members.members[1023].name = name.clone();
    let mut raw = members.encode();
    let names = raw.names.as_mut().expect("members have names");
    raw.tables[0][1023][2] = put_name(names, &name, false)[0];
    Case::Members {
        model: model_bytes(&m),
        members: raw.to_bytes(),
    }
}

#[cfg(test)]
mod tests {
    use super::*;

    /// The sums (FNV-1a) of the bytes of all images, and of those of the rows
    /// without members: a change of a generator that moves an input is seen here.
    const SUM: u64 = 12442127034752590673;
    const SUM_WITHOUT_MEMBERS: u64 = 10772326008924239123;

    fn sum(rows: &[Row]) -> u64 {
        let mut sum: u64 = 0xcbf2_9ce4_8422_2325;
        for row in rows {
            let case = (row.make)();
            let (model, other) = case.images();
            for &byte in model.iter().chain(other) {
                sum = (sum ^ u64::from(byte)).wrapping_mul(0x0100_0000_01b3);
            }
        }
        sum
    }

    #[test]
    fn inputs_stay() {
        let members = |row: &Row| matches!((row.make)(), Case::Members { .. });
        let first = ROWS.iter().position(members).expect("rows of members");
        assert_eq!(sum(&ROWS[..first]), SUM_WITHOUT_MEMBERS);
        assert_eq!(sum(&ROWS), SUM);
    }

    /// Each input is what its name says, and made the same each time.
    #[test]
    fn inputs_are_as_named() {
        for row in &ROWS {
            let (_, outcome) = (row.make)().reference();
            let rule = row
                .name
                .strip_prefix("refused ")
                .and_then(|rest| rest.split(':').next())
                .map_or(0, |rule| rule.parse().unwrap());
            assert_eq!(outcome.packed >> 32, rule, "{}", row.name);
            assert_eq!((row.make)().reference().1, outcome, "{}", row.name);
        }
    }
}
