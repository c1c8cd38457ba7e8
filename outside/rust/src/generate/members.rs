//! Models of enumerations, and sound members of a sound model.

use std::collections::HashSet;

use super::describe::*;
use super::models::{identifier, letters};
use super::random::Random;
use super::raw::{Raw, Record};

pub const MOST_MEMBERS: usize = 1024;
pub const MOST_NAME_BYTES: usize = 4096;

/// The fields of a member.
pub const TYPE: usize = 0;
pub const GIVEN: usize = 1;
pub const START: usize = 2;
pub const LENGTH: usize = 3;
pub const HIGH: usize = 4;
pub const LOW: usize = 5;
pub const SPARE: usize = 6;

/// Codes of the underlying types, with their lowest and highest value.
pub const UNDERLYING: [(u32, i64, i64); 5] = [
    (3, 0, 255),
    (10, i16::MIN as i64, i16::MAX as i64),
    (11, i32::MIN as i64, i32::MAX as i64),
    (12, i64::MIN, i64::MAX),
    (13, -128, 127),
];

/// The lowest and the highest value of an underlying type.
pub fn bounds(underlying: u32) -> (i64, i64) {
    let known = UNDERLYING.iter().find(|known| known.0 == underlying);
    known.map_or((0, 0), |&(_, low, high)| (low, high))
}

/// How many members without given values an underlying type has room for.
pub fn most_counted(underlying: u32) -> usize {
    let values = bounds(underlying).1.saturating_add(1);
    values.min(MOST_MEMBERS as i64) as usize
}

#[derive(Debug, Clone)]
pub struct MemberDesc {
    pub type_number: usize,
    /// The given value, if there is one.
    pub value: Option<i64>,
    pub name: Bytes,
}

#[derive(Debug, Clone, Default)]
pub struct MembersDesc {
    pub members: Vec<MemberDesc>,
    /// Name bytes that stand in the image before others are added.
    pub text: Bytes,
}

impl MembersDesc {
    pub fn add(&mut self, type_number: usize, name: &str, value: Option<i64>) {
        self.members.push(MemberDesc {
            type_number,
            value,
            name: name.into(),
        });
    }

    /// The numbers of the members of a type.
    pub fn of_type(&self, t: usize) -> Vec<usize> {
        (0..self.members.len())
            .filter(|&i| self.members[i].type_number == t)
            .collect()
    }

    /// Equal names, and names within names, share their bytes.
    pub fn encode(&self) -> Raw {
        let mut raw = Raw::members();
        let mut names = self.text.clone();
        let record = |member: &MemberDesc| encode_member(member, &mut names);
        raw.tables[0] = self.members.iter().map(record).collect();
        raw.names = Some(names);
        raw
    }
}

fn encode_member(member: &MemberDesc, names: &mut Bytes) -> Record {
    let [start, length] = put_name(names, &member.name, true);
    let value = member.value.unwrap_or(0) as u64;
    vec![
        member.type_number as u32,
        member.value.is_some().into(),
        start,
        length,
        (value >> 32) as u32,
        value as u32,
        0,
    ]
}

/// Some names stand in the image twice, and some bytes in no name.
pub fn scatter(r: &mut Random, raw: &mut Raw) {
    let Some(names) = &mut raw.names else {
        return;
    };
    let share = [0, 0, 30, 100][r.below(4)];
    for record in &mut raw.tables[0] {
        let (start, length) = (record[2] as usize, record[3] as usize);
        if r.chance(share) && names.len() + length <= MOST_NAME_BYTES {
            let name = names[start..start + length].to_vec();
            record[2] = put_name(names, &name, false)[0];
        }
    }
    if r.chance(30) {
        let room = MOST_NAME_BYTES.saturating_sub(names.len());
        let more = r.range(0, room.min(20));
        names.extend(r.bytes(more));
    }
}

/// A model of types alone, most of them enumerations; now and then of no type.
pub fn enumerations(r: &mut Random) -> ModelDesc {
    let mut m = ModelDesc::default();
    m.schema("g");
    let count = match r.below(20) {
        0 => 0,
        1..=13 => r.range(1, 5),
        14..=17 => r.range(6, 63),
        _ => 64,
    };
    for t in 0..count {
        let kind = if r.chance(70) {
            ENUMERATION
        } else {
            r.below(4) as u32
        };
        m.add_type(kind, &format!("T{t}"));
        m.types[t].underlying = match kind {
            ENUMERATION => UNDERLYING[r.below(5)].0,
            DEFINITION => r.range(1, 17) as u32,
            _ => 0,
        };
    }
    m
}

/// A number from `low` to `high`, both included.
pub fn between(r: &mut Random, low: i64, high: i64) -> i64 {
    let span = high.wrapping_sub(low) as u64;
    let more = match span.checked_add(1) {
        Some(count) => r.number() % count,
        None => r.number(),
    };
    low.wrapping_add(more as i64)
}

/// A value that fits, often the lowest or the highest.
pub fn fitting(r: &mut Random, underlying: u32) -> i64 {
    let (low, high) = bounds(underlying);
    match r.below(6) {
        0 => low,
        1 => high,
        2 | 3 => r.below(4) as i64,
        _ => between(r, low, high),
    }
}

/// Sound members; none where the model has no enumeration.
pub fn members(r: &mut Random, model: &ModelDesc) -> MembersDesc {
    let mut used = model.of_kind(ENUMERATION);
    r.shuffle(&mut used);
    if r.coin() {
        used.truncate(r.range(1, 3));
    }
    let wanted = match r.below(20) {
        _ if used.is_empty() => 0,
        0 => 0,
        1..=13 => r.range(1, 12),
        14..=17 => r.range(13, 80),
        18 => r.range(81, MOST_MEMBERS),
        _ => MOST_MEMBERS,
    };
    let text = if r.coin() { text(r) } else { Vec::new() };
    let mut g = Growth {
        given: model.types.iter().map(|_| r.coin()).collect(),
        counts: vec![0; model.types.len()],
        taken: HashSet::new(),
        room: MOST_NAME_BYTES - text.len(),
        longest: [4, 16, 128][r.below(3)],
        desc: MembersDesc {
            members: Vec::new(),
            text,
        },
        model,
        r,
    };
    let in_turn = g.r.coin();
    for i in 0..wanted {
        let turn = if in_turn { i } else { g.r.below(used.len()) };
        g.add(used[turn % used.len()]);
    }
    if g.r.chance(30) {
        g.desc.members.sort_by_key(|member| member.type_number);
    }
    g.desc
}

/// A text of which names are parts: of one letter, of two or of many.
fn text(r: &mut Random) -> Bytes {
    let length = match r.below(6) {
        0 | 1 => r.range(1, 60),
        2 | 3 => r.range(61, 600),
        4 => r.range(601, MOST_NAME_BYTES - 1),
        _ => MOST_NAME_BYTES,
    };
    match r.below(4) {
        0 => vec![b'a'; length],
        1 => (0..length).map(|_| b"ab"[r.below(2)]).collect(),
        _ => letters(r, length),
    }
}

struct Growth<'g> {
    r: &'g mut Random,
    model: &'g ModelDesc,
    /// For each type whether its members have given values, and how many there are.
    given: Vec<bool>,
    counts: Vec<usize>,
    taken: HashSet<(usize, Bytes)>,
    /// Name bytes that can still be added.
    room: usize,
    /// Bytes of a name at most.
    longest: usize,
    desc: MembersDesc,
}

impl Growth<'_> {
    /// One more member of the type, if there is room for it and a name.
    fn add(&mut self, t: usize) {
        let underlying = self.model.types[t].underlying;
        if !self.given[t] && self.counts[t] >= most_counted(underlying) {
            return;
        }
        let Some(name) = (0..20).find_map(|_| self.name(t)) else {
            return;
        };
        let value = self.given[t].then(|| fitting(self.r, underlying));
        self.counts[t] += 1;
        self.taken.insert((t, name.clone()));
        self.desc.members.push(MemberDesc {
            type_number: t,
            value,
            name,
        });
    }

    /// A name that no member of the type has: a part of the text, or a new one.
    fn name(&mut self, t: usize) -> Option<Bytes> {
        let (name, added) = if self.desc.text.is_empty() {
            let name = identifier(self.r, self.longest == 128);
            let added = name.len();
            (name, added)
        } else {
            (self.part(), 0)
        };
        let fits = !name[0].is_ascii_digit() && added <= self.room;
        let free = fits && !self.taken.contains(&(t, name.clone()));
        free.then(|| {
            self.room -= added;
            name
        })
    }

    fn part(&mut self) -> Bytes {
        let text = &self.desc.text;
        let start = self.r.below(text.len());
        let most = (text.len() - start).min(self.longest);
        let length = if self.r.chance(30) {
            most
        } else {
            self.r.range(1, most)
        };
        text[start..start + length].to_vec()
    }
}
