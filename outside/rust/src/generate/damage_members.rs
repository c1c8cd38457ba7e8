//! Damage to members, rules 30 and 31.

use super::damage_model::{any, bad_identifier};
use super::damage_raw::{bad_bytes, bad_span, Aim};
use super::describe::*;
use super::members::*;
use super::random::Random;
use super::raw::{Raw, Record};

/// Bytes of the header of a members image.
const HEADER: usize = 6;

/// Rule 30 at a member.
pub fn field(r: &mut Random, model: &ModelDesc, raw: &mut Raw) -> Option<Aim> {
    let count = raw.tables[0].len();
    if count == 0 || r.chance(15) {
        return stranger(r, model, raw);
    }
    let i = r.below(count);
    field_at(r, model, raw, i)
}

/// Breaks rule 30 at a member, which alone is changed.
pub fn field_at(r: &mut Random, model: &ModelDesc, raw: &mut Raw, i: usize) -> Option<Aim> {
    let done = (0..6).any(|_| match r.below(6) {
        0 => {
            raw.tables[0][i][SPARE] = 1 << r.below(5);
            true
        }
        1 => past_types(r, model).is_some_and(|t| set_type(raw, i, t)),
        2 => {
            let size = raw.names.as_ref().map_or(0, Vec::len);
            bad_span(r, &mut raw.tables[0][i], START, size, 4096, 256, false)
        }
        3 => bad_name(r, raw, i),
        4 => {
            unused_value(r, &mut raw.tables[0][i]);
            true
        }
        _ => other_kind(r, model).is_some_and(|t| set_type(raw, i, t)),
    });
    done.then_some(Aim::Place(i as u32))
}

fn set_type(raw: &mut Raw, i: usize, t: usize) -> bool {
    raw.tables[0][i][TYPE] = t as u32;
    true
}

/// A type number that is not below the count.
fn past_types(r: &mut Random, model: &ModelDesc) -> Option<usize> {
    let count = model.types.len();
    let just = r.coin();
    (count < 64).then(|| if just { count } else { r.range(count, 63) })
}

/// A type that is no enumeration.
fn other_kind(r: &mut Random, model: &ModelDesc) -> Option<usize> {
    any(r, model.types.len(), |t| model.types[t].kind != ENUMERATION)
}

/// The bad name is added to the name bytes, unless another member's name goes
/// past them, which it might then not.
fn bad_name(r: &mut Random, raw: &mut Raw, i: usize) -> bool {
    let Some(names) = &mut raw.names else {
        return false;
    };
    let name = bad_identifier(r);
    let past = |record: &Record| (record[START] + record[LENGTH]) as usize > names.len();
    if names.len() + name.len() > MOST_NAME_BYTES || raw.tables[0].iter().any(past) {
        return false;
    }
    let span = put_name(names, &name, false);
    raw.tables[0][i][START..START + 2].copy_from_slice(&span);
    true
}

/// A value that is not 0 and not given.
fn unused_value(r: &mut Random, record: &mut Record) {
    let value = match r.below(4) {
        0 => 1,
        1 => u64::MAX,
        2 => 1 << r.below(64),
        _ => r.number().max(1),
    };
    record[GIVEN] = 0;
    record[HIGH] = (value >> 32) as u32;
    record[LOW] = value as u32;
}

/// A new member that names no enumeration, with fields that are sound or not.
fn stranger(r: &mut Random, model: &ModelDesc, raw: &mut Raw) -> Option<Aim> {
    let t = if r.coin() {
        past_types(r, model).or_else(|| other_kind(r, model))
    } else {
        other_kind(r, model).or_else(|| past_types(r, model))
    }?;
    let count = raw.tables[0].len();
    if count == MOST_MEMBERS {
        return None;
    }
    let at = r.range(0, count);
    let mut record = match r.pick(&raw.tables[0]) {
        Some(copied) => copied.clone(),
        None => vec![0, 1, 0, r.below(2) as u32, 0, 0, 0],
    };
    record[TYPE] = t as u32;
    raw.tables[0].insert(at, record);
    Some(Aim::Place(at as u32))
}

/// Rule 30, by bytes: header, length or counts.
pub fn whole(r: &mut Random, image: &mut Vec<u8>) -> Aim {
    match r.below(6) {
        0 => image.push(r.number() as u8),
        1 => image.truncate(image.len() - 1),
        _ => return bad_bytes(r, image, HEADER),
    }
    Aim::Place(0)
}

/// Rule 30: one record or byte too many, the length as it should be.
pub fn beyond_limit(r: &mut Random, raw: &mut Raw) -> Option<Aim> {
    if r.coin() {
        let copy = raw.tables[0].first()?.clone();
        raw.tables[0].resize(MOST_MEMBERS + 1, copy);
    } else {
        raw.names.as_mut()?.resize(MOST_NAME_BYTES + 1, b'a');
    }
    Some(Aim::Place(0))
}

/// Rule 31.
pub fn value(r: &mut Random, model: &ModelDesc, desc: &mut MembersDesc) -> Option<Aim> {
    (0..6).find_map(|_| {
        // A try that fails half-way leaves nothing behind.
        let mut tried = desc.clone();
        let aim = match r.below(10) {
            0 => first_unlike(r, model, &mut tried),
            1 => inserted_twice(r, model, &mut tried),
            2 => one_too_many(r, model, &mut tried),
            _ if desc.members.is_empty() => None,
            _ => {
                let i = r.below(desc.members.len());
                value_at(r, model, &mut tried, i)
            }
        }?;
        *desc = tried;
        Some(aim)
    })
}

/// Breaks rule 31 at a member, which alone is changed.
pub fn value_at(
    r: &mut Random,
    model: &ModelDesc,
    desc: &mut MembersDesc,
    i: usize,
) -> Option<Aim> {
    let t = desc.members[i].type_number;
    let mut earlier = desc.of_type(t);
    earlier.retain(|&j| j < i);
    let underlying = model.types[t].underlying;
    match r.below(4) {
        0 => {
            let &j = r.pick(&earlier)?;
            desc.members[i].name = desc.members[j].name.clone();
        }
        1 => {
            let &first = earlier.first()?;
            desc.members[i].value = unlike(r, underlying, desc.members[first].value);
        }
        _ => desc.members[i].value = Some(beyond(r, underlying)?),
    }
    Some(Aim::Place(i as u32))
}

/// Given where the other value is not.
fn unlike(r: &mut Random, underlying: u32, value: Option<i64>) -> Option<i64> {
    match value {
        Some(_) => None,
        None => Some(fitting(r, underlying)),
    }
}

/// A value that does not fit; every value of 64 bits fits into Int64.
fn beyond(r: &mut Random, underlying: u32) -> Option<i64> {
    let (low, high) = bounds(underlying);
    if high == i64::MAX {
        return None;
    }
    Some(match r.below(10) {
        0 | 1 => low - 1,
        2 | 3 => high + 1,
        4 => between(r, low - high - 1, low - 1),
        5 => between(r, high + 1, 2 * high + 1),
        6 => between(r, i64::MIN, low - 1),
        7 => between(r, high + 1, i64::MAX),
        8 => [i64::MIN, i64::MAX][r.below(2)],
        // Its lower bits alone would fit.
        _ => between(r, low, high) + (1 << r.range(32, 62)),
    })
}

/// The first member of a type is changed, so that the second is unlike it.
fn first_unlike(r: &mut Random, model: &ModelDesc, desc: &mut MembersDesc) -> Option<Aim> {
    let t = any(r, model.types.len(), |t| desc.of_type(t).len() > 1)?;
    let of_type = desc.of_type(t);
    let first = &mut desc.members[of_type[0]];
    first.value = unlike(r, model.types[t].underlying, first.value);
    Some(Aim::Place(of_type[1] as u32))
}

/// A new member with the name of another; the later of the two is at fault.
fn inserted_twice(r: &mut Random, model: &ModelDesc, desc: &mut MembersDesc) -> Option<Aim> {
    let count = desc.members.len();
    if count == MOST_MEMBERS {
        return None;
    }
    let other = any(r, count, |_| true)?;
    let mut member = desc.members[other].clone();
    let underlying = model.types[member.type_number].underlying;
    member.value = member.value.map(|_| fitting(r, underlying));
    let at = r.range(0, count);
    desc.members.insert(at, member);
    let later = if at <= other { other + 1 } else { at };
    Some(Aim::Place(later as u32))
}

/// More members without given values than the underlying type has values,
/// among some of the other members.
fn one_too_many(r: &mut Random, model: &ModelDesc, desc: &mut MembersDesc) -> Option<Aim> {
    let t = any(r, model.types.len(), |t| {
        let of = &model.types[t];
        of.kind == ENUMERATION && most_counted(of.underlying) < MOST_MEMBERS
    })?;
    let most = most_counted(model.types[t].underlying);
    desc.members.retain(|member| member.type_number != t);
    desc.members.truncate(r.range(0, 15));
    desc.text.clear();
    for n in 0..most + r.range(1, 3) {
        desc.add(t, &format!("n{n}"), None);
    }
    if r.coin() {
        r.shuffle(&mut desc.members);
    }
    Some(Aim::Place(desc.of_type(t)[most] as u32))
}
