//! The members image, decoded into records, and rules 30 and 31.

use std::collections::HashSet;

use super::bits::{number16, Fields};
use super::model::{name, Span, ENUMERATION, VERSION};
use super::model_rules::{answer, bad_span, simple_identifier, Known};
use super::Refusal;

const HEADER: usize = 6;
const MOST_MEMBERS: usize = 1024;
const MOST_NAME_BYTES: usize = 4096;
/// Bytes a member.
const SIZE: usize = 12;

const BYTE: u32 = 3;
const INT16: u32 = 10;
const INT32: u32 = 11;
const SBYTE: u32 = 13;

pub struct Member {
    pub type_number: usize,
    pub given: bool,
    pub name: Span,
    pub value: i64,
    pub spare: u64,
}

pub struct Members<'a> {
    pub records: Vec<Member>,
    pub names: &'a [u8],
}

impl<'a> Members<'a> {
    /// Nothing if the image as a whole breaks rule 30.
    pub fn decode(image: &'a [u8]) -> Option<Members<'a>> {
        let count = count(image)?;
        let (records, names) = image[HEADER..].split_at(count * SIZE);
        Some(Members {
            records: records.chunks_exact(SIZE).map(member).collect(),
            names,
        })
    }

    fn name(&self, member: &Member) -> &'a [u8] {
        &self.names[member.name.range()]
    }

    /// The place of the first member that is faulty.
    fn lowest(&self, faulty: impl FnMut(&Member) -> bool) -> Option<u32> {
        let number = self.records.iter().position(faulty)?;
        Some(number as u32)
    }
}

/// The number of members, if the image as a whole keeps rule 30.
fn count(image: &[u8]) -> Option<usize> {
    if image.len() < HEADER || number16(image, 0) != VERSION {
        return None;
    }
    let (count, names) = (number16(image, 1), number16(image, 2));
    let within = count <= MOST_MEMBERS && names <= MOST_NAME_BYTES;
    (within && image.len() == HEADER + count * SIZE + names).then_some(count)
}

/// The value lies across the first four bytes and the last eight.
fn member(record: &[u8]) -> Member {
    let (start, end) = record.split_at(4);
    let mut f = Fields::new(start);
    let type_number = f.take(6) as usize;
    let given = f.flag();
    let name = name(&mut f);
    let high = u64::from(f.take(5));
    let low = end.iter().fold(0, |sum, &b| sum << 8 | u64::from(b));
    Member {
        type_number,
        given,
        name,
        value: (high << 59 | low >> 5) as i64,
        spare: low & 31,
    }
}

pub fn check(known: &Known, image: &[u8]) -> Result<(), Refusal> {
    let members = Members::decode(image).ok_or(Refusal { rule: 30, place: 0 })?;
    answer(30, fields(known, &members))?;
    answer(31, values(known, &members))
}

/// Rule 30 at a member.
fn fields(known: &Known, members: &Members) -> Option<u32> {
    members.lowest(|member| {
        let type_record = known.model.types.get(member.type_number);
        member.spare != 0
            || type_record.is_none_or(|t| t.kind != ENUMERATION)
            || bad_span(member.name, members.names.len())
            || !simple_identifier(members.name(member))
            || !member.given && member.value != 0
    })
}

/// What rule 31 knows of a type from the members so far.
#[derive(Clone, Default)]
struct Earlier {
    count: i64,
    first_given: bool,
}

/// Rule 31.
fn values(known: &Known, members: &Members) -> Option<u32> {
    let mut names = HashSet::with_capacity(members.records.len());
    let mut types = vec![Earlier::default(); known.model.types.len()];
    members.lowest(|member| {
        let earlier = &mut types[member.type_number];
        if earlier.count == 0 {
            earlier.first_given = member.given;
        }
        let value = if member.given {
            member.value
        } else {
            earlier.count
        };
        earlier.count += 1;
        let underlying = known.model.types[member.type_number].underlying;
        member.given != earlier.first_given
            || !fits(value, underlying)
            || !names.insert((member.type_number, members.name(member)))
    })
}

fn fits(value: i64, underlying: u32) -> bool {
    match underlying {
        BYTE => u8::try_from(value).is_ok(),
        SBYTE => i8::try_from(value).is_ok(),
        INT16 => i16::try_from(value).is_ok(),
        INT32 => i32::try_from(value).is_ok(),
        // Int64.
        _ => true,
    }
}
