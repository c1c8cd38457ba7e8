//! Cases of the members check.

use super::cases::{stray_fields, Case, Expect};
use super::damage_members as damage;
use super::damage_raw::{flip_bits, random_under_header};
use super::describe::ModelDesc;
use super::members::{scatter, MembersDesc};
use super::random::Random;
use super::raw::Raw;

/// A sound model and sound members of it, from which cases are made.
pub struct Declared {
    pub model: ModelDesc,
    pub image: Vec<u8>,
    pub members: MembersDesc,
}

impl Declared {
    fn case(&self, members: Vec<u8>) -> Case {
        Case::Members {
            model: self.image.clone(),
            members,
        }
    }

    pub fn sound(&self, r: &mut Random) -> (Case, Expect) {
        let image = scattered(r, &self.members).to_bytes();
        (self.case(image), Expect::Accepted)
    }

    /// Rule 30 or 31, broken once.
    pub fn broken(&self, r: &mut Random, rule: u32) -> Option<(Case, Expect)> {
        let mut desc = self.members.clone();
        if rule == 31 {
            let aim = damage::value(r, &self.model, &mut desc)?;
            let image = scattered(r, &desc).to_bytes();
            return Some((self.case(image), Expect::aimed(31, aim)));
        }
        let mut raw = scattered(r, &desc);
        let aim = match r.below(10) {
            0 => damage::beyond_limit(r, &mut raw)?,
            1 | 2 => {
                let mut image = raw.to_bytes();
                let aim = damage::whole(r, &mut image);
                return Some((self.case(image), Expect::aimed(30, aim)));
            }
            _ => damage::field(r, &self.model, &mut raw)?,
        };
        Some((self.case(raw.to_bytes()), Expect::aimed(30, aim)))
    }

    /// Broken at two members. Whether a member is broken depends on it and on
    /// earlier ones only, so that the lower of two faults of one rule stands.
    pub fn broken_twice(&self, r: &mut Random) -> Option<(Case, Expect)> {
        let mut desc = self.members.clone();
        let count = desc.members.len();
        if count < 2 {
            return None;
        }
        let early = r.below(count - 1);
        let late = r.range(early + 1, count - 1);
        let rules = [(31, 30), (31, 30), (30, 31), (30, 30), (31, 31)][r.below(5)];
        let mut faults = [(rules.0, early), (rules.1, late)];
        r.shuffle(&mut faults);
        for &(_, i) in faults.iter().filter(|fault| fault.0 == 31) {
            damage::value_at(r, &self.model, &mut desc, i)?;
        }
        let mut raw = scattered(r, &desc);
        for &(_, i) in faults.iter().filter(|fault| fault.0 == 30) {
            damage::field_at(r, &self.model, &mut raw, i)?;
        }
        let &(rule, place) = faults.iter().min()?;
        Some((self.case(raw.to_bytes()), Expect::At(rule, place as u32)))
    }

    /// Damage that aims at nothing.
    pub fn stray(&self, r: &mut Random, made: usize) -> Case {
        let mut raw = scattered(r, &self.members);
        let image = match r.below(8) {
            0..=3 => {
                for _ in 0..r.range(1, 2) {
                    stray_fields(r, &mut raw);
                }
                raw.to_bytes()
            }
            4 => {
                let mut image = raw.to_bytes();
                flip_bits(r, &mut image);
                image
            }
            5 => random_under_header(r, &raw),
            6 => short(r, raw.to_bytes(), made % 20),
            _ => random(r),
        };
        self.case(image)
    }
}

fn scattered(r: &mut Random, desc: &MembersDesc) -> Raw {
    let mut raw = desc.encode();
    scatter(r, &mut raw);
    raw
}

/// The first bytes, of which perhaps one is changed.
fn short(r: &mut Random, mut image: Vec<u8>, length: usize) -> Vec<u8> {
    image.truncate(length);
    if !image.is_empty() && r.coin() {
        let at = r.below(image.len());
        image[at] = r.number() as u8;
    }
    image
}

/// Random bytes, perhaps under a header that fits them.
fn random(r: &mut Random) -> Vec<u8> {
    if r.coin() {
        let length = r.below(40);
        return r.bytes(length);
    }
    let (count, names) = (r.below(4), r.below(30));
    let mut image = vec![4, 2, 0, count as u8, 0, names as u8];
    image.extend(r.bytes(12 * count + names));
    image
}
