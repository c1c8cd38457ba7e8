//! Cases: a call with its arguments, and what is known of its answer.

use super::damage_raw::{self as damage, Aim};
use super::describe::{Layout, ModelDesc, ENUMERATION};
use super::instances::{self, InstanceDesc, Room};
use super::members::{self, MembersDesc};
use super::members_cases::Declared;
use super::models::{self, Shape};
use super::random::Random;
use super::raw::Raw;
use super::{damage_instance, damage_model, fixed};
use crate::checker::{self, Answer};

#[derive(Debug, Clone)]
pub enum Case {
    Model {
        image: Vec<u8>,
        buffer: Vec<u8>,
    },
    Instance {
        model: Vec<u8>,
        instance: Vec<u8>,
    },
    Members {
        model: Vec<u8>,
        members: Vec<u8>,
    },
    Walk {
        model: Vec<u8>,
        instance: Vec<u8>,
        place: u32,
        path: u32,
        node: u32,
        buffer: Vec<u8>,
    },
}

/// An answer in 64 bits, and the lent buffer afterwards.
#[derive(Debug, Clone, PartialEq, Eq)]
pub struct Outcome {
    pub packed: u64,
    pub buffer: Vec<u8>,
}

impl Case {
    /// What the checker of this crate answers.
    pub fn reference(&self) -> (Answer, Outcome) {
        let mut buffer = self.buffer().to_vec();
        let answer = self.call_reference(&mut buffer);
        let packed = answer.packed();
        (answer, Outcome { packed, buffer })
    }

    /// The call of this crate's checker, with a buffer in place of its own.
    pub fn call_reference(&self, lent: &mut [u8]) -> Answer {
        match self {
            Case::Model { image, .. } => checker::check_model(image, lent),
            Case::Instance { model, instance } => checker::check_instance(model, instance),
            Case::Members { model, members } => checker::check_members(model, members),
            Case::Walk {
                model,
                instance,
                place,
                path,
                node,
                ..
            } => checker::walk(model, instance, *place, *path, *node, lent),
        }
    }

    /// The buffer that is lent to be written to; the checks of an instance and
    /// of members have none.
    pub fn buffer(&self) -> &[u8] {
        match self {
            Case::Model { buffer, .. } | Case::Walk { buffer, .. } => buffer,
            Case::Instance { .. } | Case::Members { .. } => &[],
        }
    }

    /// The model image, and the instance image, the members image or nothing.
    pub fn images(&self) -> (&[u8], &[u8]) {
        match self {
            Case::Model { image, .. } => (image, &[]),
            Case::Members { model, members } => (model, members),
            Case::Instance { model, instance }
            | Case::Walk {
                model, instance, ..
            } => (model, instance),
        }
    }
}

/// What the generator knows of the answer.
#[derive(Debug, Clone, Copy, PartialEq, Eq)]
pub enum Expect {
    Accepted,
    At(u32, u32),
    Rule(u32),
    Anything,
}

impl Expect {
    pub fn aimed(rule: u32, aim: Aim) -> Expect {
        match aim {
            Aim::Place(place) => Expect::At(rule, place),
            Aim::Rule => Expect::Rule(rule),
            Aim::Maybe => Expect::Anything,
        }
    }

    pub fn holds(self, answer: Answer) -> bool {
        match (self, answer) {
            (Expect::Anything, _) => true,
            (Expect::Accepted, Answer::Refused { .. }) => false,
            (Expect::Accepted, _) => true,
            (Expect::Rule(expected), Answer::Refused { rule, .. }) => rule == expected,
            (Expect::At(expected, at), Answer::Refused { rule, place }) => {
                rule == expected && place == at
            }
            _ => false,
        }
    }
}

/// A sound model, a sound instance of it and sound members of its enumerations,
/// from which cases are made.
struct Base {
    model: ModelDesc,
    image: Vec<u8>,
    instance: InstanceDesc,
    instance_image: Vec<u8>,
    members: MembersDesc,
}

/// An endless row of cases, the same for the same seed.
pub struct Source {
    r: Random,
    base: Base,
    other_instance: Vec<u8>,
    left: usize,
    made: usize,
}

const CASES_A_BASE: usize = 12;

impl Source {
    pub fn new(seed: u64) -> Source {
        let mut r = Random::new(seed);
        let base = Base::new(&mut r);
        Source {
            r,
            base,
            other_instance: Vec::new(),
            left: CASES_A_BASE,
            made: 0,
        }
    }

    fn renew(&mut self) {
        let base = Base::new(&mut self.r);
        self.other_instance = std::mem::replace(&mut self.base, base).instance_image;
        self.left = CASES_A_BASE;
    }

    pub fn next_case(&mut self) -> (Case, Expect) {
        if self.left == 0 {
            self.renew();
        }
        self.left -= 1;
        self.made += 1;
        match self.r.below(100) {
            0..=8 => self.sound_model(),
            9..=13 => self.sound_instance(),
            14..=27 => self.sound_walk(),
            28..=31 => self.sound_members(),
            32..=76 => {
                // 30 and 31 have many causes and come twice as often.
                let rule = match self.r.range(1, 33) as u32 {
                    32 => 30,
                    33 => 31,
                    rule => rule,
                };
                self.aimed(rule)
            }
            77..=86 => self.several(),
            _ => self.stray(),
        }
    }

    fn sound_model(&mut self) -> (Case, Expect) {
        let image = self.base.image.clone();
        let buffer = room_for_segments(&mut self.r, &image);
        (Case::Model { image, buffer }, Expect::Accepted)
    }

    fn sound_instance(&mut self) -> (Case, Expect) {
        let case = Case::Instance {
            model: self.base.image.clone(),
            instance: self.base.instance_image.clone(),
        };
        (case, Expect::Accepted)
    }

    fn sound_walk(&mut self) -> (Case, Expect) {
        match self.base.walk(&mut self.r) {
            Some(case) => (case, Expect::Accepted),
            None => self.sound_instance(),
        }
    }

    fn sound_members(&mut self) -> (Case, Expect) {
        self.base.declared(&mut self.r).sound(&mut self.r)
    }

    /// A case that breaks the rule; other bases are tried until one can.
    fn aimed(&mut self, rule: u32) -> (Case, Expect) {
        for _ in 0..40 {
            let base = &self.base;
            let made = match rule {
                2 => base.short_resolution(&mut self.r),
                1 | 3..=19 => base.bad_model(&mut self.r, &[rule]),
                20..=26 => base.bad_instance(&mut self.r, &[rule]),
                27..=29 => base.bad_walk(&mut self.r, rule),
                _ => base.declared(&mut self.r).broken(&mut self.r, rule),
            };
            match made {
                Some(made) => return made,
                None => self.renew(),
            }
        }
        self.sound_model()
    }

    /// Several rules broken at once: the lowest must answer.
    fn several(&mut self) -> (Case, Expect) {
        let r = &mut self.r;
        let many = r.range(2, 3);
        let made = match r.below(20) {
            0..=11 => {
                let rules: Vec<u32> = (0..many).map(|_| r.range(3, 19) as u32).collect();
                self.base.bad_model(r, &rules)
            }
            12..=17 => {
                let rules: Vec<u32> = (0..many).map(|_| r.range(21, 26) as u32).collect();
                self.base.bad_instance(r, &rules)
            }
            _ => return self.broken_members(),
        };
        match made {
            Some((case, _)) => (case, Expect::Anything),
            None => self.sound_model(),
        }
    }

    /// Members broken at two places: what must answer is known.
    fn broken_members(&mut self) -> (Case, Expect) {
        let declared = self.base.declared(&mut self.r);
        let made = declared.broken_twice(&mut self.r);
        made.unwrap_or_else(|| declared.sound(&mut self.r))
    }

    /// Damage that aims at nothing.
    fn stray(&mut self) -> (Case, Expect) {
        let r = &mut self.r;
        let base = &self.base;
        if r.chance(2) {
            return (largest(r), Expect::Anything);
        }
        let case = match r.below(9) {
            0 | 1 => base.stray_model(r),
            2 | 3 => base.stray_instance(r),
            4 => base.random_model(r),
            5 => base.short_header(r, self.made),
            6 => Case::Instance {
                model: base.image.clone(),
                instance: self.other_instance.clone(),
            },
            7 => base.declared(r).stray(r, self.made),
            _ => base.stray_walk(r),
        };
        (case, Expect::Anything)
    }
}

/// Cases with tables as full as they may be, sound or with a stray fault.
fn largest(r: &mut Random) -> Case {
    if r.chance(25) {
        return largest_members(r);
    }
    if r.coin() {
        let mut raw = fixed::chain(r.range(1, 64));
        if r.coin() {
            stray_fields(r, &mut raw);
        }
        let image = raw.to_bytes();
        let buffer = room_for_segments(r, &image);
        return Case::Model { image, buffer };
    }
    let (model, instance) = fixed::full_instance();
    let mut raw = instance.encode(r);
    if r.coin() {
        stray_fields(r, &mut raw);
    }
    Case::Walk {
        model: encode(r, &model).to_bytes(),
        instance: raw.to_bytes(),
        place: [6, 8, 8][r.below(3)],
        path: 0,
        node: if r.chance(70) { 0 } else { r.below(257) as u32 },
        buffer: room(r, 4 * (1 + 1024 + 2048)),
    }
}

fn largest_members(r: &mut Random) -> Case {
    let (model, members) = fixed::full_members();
    let mut raw = members.encode();
    if r.coin() {
        stray_fields(r, &mut raw);
    }
    Case::Members {
        model: encode(r, &model).to_bytes(),
        members: raw.to_bytes(),
    }
}

/// A buffer filled with a pattern.
fn pattern(r: &mut Random, length: usize) -> Vec<u8> {
    let (start, step) = (r.number() as u8, [0, 1, 85][r.below(3)]);
    (0..length)
        .map(|i| start.wrapping_add((i as u8).wrapping_mul(step)))
        .collect()
}

/// Exact or too long.
fn room(r: &mut Random, least: usize) -> Vec<u8> {
    let more = if r.coin() { 0 } else { r.range(1, 40) };
    pattern(r, least + more)
}

/// Room for the segments an image's header speaks of.
fn room_for_segments(r: &mut Random, image: &[u8]) -> Vec<u8> {
    let count = match image.get(16..18) {
        Some(two) => usize::from(two[0]) << 8 | usize::from(two[1]),
        None => 0,
    };
    room(r, 2 * count.min(1024))
}

/// Damage may have pushed a table over its limit, which is rule 1.
fn over_limits(raw: &Raw) -> bool {
    let limits: &[usize] = match raw.names {
        Some(_) => &[16, 64, 512, 128, 64, 64, 128, 1024],
        None => &[256, 1024, 2048],
    };
    let names = raw.names.as_ref().map_or(0, Vec::len);
    names > 4096
        || raw
            .tables
            .iter()
            .zip(limits)
            .any(|(t, &limit)| t.len() > limit)
}

fn layout(r: &mut Random) -> Layout {
    Layout {
        share_names: r.chance(80),
        paths: r.chance(85).then(|| Random::new(r.number())),
        names: Vec::new(),
    }
}

/// Shares names where the model would be too long without.
fn encode(r: &mut Random, model: &ModelDesc) -> Raw {
    let mut layout = layout(r);
    let raw = model.encode(&layout);
    if layout.share_names || !over_limits(&raw) {
        return raw;
    }
    layout.share_names = true;
    model.encode(&layout)
}

impl Base {
    fn new(r: &mut Random) -> Base {
        let shape = Shape::random(r);
        let model = models::model(r, &shape);
        let image = encode(r, &model).to_bytes();
        let starts: Vec<usize> = model.all_paths().iter().map(|p| p.2 as usize).collect();
        let most = if r.chance(if shape.nested { 60 } else { 10 }) {
            256
        } else {
            50
        };
        let room = Room {
            nodes: most,
            ..instances::WHOLE
        };
        let instance = instances::instance(r, &model, &starts, room);
        let instance_image = instance.encode(r).to_bytes();
        let members = members::members(r, &model);
        Base {
            model,
            image,
            instance,
            instance_image,
            members,
        }
    }

    /// Members of this model, or of a model of types alone.
    fn declared(&self, r: &mut Random) -> Declared {
        let enumerations = !self.model.of_kind(ENUMERATION).is_empty();
        if r.chance(if enumerations { 60 } else { 8 }) {
            return Declared {
                model: self.model.clone(),
                image: self.image.clone(),
                members: self.members.clone(),
            };
        }
        let model = members::enumerations(r);
        Declared {
            image: encode(r, &model).to_bytes(),
            members: members::members(r, &model),
            model,
        }
    }

    fn results_room(&self) -> usize {
        4 * (1 + self.instance.slot_count() + self.instance.item_count())
    }

    fn walk_case(&self, place: u32, path: u32, node: u32, buffer: Vec<u8>) -> Case {
        Case::Walk {
            model: self.image.clone(),
            instance: self.instance_image.clone(),
            place,
            path,
            node,
            buffer,
        }
    }

    /// A path and a node it may start at.
    fn start(&self, r: &mut Random) -> Option<(u32, u32, u32)> {
        let paths = self.model.all_paths();
        for _ in 0..8 {
            let tries = r.range(1, 8);
            let longest = (0..tries)
                .filter_map(|_| r.pick(&paths))
                .max_by_key(|p| p.3.len())?;
            let (place, path, start, _) = *longest;
            let nodes: Vec<usize> = (0..self.instance.nodes.len())
                .filter(|&n| {
                    self.model
                        .at(self.instance.nodes[n].type_number, start as usize)
                })
                .collect();
            if let Some(&node) = r.pick(&nodes) {
                return Some((place, path, node as u32));
            }
        }
        None
    }

    /// Of a few sound walks, often the one with most openings and results.
    fn walk(&self, r: &mut Random) -> Option<Case> {
        let tries = [1, 6][r.below(2)];
        let mut cases = Vec::new();
        for _ in 0..tries {
            let (place, path, node) = self.start(r)?;
            let buffer = room(r, self.results_room());
            cases.push(self.walk_case(place, path, node, buffer));
        }
        cases
            .into_iter()
            .max_by_key(|case| match case.reference().0 {
                Answer::Walked { results, opened } => results + opened,
                _ => 0,
            })
    }

    fn short_resolution(&self, r: &mut Random) -> Option<(Case, Expect)> {
        let segments: usize = self.model.all_paths().iter().map(|p| p.3.len()).sum();
        if segments == 0 {
            return None;
        }
        let length = if r.coin() {
            2 * segments - 1
        } else {
            r.below(2 * segments)
        };
        let case = Case::Model {
            image: self.image.clone(),
            buffer: pattern(r, length),
        };
        Some((case, Expect::At(2, 0)))
    }

    /// The model with these rules broken; the aim is that of the last one.
    fn bad_model(&self, r: &mut Random, rules: &[u32]) -> Option<(Case, Expect)> {
        let mut model = self.model.clone();
        let mut expect = Expect::Anything;
        for &rule in rules
            .iter()
            .filter(|&&rule| !matches!(rule, 1 | 3 | 4 | 13))
        {
            expect = Expect::aimed(rule, damage_model::damage(rule, r, &mut model)?);
        }
        let mut raw = encode(r, &model);
        for &rule in rules {
            let aim = match rule {
                1 if r.chance(30) => Some(damage::beyond_limit(r, &mut raw)?),
                3 => Some(damage::spare_bit(r, &mut raw)?),
                4 => Some(damage::bad_field(r, &mut raw)?),
                13 => Some(damage::segment_use(r, &mut raw)?),
                _ => None,
            };
            expect = aim.map_or(expect, |aim| Expect::aimed(rule, aim));
        }
        if over_limits(&raw) && !rules.contains(&1) {
            expect = Expect::Anything;
        }
        let mut image = raw.to_bytes();
        if rules.contains(&1) && expect == Expect::Anything {
            expect = Expect::aimed(1, damage::bad_bytes(r, &mut image, 20));
        }
        Some((self.with_model(r, image), expect))
    }

    /// Hands a damaged model to one of the four calls.
    fn with_model(&self, r: &mut Random, image: Vec<u8>) -> Case {
        match r.below(11) {
            0 => Case::Instance {
                model: image,
                instance: self.instance_image.clone(),
            },
            1 => Case::Walk {
                model: image,
                instance: self.instance_image.clone(),
                place: r.below(20) as u32,
                path: r.below(2) as u32,
                node: 0,
                buffer: room(r, self.results_room()),
            },
            2 => Case::Members {
                model: image,
                members: self.any_members(r),
            },
            _ => {
                let buffer = room_for_segments(r, &image);
                Case::Model { image, buffer }
            }
        }
    }

    /// The image of the members, as it is or cut short.
    fn any_members(&self, r: &mut Random) -> Vec<u8> {
        let mut image = self.members.encode().to_bytes();
        if r.chance(30) {
            image.truncate(r.below(image.len()));
        }
        image
    }

    fn bad_instance(&self, r: &mut Random, rules: &[u32]) -> Option<(Case, Expect)> {
        let mut instance = self.instance.clone();
        let mut expect = Expect::Anything;
        for &rule in rules.iter().filter(|&&rule| rule > 21) {
            let aim = damage_instance::damage(rule, r, &self.model, &mut instance)?;
            expect = Expect::aimed(rule, aim);
        }
        let mut raw = instance.encode(r);
        for &rule in rules {
            let (types, properties) = (self.model.types.len(), self.model.properties.len());
            let aim = match rule {
                20 if r.chance(20) => Some(damage::beyond_instance_limit(r, &mut raw)?),
                21 => Some(damage::bad_instance_field(r, &mut raw, types, properties)?),
                _ => None,
            };
            expect = aim.map_or(expect, |aim| Expect::aimed(rule, aim));
        }
        if over_limits(&raw) && !rules.contains(&20) {
            expect = Expect::Anything;
        }
        let mut image = raw.to_bytes();
        if rules.contains(&20) && expect == Expect::Anything {
            expect = Expect::aimed(20, damage::bad_bytes(r, &mut image, 8));
        }
        Some((self.with_instance(r, image), expect))
    }

    /// Hands a damaged instance to the instance check or to a walk.
    fn with_instance(&self, r: &mut Random, image: Vec<u8>) -> Case {
        let model = self.image.clone();
        match self.start(r) {
            Some((place, path, node)) if r.chance(30) => Case::Walk {
                model,
                instance: image,
                place,
                path,
                node,
                buffer: room(r, self.results_room()),
            },
            _ => Case::Instance {
                model,
                instance: image,
            },
        }
    }

    /// Rules 27 to 29.
    fn bad_walk(&self, r: &mut Random, rule: u32) -> Option<(Case, Expect)> {
        let (mut place, mut path, mut node) = self.start(r)?;
        let mut length = self.results_room();
        match rule {
            27 => (place, path) = self.no_path(r, place)?,
            28 => node = self.no_start(r, place, path)?,
            _ => {
                length = if r.coin() {
                    length - 1
                } else {
                    r.below(length)
                }
            }
        }
        let buffer = if rule == 29 {
            pattern(r, length)
        } else {
            room(r, length)
        };
        Some((
            self.walk_case(place, path, node, buffer),
            Expect::At(rule, 0),
        ))
    }

    /// A place and path number that name no path.
    fn no_path(&self, r: &mut Random, place: u32) -> Option<(u32, u32)> {
        let paths = self.model.all_paths();
        let segments: usize = paths.iter().map(|p| p.3.len()).sum();
        let records = self.model.place(6, self.model.bindings.len()) as usize + segments;
        let (place, path) = match r.below(6) {
            0 => (place, r.range(2, 9) as u32),
            1 => (place, u32::MAX - r.below(3) as u32),
            2 => (records as u32 + r.below(3) as u32, r.below(2) as u32),
            3 => (u32::MAX - r.below(3) as u32, r.below(2) as u32),
            _ => (r.below(records) as u32, r.below(2) as u32),
        };
        let held = paths.iter().any(|p| p.0 == place && p.1 == path);
        (!held).then_some((place, path))
    }

    /// A node that is absent or not at the start type.
    fn no_start(&self, r: &mut Random, place: u32, path: u32) -> Option<u32> {
        let paths = self.model.all_paths();
        let start = paths.iter().find(|p| p.0 == place && p.1 == path)?.2;
        let count = self.instance.nodes.len();
        let other: Vec<usize> = (0..count)
            .filter(|&n| {
                !self
                    .model
                    .at(self.instance.nodes[n].type_number, start as usize)
            })
            .collect();
        match r.pick(&other) {
            Some(&n) if r.chance(75) => Some(n as u32),
            _ if r.coin() => Some((count + r.below(4)) as u32),
            _ => Some(u32::MAX - r.below(3) as u32),
        }
    }

    fn stray_model(&self, r: &mut Random) -> Case {
        let mut raw = encode(r, &self.model);
        for _ in 0..r.range(1, 2) {
            stray_fields(r, &mut raw);
        }
        let mut image = raw.to_bytes();
        if r.chance(30) {
            damage::flip_bits(r, &mut image);
        }
        let case = self.with_model(r, image);
        shorten_buffer(r, case)
    }

    fn stray_instance(&self, r: &mut Random) -> Case {
        let mut raw = self.instance.encode(r);
        for _ in 0..r.range(1, 2) {
            stray_fields(r, &mut raw);
        }
        let mut image = raw.to_bytes();
        if r.chance(30) {
            damage::flip_bits(r, &mut image);
        }
        let case = self.with_instance(r, image);
        shorten_buffer(r, case)
    }

    fn random_model(&self, r: &mut Random) -> Case {
        let length = r.below(200);
        let image = match r.below(3) {
            0 => r.bytes(length),
            1 => {
                let raw = encode(r, &self.model);
                damage::random_under_header(r, &raw)
            }
            _ => {
                let mut image = r.bytes(length);
                image.splice(0..0, [4, 2]);
                image
            }
        };
        self.with_model(r, image)
    }

    /// All lengths from 0 up, of a header with one byte changed.
    fn short_header(&self, r: &mut Random, made: usize) -> Case {
        let length = made % 32;
        let image = if r.coin() {
            &self.image
        } else {
            &self.instance_image
        };
        let mut short: Vec<u8> = image.iter().copied().take(length).collect();
        if !short.is_empty() && r.coin() {
            let at = r.below(short.len());
            short[at] = r.number() as u8;
        }
        if r.coin() {
            self.with_model(r, short)
        } else {
            self.with_instance(r, short)
        }
    }

    /// A sound pair of images, any other argument.
    fn stray_walk(&self, r: &mut Random) -> Case {
        let records = self.model.place(6, self.model.bindings.len()) as usize;
        let place = r.below(records + 8) as u32;
        let path = r.below(3) as u32;
        let node = r.below(self.instance.nodes.len() + 2) as u32;
        let buffer = room(r, self.results_room());
        let case = self.walk_case(place, path, node, buffer);
        shorten_buffer(r, case)
    }
}

/// One field changed, or one record dropped, repeated or moved.
pub fn stray_fields(r: &mut Random, raw: &mut Raw) {
    match r.below(8) {
        0..=4 => damage::change_field(r, raw),
        5 => damage::drop_record(r, raw),
        6 => damage::duplicate_record(r, raw),
        _ => damage::swap_records(r, raw),
    };
}

/// Now and then a buffer too short on top of the other damage.
fn shorten_buffer(r: &mut Random, mut case: Case) -> Case {
    if let Case::Model { buffer, .. } | Case::Walk { buffer, .. } = &mut case {
        if r.chance(15) {
            buffer.truncate(r.range(0, buffer.len()));
        }
    }
    case
}
