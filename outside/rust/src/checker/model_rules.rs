//! Rules 1 to 12, and the order in which all the model's rules answer.

use std::collections::HashMap;

use super::model::*;
use super::path_rules;
use super::paths::{self, Resolved};
use super::Refusal;

/// A decoded model with what the later rules need to know of it.
pub struct Known<'a> {
    pub model: Model<'a>,
    /// Equal names have equal numbers; one number a property.
    pub property_names: Vec<usize>,
    /// The number of each name segment's name; unused for a cast.
    pub segment_names: Vec<usize>,
    /// The properties of each name number, in table order.
    pub declared: Vec<Vec<usize>>,
    /// Bit u of entry t: type t is at type u.
    pub at: Vec<u64>,
    /// Number of ancestors.
    pub depth: Vec<usize>,
    /// The topmost type.
    pub top: Vec<usize>,
    /// What each segment resolves to; filled by rule 14.
    pub resolution: Vec<Resolved>,
    name_numbers: HashMap<&'a [u8], usize>,
}

/// Rules 1 to 19; rule 2 only where the room of a buffer is given.
pub fn check(image: &[u8], room: Option<usize>) -> Result<Known<'_>, Refusal> {
    let model = well_formed(image, room)?;
    answer(6, schema_names(&model))?;
    answer(7, repeated_names(&model))?;
    answer(8, type_flags(&model))?;
    answer(9, base_cycle(&model))?;
    let mut known = Known::new(model);
    answer(10, properties(&known.model))?;
    answer(11, property_names(&known))?;
    answer(12, endless_type(&known))?;
    answer(13, path_rules::segment_use(&known.model))?;
    known.resolution = paths::resolve_all(&known).map_err(|place| Refusal { rule: 14, place })?;
    answer(15, path_rules::keys(&known))?;
    answer(16, path_rules::constraints(&known))?;
    answer(17, path_rules::partners(&known))?;
    answer(18, path_rules::keyless(&known))?;
    answer(19, path_rules::bindings(&known))?;
    Ok(known)
}

/// Rules 1 to 5.
pub fn well_formed(image: &[u8], room: Option<usize>) -> Result<Model<'_>, Refusal> {
    let model = Model::decode(image).ok_or(Refusal { rule: 1, place: 0 })?;
    if room.is_some_and(|bytes| bytes < 2 * model.segments.len()) {
        return Err(Refusal { rule: 2, place: 0 });
    }
    answer(3, spare_bits(&model))?;
    answer(4, fields(&model))?;
    answer(5, bad_names(&model))?;
    Ok(model)
}

/// The refusal at a place, if there is one.
pub fn answer(rule: u32, place: Option<u32>) -> Result<(), Refusal> {
    match place {
        None => Ok(()),
        Some(place) => Err(Refusal { rule, place }),
    }
}

/// The place of the first record of a table that is faulty.
pub fn lowest(model: &Model, table: Table, faulty: impl Fn(usize) -> bool) -> Option<u32> {
    let count = model.counts()[table as usize];
    let number = (0..count).find(|&i| faulty(i))?;
    Some(model.place(table, number))
}

impl<'a> Known<'a> {
    /// Needs rules 1 to 9.
    fn new(model: Model<'a>) -> Known<'a> {
        let mut known = Known {
            property_names: Vec::new(),
            segment_names: Vec::new(),
            declared: Vec::new(),
            at: Vec::new(),
            depth: Vec::new(),
            top: Vec::new(),
            resolution: Vec::new(),
            name_numbers: HashMap::new(),
            model,
        };
        known.number_names();
        known.climb_bases();
        known
    }

    fn number_names(&mut self) {
        for i in 0..self.model.properties.len() {
            let number = self.number_of(self.model.properties[i].name);
            self.property_names.push(number);
            self.declared[number].push(i);
        }
        for i in 0..self.model.segments.len() {
            let number = match self.model.segments[i].step {
                Step::Name(name) => self.number_of(name),
                Step::Cast(_) => usize::MAX,
            };
            self.segment_names.push(number);
        }
    }

    fn number_of(&mut self, name: Span) -> usize {
        let next = self.declared.len();
        let number = *self
            .name_numbers
            .entry(self.model.name(name))
            .or_insert(next);
        if number == next {
            self.declared.push(Vec::new());
        }
        number
    }

    fn climb_bases(&mut self) {
        for t in 0..self.model.types.len() {
            let (mut at, mut depth, mut top) = (1u64 << t, 0, t);
            while self.model.types[top].base != 0 {
                top = self.model.types[top].base - 1;
                at |= 1 << top;
                depth += 1;
            }
            self.at.push(at);
            self.depth.push(depth);
            self.top.push(top);
        }
    }

    /// Type `t` is `u` or derives from it.
    pub fn is_at(&self, t: usize, u: usize) -> bool {
        self.at[t] >> u & 1 == 1
    }

    pub fn derives(&self, t: usize, u: usize) -> bool {
        t != u && self.is_at(t, u)
    }

    /// The property a name means at a type.
    pub fn find(&self, t: usize, name: usize) -> Option<usize> {
        self.declared[name]
            .iter()
            .copied()
            .filter(|&p| self.is_at(t, self.model.properties[p].owner))
            .max_by_key(|&p| self.depth[self.model.properties[p].owner])
    }

    /// A property of the type or an ancestor has this name.
    pub fn has_property_named(&self, t: usize, name: &[u8]) -> bool {
        match self.name_numbers.get(name) {
            None => false,
            Some(&number) => self.find(t, number).is_some(),
        }
    }

    /// The properties that the names of a type mean.
    pub fn visible(&self, t: usize) -> Vec<usize> {
        (0..self.model.properties.len())
            .filter(|&p| self.find(t, self.property_names[p]) == Some(p))
            .collect()
    }

    /// The type has a key, its own or inherited.
    pub fn has_key(&self, t: usize) -> bool {
        self.model.keys.iter().any(|key| self.is_at(t, key.owner))
    }

    /// Two bytes a segment, high byte first.
    pub fn write_resolution(&self, buffer: &mut [u8]) {
        for (resolved, two) in self.resolution.iter().zip(buffer.chunks_exact_mut(2)) {
            let value = match *resolved {
                Resolved::Property(p) => p as u16,
                Resolved::Cast(t) => 32768 + t as u16,
            };
            two.copy_from_slice(&value.to_be_bytes());
        }
    }
}

/// Rule 3.
fn spare_bits(m: &Model) -> Option<u32> {
    lowest(m, Table::Type, |i| m.types[i].spare != 0)
        .or_else(|| lowest(m, Table::Property, |i| m.properties[i].spare != 0))
        .or_else(|| lowest(m, Table::Key, |i| m.keys[i].spare != 0))
        .or_else(|| lowest(m, Table::Constraint, |i| m.constraints[i].spare != 0))
        .or_else(|| lowest(m, Table::Child, |i| m.children[i].spare != 0))
        .or_else(|| lowest(m, Table::Binding, |i| m.bindings[i].spare != 0))
        .or_else(|| lowest(m, Table::Segment, |i| m.segments[i].spare != 0))
}

/// Rule 4.
fn fields(m: &Model) -> Option<u32> {
    lowest(m, Table::Schema, |i| schema_fields(m, &m.schemas[i]))
        .or_else(|| lowest(m, Table::Type, |i| type_fields(m, &m.types[i])))
        .or_else(|| lowest(m, Table::Property, |i| property_fields(m, &m.properties[i])))
        .or_else(|| lowest(m, Table::Key, |i| key_fields(m, &m.keys[i])))
        .or_else(|| {
            lowest(m, Table::Constraint, |i| {
                constraint_fields(m, &m.constraints[i])
            })
        })
        .or_else(|| lowest(m, Table::Child, |i| child_fields(m, &m.children[i])))
        .or_else(|| lowest(m, Table::Binding, |i| binding_fields(m, &m.bindings[i])))
        .or_else(|| lowest(m, Table::Segment, |i| segment_fields(m, &m.segments[i])))
}

/// An absent span starts at 0; a present one ends within its table.
fn bad_optional(span: Span, size: usize) -> bool {
    if span.present() {
        span.first + span.count > size
    } else {
        span.first != 0
    }
}

pub fn bad_span(span: Span, size: usize) -> bool {
    !span.present() || bad_optional(span, size)
}

fn bad_type_ref(m: &Model, type_ref: u32) -> bool {
    match type_ref {
        0..=63 => type_ref as usize >= m.types.len(),
        65..=81 => false,
        _ => true,
    }
}

fn schema_fields(m: &Model, s: &Schema) -> bool {
    bad_span(s.namespace, m.names.len()) || bad_optional(s.alias, m.names.len())
}

fn type_fields(m: &Model, t: &Type) -> bool {
    t.schema >= m.schemas.len()
        || t.kind > 3
        || t.base > m.types.len()
        || t.underlying > 17
        || bad_span(t.name, m.names.len())
}

fn property_fields(m: &Model, p: &Property) -> bool {
    p.owner >= m.types.len()
        || bad_type_ref(m, p.type_ref)
        || bad_span(p.name, m.names.len())
        || bad_optional(p.partner, m.segments.len())
}

fn key_fields(m: &Model, k: &Key) -> bool {
    k.owner >= m.types.len()
        || bad_span(k.path, m.segments.len())
        || bad_optional(k.alias, m.names.len())
}

fn constraint_fields(m: &Model, c: &Constraint) -> bool {
    c.property >= m.properties.len()
        || bad_span(c.dependent, m.segments.len())
        || bad_span(c.principal, m.segments.len())
}

fn child_fields(m: &Model, c: &Child) -> bool {
    c.type_number >= m.types.len() || bad_span(c.name, m.names.len())
}

fn binding_fields(m: &Model, b: &Binding) -> bool {
    b.child >= m.children.len()
        || bad_span(b.path, m.segments.len())
        || b.target >= m.children.len()
        || bad_optional(b.target_path, m.segments.len())
}

fn segment_fields(m: &Model, s: &Segment) -> bool {
    match s.step {
        Step::Name(name) => bad_span(name, m.names.len()),
        Step::Cast(t) => t >= m.types.len(),
    }
}

/// Rule 5.
fn bad_names(m: &Model) -> Option<u32> {
    let bad = |name: Span| !simple_identifier(m.name(name));
    let bad_alias = |name: Span| name.present() && bad(name);
    lowest(m, Table::Schema, |i| {
        !namespace(m.name(m.schemas[i].namespace)) || bad_alias(m.schemas[i].alias)
    })
    .or_else(|| lowest(m, Table::Type, |i| bad(m.types[i].name)))
    .or_else(|| lowest(m, Table::Property, |i| bad(m.properties[i].name)))
    .or_else(|| lowest(m, Table::Key, |i| bad_alias(m.keys[i].alias)))
    .or_else(|| lowest(m, Table::Child, |i| bad(m.children[i].name)))
    .or_else(|| {
        lowest(m, Table::Segment, |i| match m.segments[i].step {
            Step::Name(name) => bad(name),
            Step::Cast(_) => false,
        })
    })
}

pub fn simple_identifier(name: &[u8]) -> bool {
    (1..=128).contains(&name.len())
        && !name[0].is_ascii_digit()
        && name.iter().all(|&b| IDENTIFIER_BYTE[usize::from(b)])
}

/// ASCII letters, digits and the underscore.
const IDENTIFIER_BYTE: [bool; 256] = {
    let mut table = [false; 256];
    let mut b = 0u8;
    while b < 128 {
        table[b as usize] = b.is_ascii_alphanumeric() || b == b'_';
        b += 1;
    }
    table
};

fn namespace(name: &[u8]) -> bool {
    name.len() <= 255 && name.split(|&b| b == b'.').all(simple_identifier)
}

/// Rule 6.
fn schema_names(m: &Model) -> Option<u32> {
    const RESERVED: [&[u8]; 4] = [b"Edm", b"odata", b"System", b"Transient"];
    let names = |i: usize| {
        let schema = &m.schemas[i];
        let alias = schema.alias.present().then(|| m.name(schema.alias));
        std::iter::once(m.name(schema.namespace)).chain(alias)
    };
    lowest(m, Table::Schema, |i| {
        let own: Vec<&[u8]> = names(i).collect();
        own.iter().any(|name| RESERVED.contains(name))
            || own.len() == 2 && own[0] == own[1]
            || (0..i).any(|j| names(j).any(|name| own.contains(&name)))
    })
}

/// Rule 7.
fn repeated_names(m: &Model) -> Option<u32> {
    lowest(m, Table::Type, |i| {
        let t = &m.types[i];
        m.types[..i]
            .iter()
            .any(|u| u.schema == t.schema && m.name(u.name) == m.name(t.name))
    })
    .or_else(|| {
        lowest(m, Table::Child, |i| {
            let name = m.name(m.children[i].name);
            m.children[..i].iter().any(|c| m.name(c.name) == name)
        })
    })
}

/// Rule 8.
fn type_flags(m: &Model) -> Option<u32> {
    lowest(m, Table::Type, |i| {
        let t = &m.types[i];
        let base = t.base.checked_sub(1).map(|b| &m.types[b]);
        bad_underlying(t)
            || t.kind == COMPLEX && t.media
            || !t.structured() && (base.is_some() || t.is_abstract || t.open || t.media)
            || base.is_some_and(|base| bad_base(t, base))
    })
}

fn bad_base(t: &Type, base: &Type) -> bool {
    t.kind != base.kind
        || t.kind == ENTITY && t.is_abstract && !base.is_abstract
        || base.open && !t.open
        || base.media && !t.media
}

fn bad_underlying(t: &Type) -> bool {
    match t.kind {
        ENUMERATION => !matches!(t.underlying, 3 | 10..=13),
        DEFINITION => t.underlying == 0,
        _ => t.underlying != 0,
    }
}

/// Rule 9: the type itself comes back within as many steps as there are types.
fn base_cycle(m: &Model) -> Option<u32> {
    lowest(m, Table::Type, |i| {
        let mut base = m.types[i].base;
        for _ in 0..m.types.len() {
            if base == 0 {
                return false;
            }
            if base - 1 == i {
                return true;
            }
            base = m.types[base - 1].base;
        }
        false
    })
}

/// Rule 10.
fn properties(m: &Model) -> Option<u32> {
    lowest(m, Table::Property, |i| {
        let p = &m.properties[i];
        let owner = &m.types[p.owner];
        let to_entity = m.kind_of(p.type_ref) == Some(ENTITY);
        !owner.structured()
            || p.navigation != to_entity
            || !p.navigation && (p.contains || p.partner.present())
            || p.navigation && p.collection && p.nullable
            || p.collection && m.code_of(p.type_ref) == Some(STREAM)
            || p.partner.present() && owner.kind == COMPLEX
    })
}

/// Rule 11.
fn property_names(known: &Known) -> Option<u32> {
    let m = &known.model;
    lowest(m, Table::Property, |i| {
        let p = &m.properties[i];
        known.declared[known.property_names[i]].iter().any(|&j| {
            let q = &m.properties[j];
            if q.owner == p.owner {
                j < i
            } else {
                known.is_at(p.owner, q.owner) && !redeclares(known, p, q)
            }
        })
    })
}

/// Property `p` may stand for the ancestor's property `q`.
fn redeclares(known: &Known, p: &Property, q: &Property) -> bool {
    p.navigation == q.navigation
        && known.model.named_type(p.type_ref).is_some()
        && known.model.named_type(q.type_ref).is_some()
        && known.derives(p.type_ref as usize, q.type_ref as usize)
        && p.collection == q.collection
        && p.nullable == q.nullable
        && p.contains == q.contains
}

/// Rule 12: the steps of a type are its own and its ancestors'; then closed.
fn endless_type(known: &Known) -> Option<u32> {
    let m = &known.model;
    let mut own = vec![0u64; m.types.len()];
    for p in &m.properties {
        let complex = m.kind_of(p.type_ref) == Some(COMPLEX);
        if !p.collection && !p.nullable && (complex || p.contains) {
            own[p.owner] |= 1 << p.type_ref;
        }
    }
    let mut reach: Vec<u64> = (0..own.len()).map(|t| union(&own, known.at[t])).collect();
    for via in 0..reach.len() {
        for t in 0..reach.len() {
            if reach[t] >> via & 1 == 1 {
                reach[t] |= reach[via];
            }
        }
    }
    lowest(m, Table::Type, |t| reach[t] >> t & 1 == 1)
}

/// All entries whose bit is set in `which`, joined.
fn union(entries: &[u64], which: u64) -> u64 {
    (0..entries.len())
        .filter(|i| which >> i & 1 == 1)
        .fold(0, |sum, i| sum | entries[i])
}
