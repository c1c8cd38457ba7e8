//! Damage to described models, one rule at a time: 5 to 12 and 14 to 19.

use super::damage_exact;
use super::damage_raw::Aim;
use super::describe::*;
use super::models::letters;
use super::random::Random;

type Damage = fn(&mut Random, &mut ModelDesc) -> Option<Aim>;

/// Breaks the rule, if this model has what that takes.
pub fn damage(rule: u32, r: &mut Random, desc: &mut ModelDesc) -> Option<Aim> {
    let choices: &[Damage] = match rule {
        5 => &[
            bad_schema_name,
            bad_record_name,
            bad_record_name,
            bad_segment_name,
        ],
        6 => &[reserved_name, own_name_twice, schema_name_twice],
        7 => &[type_name_twice, child_name_twice],
        8 => &[
            other_kind,
            plain_with_flags,
            complex_media,
            abstract_on_concrete,
            closed,
            opened,
            underlying,
        ],
        9 => &[base_circle],
        10 => &[
            owner,
            wrong_target,
            structural_extras,
            nullable_collection,
            stream_collection,
            complex_partner,
        ],
        11 => &[
            property_twice,
            clash_with_ancestor,
            clash_with_ancestor,
            unlike_ancestor,
        ],
        12 => &[required_circle],
        14 => &[lost_name, lost_cast, past_primitive],
        15 => &KEY,
        16 => &CONSTRAINT,
        17 => &PARTNER,
        18 => &[
            drop_key,
            nullable_set,
            child_of_any_type,
            keyless_collection,
        ],
        19 => &BINDING,
        _ => &[],
    };
    (0..6).find_map(|_| {
        let choice = r.pick(choices)?;
        // A try that fails half-way leaves nothing behind.
        let mut tried = desc.clone();
        let aim = choice(r, &mut tried)?;
        *desc = tried;
        Some(aim)
    })
}

pub fn any(r: &mut Random, count: usize, fits: impl Fn(usize) -> bool) -> Option<usize> {
    let fitting: Vec<usize> = (0..count).filter(|&i| fits(i)).collect();
    r.pick(&fitting).copied()
}

pub fn any_type(
    r: &mut Random,
    desc: &ModelDesc,
    fits: impl Fn(&TypeDesc) -> bool,
) -> Option<usize> {
    any(r, desc.types.len(), |t| fits(&desc.types[t]))
}

fn any_property(
    r: &mut Random,
    desc: &ModelDesc,
    fits: impl Fn(&PropertyDesc) -> bool,
) -> Option<usize> {
    any(r, desc.properties.len(), |p| fits(&desc.properties[p]))
}

fn at_type(desc: &ModelDesc, t: usize) -> Option<Aim> {
    Some(Aim::Place(desc.place(1, t)))
}

fn at_property(desc: &ModelDesc, p: usize) -> Option<Aim> {
    Some(Aim::Place(desc.place(2, p)))
}

/// A name that no record has.
pub fn unused_name(r: &mut Random) -> Bytes {
    let mut name = b"Unused_".to_vec();
    name.extend(letters(r, 6));
    name
}

/// Puts a record at any place of a table nothing refers to by number.
pub fn insert<T>(r: &mut Random, table: &mut Vec<T>, record: T) {
    let at = r.range(0, table.len());
    table.insert(at, record);
}

/// Adds a property at any place of the table; constraints keep their property.
pub fn insert_property(r: &mut Random, desc: &mut ModelDesc, property: PropertyDesc) -> usize {
    let at = r.range(0, desc.properties.len());
    desc.properties.insert(at, property);
    for c in &mut desc.constraints {
        if c.property >= at {
            c.property += 1;
        }
    }
    at
}

pub fn plain_property(owner: usize, name: Bytes, type_ref: u32) -> PropertyDesc {
    PropertyDesc {
        owner,
        navigation: false,
        collection: false,
        nullable: false,
        contains: false,
        type_ref,
        name,
        partner: Vec::new(),
    }
}

// Rule 5.

/// A name that is no simple identifier.
pub fn bad_identifier(r: &mut Random) -> Bytes {
    match r.below(9) {
        0 => b"1a".to_vec(),
        1 => b"a-b".to_vec(),
        2 => b"a b".to_vec(),
        3 => "Grün".into(),
        4 => letters(r, 129),
        5 => b"a.b".to_vec(),
        6 => vec![
            b'a',
            [0, b'@', b'[', b'`', b'{', b'/', b':', 0xff][r.below(8)],
        ],
        7 => letters(r, 255),
        _ => vec![r.range(b'0' as usize, b'9' as usize) as u8],
    }
}

fn bad_namespace(r: &mut Random) -> Bytes {
    match r.below(7) {
        0 => b".a".to_vec(),
        1 => b"a.".to_vec(),
        2 => b"a..b".to_vec(),
        3 => b"a.1b".to_vec(),
        4 => b".".to_vec(),
        5 => [b"a.".to_vec(), letters(r, 129)].concat(),
        _ => b"a.b-c".to_vec(),
    }
}

fn bad_schema_name(r: &mut Random, desc: &mut ModelDesc) -> Option<Aim> {
    let s = r.below(desc.schemas.len());
    if r.coin() {
        desc.schemas[s].namespace = bad_namespace(r);
    } else {
        desc.schemas[s].alias = bad_identifier(r);
    }
    Some(Aim::Place(desc.place(0, s)))
}

fn bad_record_name(r: &mut Random, desc: &mut ModelDesc) -> Option<Aim> {
    let name = bad_identifier(r);
    match r.below(4) {
        0 => {
            let t = any_type(r, desc, |_| true)?;
            desc.types[t].name = name;
            at_type(desc, t)
        }
        1 => {
            let p = any_property(r, desc, |_| true)?;
            desc.properties[p].name = name;
            at_property(desc, p)
        }
        2 => {
            let k = any(r, desc.keys.len(), |_| true)?;
            desc.keys[k].alias = name;
            Some(Aim::Place(desc.place(3, k)))
        }
        _ => {
            let c = any(r, desc.children.len(), |_| true)?;
            desc.children[c].name = name;
            Some(Aim::Place(desc.place(5, c)))
        }
    }
}

fn bad_segment_name(r: &mut Random, desc: &mut ModelDesc) -> Option<Aim> {
    let mut paths = desc.paths_mut();
    let chosen = any(r, paths.len(), |_| true)?;
    let path = &mut paths[chosen].1;
    let at = r.below(path.len());
    path[at] = Seg::Name(bad_identifier(r));
    Some(Aim::Rule)
}

// Rule 6.

fn reserved_name(r: &mut Random, desc: &mut ModelDesc) -> Option<Aim> {
    let reserved: &str = ["Edm", "odata", "System", "Transient"][r.below(4)];
    let s = r.below(desc.schemas.len());
    if r.coin() {
        desc.schemas[s].namespace = reserved.into();
    } else {
        desc.schemas[s].alias = reserved.into();
    }
    Some(Aim::Place(desc.place(0, s)))
}

fn own_name_twice(r: &mut Random, desc: &mut ModelDesc) -> Option<Aim> {
    let s = r.below(desc.schemas.len());
    let name = unused_name(r);
    desc.schemas[s].namespace = name.clone();
    desc.schemas[s].alias = name;
    Some(Aim::Place(desc.place(0, s)))
}

fn schema_name_twice(r: &mut Random, desc: &mut ModelDesc) -> Option<Aim> {
    let s = any(r, desc.schemas.len(), |s| s > 0)?;
    let earlier = desc.schemas[r.below(s)].clone();
    let named = !earlier.alias.is_empty() && r.coin();
    let name = if named {
        earlier.alias
    } else {
        earlier.namespace
    };
    if r.coin() || name.contains(&b'.') {
        desc.schemas[s].namespace = name;
    } else {
        desc.schemas[s].alias = name;
    }
    Some(Aim::Place(desc.place(0, s)))
}

// Rule 7.

fn type_name_twice(r: &mut Random, desc: &mut ModelDesc) -> Option<Aim> {
    let later = any(r, desc.types.len(), |t| t > 0)?;
    let earlier = desc.types[r.below(later)].clone();
    desc.types[later].name = earlier.name;
    desc.types[later].schema = earlier.schema;
    at_type(desc, later)
}

fn child_name_twice(r: &mut Random, desc: &mut ModelDesc) -> Option<Aim> {
    let later = any(r, desc.children.len(), |c| c > 0)?;
    desc.children[later].name = desc.children[r.below(later)].name.clone();
    Some(Aim::Place(desc.place(5, later)))
}

// Rule 8.

fn other_kind(r: &mut Random, desc: &mut ModelDesc) -> Option<Aim> {
    let t = any_type(r, desc, |t| t.kind <= COMPLEX)?;
    let kind = desc.types[t].kind;
    let base = any_type(r, desc, |u| u.kind != kind)?;
    desc.types[t].base = Some(base);
    at_type(desc, t)
}

fn plain_with_flags(r: &mut Random, desc: &mut ModelDesc) -> Option<Aim> {
    let t = any_type(r, desc, |t| t.kind > COMPLEX)?;
    let base = r.below(desc.types.len());
    let plain = &mut desc.types[t];
    match r.below(4) {
        0 => plain.base = Some(base),
        1 => plain.is_abstract = true,
        2 => plain.open = true,
        _ => plain.media = true,
    }
    at_type(desc, t)
}

fn complex_media(r: &mut Random, desc: &mut ModelDesc) -> Option<Aim> {
    let t = any_type(r, desc, |t| t.kind == COMPLEX)?;
    desc.types[t].media = true;
    Some(Aim::Rule)
}

fn abstract_on_concrete(r: &mut Random, desc: &mut ModelDesc) -> Option<Aim> {
    let t = any_type(r, desc, |t| {
        t.kind == ENTITY && t.base.is_some_and(|b| !desc.types[b].is_abstract)
    })?;
    desc.types[t].is_abstract = true;
    at_type(desc, t)
}

fn closed(r: &mut Random, desc: &mut ModelDesc) -> Option<Aim> {
    let t = any_type(r, desc, |t| {
        t.base
            .is_some_and(|b| desc.types[b].open || desc.types[b].media)
    })?;
    let base = desc.types[t].base?;
    if desc.types[base].open {
        desc.types[t].open = false;
    } else {
        desc.types[t].media = false;
    }
    at_type(desc, t)
}

fn opened(r: &mut Random, desc: &mut ModelDesc) -> Option<Aim> {
    let t = any_type(r, desc, |t| t.base.is_some() && !(t.open && t.media))?;
    let base = desc.types[t].base?;
    if !desc.types[t].open {
        desc.types[base].open = true;
    } else {
        desc.types[base].media = true;
    }
    Some(Aim::Rule)
}

fn underlying(r: &mut Random, desc: &mut ModelDesc) -> Option<Aim> {
    let t = any_type(r, desc, |_| true)?;
    desc.types[t].underlying = match desc.types[t].kind {
        ENUMERATION => [0, 1, 2, 4, 9, 14, 15, 16, 17][r.below(9)],
        DEFINITION => 0,
        _ => r.range(1, 17) as u32,
    };
    at_type(desc, t)
}

// Rule 9.

/// A type takes itself or one below it as base; flags of all of them agree.
fn base_circle(r: &mut Random, desc: &mut ModelDesc) -> Option<Aim> {
    let t = any_type(r, desc, |t| t.kind <= COMPLEX)?;
    for u in desc.below(desc.top(t)) {
        let member = &mut desc.types[u];
        member.is_abstract = false;
        member.open = true;
        member.media = member.kind == ENTITY;
    }
    let below = desc.below(t);
    let last = below[r.below(below.len())];
    let chain = desc.chain(last);
    let length = chain.iter().position(|&u| u == t)? + 1;
    let lowest = *chain[..length].iter().min()?;
    desc.types[t].base = Some(last);
    at_type(desc, lowest)
}

// Rule 10.

fn owner(r: &mut Random, desc: &mut ModelDesc) -> Option<Aim> {
    let p = any_property(r, desc, |_| true)?;
    desc.properties[p].owner = any_type(r, desc, |t| t.kind > COMPLEX)?;
    at_property(desc, p)
}

fn wrong_target(r: &mut Random, desc: &mut ModelDesc) -> Option<Aim> {
    let p = any_property(r, desc, |_| true)?;
    let navigation = desc.properties[p].navigation;
    let target = any_type(r, desc, |t| navigation != (t.kind == ENTITY));
    desc.properties[p].type_ref = match target {
        Some(t) if !navigation || r.coin() => t as u32,
        _ if navigation => 64 + r.range(1, 17) as u32,
        _ => return None,
    };
    at_property(desc, p)
}

fn structural_extras(r: &mut Random, desc: &mut ModelDesc) -> Option<Aim> {
    let p = any_property(r, desc, |p| !p.navigation)?;
    if r.coin() {
        desc.properties[p].contains = true;
    } else {
        desc.properties[p].partner = vec![Seg::Name(unused_name(r))];
    }
    at_property(desc, p)
}

fn nullable_collection(r: &mut Random, desc: &mut ModelDesc) -> Option<Aim> {
    let p = any_property(r, desc, |p| p.navigation)?;
    desc.properties[p].collection = true;
    desc.properties[p].nullable = true;
    at_property(desc, p)
}

fn stream_collection(r: &mut Random, desc: &mut ModelDesc) -> Option<Aim> {
    let p = any_property(r, desc, |p| !p.navigation)?;
    desc.properties[p].collection = true;
    match any_type(r, desc, |t| t.kind == DEFINITION) {
        Some(t) if r.chance(70) => {
            desc.types[t].underlying = 15;
            desc.properties[p].type_ref = t as u32;
            // Other collections of this definition are at fault too.
            Some(Aim::Rule)
        }
        _ => {
            desc.properties[p].type_ref = STREAM;
            at_property(desc, p)
        }
    }
}

fn complex_partner(r: &mut Random, desc: &mut ModelDesc) -> Option<Aim> {
    let p = any_property(r, desc, |p| {
        p.navigation && desc.types[p.owner].kind == COMPLEX
    })?;
    desc.properties[p].partner = vec![Seg::Name(unused_name(r))];
    at_property(desc, p)
}

// Rule 11.

fn property_twice(r: &mut Random, desc: &mut ModelDesc) -> Option<Aim> {
    let earlier = any_property(r, desc, |_| true)?;
    let later = any(r, desc.properties.len(), |p| {
        p > earlier && desc.properties[p].owner == desc.properties[earlier].owner
    })?;
    desc.properties[later].name = desc.properties[earlier].name.clone();
    Some(Aim::Rule)
}

/// A new property under an inherited name that may not stand for it.
fn clash_with_ancestor(r: &mut Random, desc: &mut ModelDesc) -> Option<Aim> {
    let t = any_type(r, desc, |t| t.kind <= COMPLEX && t.base.is_some())?;
    let inherited: Vec<usize> = desc
        .visible(t)
        .into_iter()
        .filter(|&p| desc.properties[p].owner != t)
        .collect();
    let earlier = desc.properties[*r.pick(&inherited)?].clone();
    let mut clash = plain_property(t, earlier.name.clone(), INT32);
    match r.below(3) {
        0 => clash.type_ref = 64 + r.range(1, 17) as u32,
        1 => {
            // The very type of the ancestor's property, not one derived from it.
            clash = PropertyDesc {
                owner: t,
                partner: Vec::new(),
                ..earlier
            };
        }
        _ => {
            let entity = any_type(r, desc, |t| t.kind == ENTITY)?;
            clash.type_ref = entity as u32;
            clash.navigation = true;
            if earlier.navigation && desc.at(entity, earlier.type_ref as usize) {
                return None;
            }
        }
    }
    insert_property(r, desc, clash);
    Some(Aim::Rule)
}

/// A declaration anew that differs in one flag.
fn unlike_ancestor(r: &mut Random, desc: &mut ModelDesc) -> Option<Aim> {
    let p = any(r, desc.properties.len(), |p| {
        let property = &desc.properties[p];
        desc.chain(property.owner)[1..]
            .iter()
            .any(|&u| desc.own(u, &property.name).is_some())
    })?;
    let property = &mut desc.properties[p];
    match r.below(3) {
        0 if property.navigation => property.contains = !property.contains,
        1 if !(property.navigation && property.collection) => {
            property.nullable = !property.nullable
        }
        2 if !(property.navigation && property.nullable) => {
            property.collection = !property.collection
        }
        _ => return None,
    }
    Some(Aim::Rule)
}

// Rule 12.

/// Required parts from type to type and back to the first.
fn required_circle(r: &mut Random, desc: &mut ModelDesc) -> Option<Aim> {
    let count = r.range(1, 4);
    let mut circle = Vec::new();
    for _ in 0..count {
        circle.push(any_type(r, desc, |t| t.kind <= COMPLEX)?);
    }
    for i in 0..count {
        let next = circle[(i + 1) % count];
        let chain = desc.chain(circle[i]);
        let owner = if r.coin() {
            circle[i]
        } else {
            chain[r.below(chain.len())]
        };
        let mut step = plain_property(owner, unused_name(r), next as u32);
        step.navigation = desc.types[next].kind == ENTITY;
        step.contains = step.navigation;
        insert_property(r, desc, step);
    }
    Some(Aim::Rule)
}

// Rule 14.

fn any_path<'d>(r: &mut Random, desc: &'d mut ModelDesc) -> Option<(u32, &'d mut Path)> {
    let mut paths = desc.paths_mut();
    if paths.is_empty() {
        return None;
    }
    let chosen = r.below(paths.len());
    Some(paths.swap_remove(chosen))
}

fn lost_name(r: &mut Random, desc: &mut ModelDesc) -> Option<Aim> {
    let name = unused_name(r);
    let (_, path) = any_path(r, desc)?;
    let at = r.below(path.len());
    path[at] = Seg::Name(name);
    Some(Aim::Rule)
}

fn lost_cast(r: &mut Random, desc: &mut ModelDesc) -> Option<Aim> {
    let before = desc.clone();
    let (start, path) = any_path(r, desc)?;
    let at = r.range(0, path.len() - 1);
    let current = before.follow(start, &path[..at]).0;
    let target = any(r, before.types.len(), |t| {
        current >= 64 || !before.structured(t) || !before.at(t, current as usize)
    })?;
    if r.coin() && path.len() < 15 {
        path.insert(at, Seg::Cast(target));
    } else {
        path[at] = Seg::Cast(target);
    }
    Some(Aim::Rule)
}

/// One more segment after a path that ends at no structured type.
fn past_primitive(r: &mut Random, desc: &mut ModelDesc) -> Option<Aim> {
    let before = desc.clone();
    let (start, path) = any_path(r, desc)?;
    let end = before.follow(start, path).0;
    let structured = before.kind_of(end).is_some_and(|kind| kind <= COMPLEX);
    if structured || path.len() >= 15 {
        return None;
    }
    let other = any(r, before.types.len(), |_| true)?;
    // Also the very enumeration or definition the path ends at.
    let cast = if end < 64 && r.coin() {
        end as usize
    } else {
        other
    };
    path.push(if r.coin() {
        Seg::Cast(cast)
    } else {
        path[path.len() - 1].clone()
    });
    Some(Aim::Rule)
}

// Rule 15.

const KEY: [Damage; 12] = [
    damage_exact::key,
    damage_exact::key,
    damage_exact::key,
    complex_owner,
    second_key,
    key_cast,
    nullable_key,
    nullable_key_step,
    unfit_key,
    wrong_alias,
    key_twice,
    alias_of_property,
];

fn any_key(r: &mut Random, desc: &ModelDesc, fits: impl Fn(&KeyDesc) -> bool) -> Option<usize> {
    any(r, desc.keys.len(), |k| fits(&desc.keys[k]))
}

fn name_of(desc: &ModelDesc, p: usize) -> Seg {
    Seg::Name(desc.properties[p].name.clone())
}

fn complex_owner(r: &mut Random, desc: &mut ModelDesc) -> Option<Aim> {
    let p = any_property(r, desc, |p| {
        desc.types[p.owner].kind == COMPLEX && !p.navigation
    })?;
    let key = KeyDesc {
        owner: desc.properties[p].owner,
        path: vec![name_of(desc, p)],
        alias: Vec::new(),
    };
    insert(r, &mut desc.keys, key);
    Some(Aim::Rule)
}

/// A key on a type that inherits one.
fn second_key(r: &mut Random, desc: &mut ModelDesc) -> Option<Aim> {
    let k = any_key(r, desc, |_| true)?;
    let mut key = desc.keys[k].clone();
    let below = desc.below(key.owner);
    key.owner = *r.pick(&below)?;
    insert(r, &mut desc.keys, key);
    Some(Aim::Maybe)
}

fn key_cast(r: &mut Random, desc: &mut ModelDesc) -> Option<Aim> {
    let k = any_key(r, desc, |k| k.path.len() < 15)?;
    let alias = unused_name(r);
    let key = &mut desc.keys[k];
    key.path.insert(0, Seg::Cast(key.owner));
    key.alias = alias;
    Some(Aim::Place(desc.place(3, k)))
}

fn nullable_key(r: &mut Random, desc: &mut ModelDesc) -> Option<Aim> {
    let k = any_key(r, desc, |_| true)?;
    let key = &desc.keys[k];
    let p = desc.follow(key.owner as u32, &key.path).1?;
    match r.below(4) {
        0 => desc.properties[p].collection = true,
        1 => desc.properties[p].type_ref = 64 + [1, 7, 14, 15][r.below(4)],
        _ => desc.properties[p].nullable = true,
    }
    Some(Aim::Maybe)
}

fn nullable_key_step(r: &mut Random, desc: &mut ModelDesc) -> Option<Aim> {
    let k = any_key(r, desc, |k| k.path.len() > 1)?;
    let key = &desc.keys[k];
    let length = r.range(1, key.path.len() - 1);
    let p = desc.follow(key.owner as u32, &key.path[..length]).1?;
    if r.coin() {
        desc.properties[p].nullable = true;
    } else {
        desc.properties[p].collection = true;
    }
    Some(Aim::Maybe)
}

/// Another property in the place of the key's.
fn unfit_key(r: &mut Random, desc: &mut ModelDesc) -> Option<Aim> {
    let k = any_key(r, desc, |_| true)?;
    let visible = desc.visible(desc.keys[k].owner);
    let &p = r.pick(&visible)?;
    desc.keys[k].path = vec![name_of(desc, p)];
    desc.keys[k].alias = Vec::new();
    Some(Aim::Maybe)
}

fn wrong_alias(r: &mut Random, desc: &mut ModelDesc) -> Option<Aim> {
    let long = r.coin();
    let k = any_key(r, desc, |k| (k.path.len() > 1) == long)?;
    let alias = unused_name(r);
    let key = &mut desc.keys[k];
    key.alias = if key.path.len() == 1 {
        alias
    } else {
        Vec::new()
    };
    Some(Aim::Place(desc.place(3, k)))
}

fn key_twice(r: &mut Random, desc: &mut ModelDesc) -> Option<Aim> {
    let k = any_key(r, desc, |_| true)?;
    let owner = desc.keys[k].owner;
    let other = any_key(r, desc, |other| {
        other.owner == owner && other.path.len() > 1
    });
    let copy = match other {
        Some(other) if desc.keys[k].path.len() > 1 => KeyDesc {
            alias: desc.keys[k].alias.clone(),
            ..desc.keys[other].clone()
        },
        _ => desc.keys[k].clone(),
    };
    insert(r, &mut desc.keys, copy);
    Some(Aim::Rule)
}

fn alias_of_property(r: &mut Random, desc: &mut ModelDesc) -> Option<Aim> {
    let k = any_key(r, desc, |k| k.path.len() > 1)?;
    let visible = desc.visible(desc.keys[k].owner);
    let &p = r.pick(&visible)?;
    desc.keys[k].alias = desc.properties[p].name.clone();
    Some(Aim::Place(desc.place(3, k)))
}

// Rule 16.

const CONSTRAINT: [Damage; 10] = [
    damage_exact::constraint,
    damage_exact::constraint,
    damage_exact::constraint,
    damage_exact::constraint,
    constrained_collection,
    constrained_complex,
    constraint_cast,
    constraint_end,
    constraint_nullable,
    new_constraint,
];

fn any_constraint(r: &mut Random, desc: &ModelDesc) -> Option<usize> {
    any(r, desc.constraints.len(), |_| true)
}

fn constrained_collection(r: &mut Random, desc: &mut ModelDesc) -> Option<Aim> {
    let c = any_constraint(r, desc)?;
    let property = &mut desc.properties[desc.constraints[c].property];
    property.collection = true;
    property.nullable = false;
    Some(Aim::Maybe)
}

/// A constraint on a property that does not navigate.
fn constrained_complex(r: &mut Random, desc: &mut ModelDesc) -> Option<Aim> {
    let complex = |p: &PropertyDesc| desc.kind_of(p.type_ref) == Some(COMPLEX);
    let property = any_property(r, desc, complex)?;
    let p = &desc.properties[property];
    let own = desc.visible(p.owner);
    let of_type = desc.visible(p.type_ref as usize);
    let constraint = ConstraintDesc {
        property,
        dependent: vec![name_of(desc, *r.pick(&own)?)],
        principal: vec![name_of(desc, *r.pick(&of_type)?)],
    };
    insert(r, &mut desc.constraints, constraint);
    Some(Aim::Rule)
}

fn constraint_cast(r: &mut Random, desc: &mut ModelDesc) -> Option<Aim> {
    let c = any_constraint(r, desc)?;
    let property = desc.properties[desc.constraints[c].property].clone();
    let constraint = &mut desc.constraints[c];
    if r.coin() {
        constraint.dependent.insert(0, Seg::Cast(property.owner));
    } else {
        constraint
            .principal
            .insert(0, Seg::Cast(property.type_ref as usize));
    }
    let short = constraint.dependent.len() < 16 && constraint.principal.len() < 16;
    short.then(|| Aim::Place(desc.place(4, c)))
}

/// Another property at the end of one of the paths.
fn constraint_end(r: &mut Random, desc: &mut ModelDesc) -> Option<Aim> {
    let c = any_constraint(r, desc)?;
    let property = &desc.properties[desc.constraints[c].property];
    let dependent = r.coin();
    let start = if dependent {
        property.owner
    } else {
        property.type_ref as usize
    };
    let visible = desc.visible(start);
    let path = vec![name_of(desc, *r.pick(&visible)?)];
    if dependent {
        desc.constraints[c].dependent = path;
    } else {
        desc.constraints[c].principal = path;
    }
    Some(Aim::Maybe)
}

fn constraint_nullable(r: &mut Random, desc: &mut ModelDesc) -> Option<Aim> {
    let c = any_constraint(r, desc)?;
    let constraint = &desc.constraints[c];
    let property = &desc.properties[constraint.property];
    let end = match r.below(3) {
        0 => {
            desc.follow(property.owner as u32, &constraint.dependent)
                .1?
        }
        1 => desc.follow(property.type_ref, &constraint.principal).1?,
        _ => constraint.property,
    };
    desc.properties[end].nullable = !desc.properties[end].nullable;
    Some(Aim::Maybe)
}

/// A constraint between any two paths of one or two names.
fn new_constraint(r: &mut Random, desc: &mut ModelDesc) -> Option<Aim> {
    let property = any_property(r, desc, |p| p.navigation)?;
    let p = desc.properties[property].clone();
    let constraint = ConstraintDesc {
        property,
        dependent: short_path(r, desc, p.owner)?,
        principal: short_path(r, desc, p.type_ref as usize)?,
    };
    insert(r, &mut desc.constraints, constraint);
    Some(Aim::Maybe)
}

/// One to three names that resolve, through whatever properties.
fn short_path(r: &mut Random, desc: &ModelDesc, start: usize) -> Option<Path> {
    let mut path = Vec::new();
    let mut t = start;
    loop {
        let visible = desc.visible(t);
        let &p = r.pick(&visible)?;
        path.push(name_of(desc, p));
        let type_ref = desc.properties[p].type_ref;
        let structured = desc.kind_of(type_ref).is_some_and(|kind| kind <= COMPLEX);
        if !structured || path.len() == 3 || r.coin() {
            return Some(path);
        }
        t = type_ref as usize;
    }
}

// Rule 17.

const PARTNER: [Damage; 8] = [
    damage_exact::partner,
    damage_exact::partner,
    damage_exact::partner,
    any_partner,
    any_partner,
    partner_cast,
    partner_flags,
    second_partner,
];

fn may_have_partner(desc: &ModelDesc, p: &PropertyDesc) -> bool {
    p.navigation && desc.types[p.owner].kind == ENTITY
}

/// Any path as partner.
fn any_partner(r: &mut Random, desc: &mut ModelDesc) -> Option<Aim> {
    let p = any_property(r, desc, |p| may_have_partner(desc, p))?;
    let path = short_path(r, desc, desc.properties[p].type_ref as usize)?;
    desc.properties[p].partner = path;
    Some(Aim::Maybe)
}

fn partner_cast(r: &mut Random, desc: &mut ModelDesc) -> Option<Aim> {
    let p = any_property(r, desc, |p| !p.partner.is_empty() && p.partner.len() < 15)?;
    let property = &desc.properties[p];
    let end = desc.follow(property.type_ref, &property.partner).0;
    desc.properties[p].partner.push(Seg::Cast(end as usize));
    Some(Aim::Rule)
}

/// Other flags on the property or on its partner.
fn partner_flags(r: &mut Random, desc: &mut ModelDesc) -> Option<Aim> {
    let p = any_property(r, desc, |p| !p.partner.is_empty())?;
    let q = desc.partner(p)?;
    match r.below(3) {
        0 if !desc.properties[q].collection => {
            desc.properties[q].nullable = !desc.properties[q].nullable;
        }
        1 => desc.properties[p].contains = !desc.properties[p].contains,
        _ => desc.properties[q].contains = !desc.properties[q].contains,
    }
    Some(Aim::Maybe)
}

/// A copy of a property that has a partner, on its owner or below.
fn second_partner(r: &mut Random, desc: &mut ModelDesc) -> Option<Aim> {
    let p = any_property(r, desc, |p| !p.partner.is_empty())?;
    let mut copy = desc.properties[p].clone();
    copy.name = unused_name(r);
    let below = desc.below(copy.owner);
    copy.owner = *r.pick(&below)?;
    insert_property(r, desc, copy);
    Some(Aim::Maybe)
}

// Rule 18.

fn drop_key(r: &mut Random, desc: &mut ModelDesc) -> Option<Aim> {
    let k = any_key(r, desc, |_| true)?;
    let owner = desc.keys[k].owner;
    desc.keys.retain(|key| key.owner != owner);
    Some(Aim::Maybe)
}

fn nullable_set(r: &mut Random, desc: &mut ModelDesc) -> Option<Aim> {
    let c = any(r, desc.children.len(), |c| !desc.children[c].singleton)?;
    desc.children[c].nullable = true;
    Some(Aim::Place(desc.place(5, c)))
}

fn child_of_any_type(r: &mut Random, desc: &mut ModelDesc) -> Option<Aim> {
    let t = any_type(r, desc, |_| true)?;
    let at = r.range(0, desc.children.len());
    desc.children.insert(
        at,
        ChildDesc {
            singleton: r.coin(),
            nullable: false,
            type_number: t,
            name: unused_name(r),
        },
    );
    for b in &mut desc.bindings {
        b.child += usize::from(b.child >= at);
        b.target += usize::from(b.target >= at);
    }
    Some(Aim::Maybe)
}

fn keyless_collection(r: &mut Random, desc: &mut ModelDesc) -> Option<Aim> {
    let target = any(r, desc.types.len(), |t| {
        desc.types[t].kind == ENTITY && !desc.has_key(t)
    })?;
    let owner = any_type(r, desc, |t| t.kind <= COMPLEX)?;
    let property = PropertyDesc {
        navigation: true,
        collection: true,
        contains: true,
        ..plain_property(owner, unused_name(r), target as u32)
    };
    let p = insert_property(r, desc, property);
    at_property(desc, p)
}

// Rule 19.

const BINDING: [Damage; 9] = [
    damage_exact::binding,
    damage_exact::binding,
    damage_exact::binding,
    casts_only,
    any_binding,
    any_binding,
    binding_twice,
    any_target,
    target_path_cast,
];

fn any_child(r: &mut Random, desc: &ModelDesc) -> Option<usize> {
    any(r, desc.children.len(), |_| true)
}

fn casts_only(r: &mut Random, desc: &mut ModelDesc) -> Option<Aim> {
    let child = any_child(r, desc)?;
    let binding = BindingDesc {
        child,
        path: vec![Seg::Cast(desc.children[child].type_number); r.range(1, 3)],
        target: child,
        target_path: Vec::new(),
    };
    insert(r, &mut desc.bindings, binding);
    Some(Aim::Rule)
}

/// Any path and target, with any target path.
fn any_binding(r: &mut Random, desc: &mut ModelDesc) -> Option<Aim> {
    let (child, target) = (any_child(r, desc)?, any_child(r, desc)?);
    let target_type = desc.children[target].type_number;
    let binding = BindingDesc {
        child,
        path: short_path(r, desc, desc.children[child].type_number)?,
        target,
        target_path: if r.coin() {
            Vec::new()
        } else {
            short_path(r, desc, target_type)?
        },
    };
    insert(r, &mut desc.bindings, binding);
    Some(Aim::Maybe)
}

fn binding_twice(r: &mut Random, desc: &mut ModelDesc) -> Option<Aim> {
    let b = any(r, desc.bindings.len(), |_| true)?;
    let copy = desc.bindings[b].clone();
    insert(r, &mut desc.bindings, copy);
    Some(Aim::Rule)
}

/// Another target for a sound path.
fn any_target(r: &mut Random, desc: &mut ModelDesc) -> Option<Aim> {
    let b = any(r, desc.bindings.len(), |_| true)?;
    let target = any_child(r, desc)?;
    let target_type = desc.children[target].type_number;
    desc.bindings[b].target = target;
    desc.bindings[b].target_path = if r.coin() {
        Vec::new()
    } else {
        short_path(r, desc, target_type)?
    };
    Some(Aim::Maybe)
}

fn target_path_cast(r: &mut Random, desc: &mut ModelDesc) -> Option<Aim> {
    let b = any(r, desc.bindings.len(), |b| {
        desc.bindings[b].target_path.len() < 15
    })?;
    let target_type = desc.children[desc.bindings[b].target].type_number;
    desc.bindings[b]
        .target_path
        .insert(0, Seg::Cast(target_type));
    Some(Aim::Place(desc.place(6, b)))
}
