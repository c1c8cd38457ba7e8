//! Faults of rules 15, 16, 17 and 19 made of new records, so that one clause
//! of the rule is broken and no other.

use super::damage_model::{any, any_type, insert, insert_property, plain_property, unused_name};
use super::damage_raw::Aim;
use super::describe::*;
use super::random::Random;

/// Adds a single, not nullable property under a new name.
fn add(
    r: &mut Random,
    desc: &mut ModelDesc,
    owner: usize,
    type_ref: u32,
    change: fn(&mut PropertyDesc),
) -> Seg {
    let mut property = plain_property(owner, unused_name(r), type_ref);
    property.navigation = desc.kind_of(type_ref) == Some(ENTITY);
    change(&mut property);
    let name = Seg::Name(property.name.clone());
    insert_property(r, desc, property);
    name
}

fn number_of(desc: &ModelDesc, name: &Seg) -> usize {
    let found = desc
        .properties
        .iter()
        .position(|p| matches!(name, Seg::Name(n) if *n == p.name));
    found.expect("just added")
}

fn as_is(_: &mut PropertyDesc) {}

fn nullable(p: &mut PropertyDesc) {
    p.nullable = true;
}

fn collection(p: &mut PropertyDesc) {
    p.collection = true;
}

fn contained(p: &mut PropertyDesc) {
    p.contains = true;
    p.nullable = true;
}

fn entity(r: &mut Random, desc: &ModelDesc) -> Option<usize> {
    any_type(r, desc, |t| t.kind == ENTITY)
}

fn complex(r: &mut Random, desc: &ModelDesc) -> Option<usize> {
    any_type(r, desc, |t| t.kind == COMPLEX)
}

/// Rule 15.
pub fn key(r: &mut Random, desc: &mut ModelDesc) -> Option<Aim> {
    let k = any(r, desc.keys.len(), |_| true)?;
    let owner = desc.keys[k].owner;
    let variant = r.below(6);
    let path = match variant {
        0 => {
            let code = 64 + [1, 7, 14, 15][r.below(4)];
            vec![add(r, desc, owner, code, as_is)]
        }
        1 => vec![add(r, desc, owner, INT32, collection)],
        2 => vec![add(r, desc, owner, INT32, nullable)],
        _ => {
            let through = if variant == 5 {
                entity(r, desc)?
            } else {
                complex(r, desc)?
            };
            let change = [nullable, collection, as_is][variant - 3];
            let step = add(r, desc, owner, through as u32, change);
            vec![step, add(r, desc, through, INT32, as_is)]
        }
    };
    let alias = if path.len() > 1 {
        unused_name(r)
    } else {
        Vec::new()
    };
    insert(r, &mut desc.keys, KeyDesc { owner, path, alias });
    Some(Aim::Rule)
}

/// Rule 16.
pub fn constraint(r: &mut Random, desc: &mut ModelDesc) -> Option<Aim> {
    let variant = r.below(9);
    let owner = any_type(r, desc, |t| t.kind <= COMPLEX)?;
    let target = if variant == 0 {
        complex(r, desc)?
    } else {
        entity(r, desc)?
    };
    let change = if variant == 1 { collection } else { nullable };
    let property = add(r, desc, owner, target as u32, change);
    // The dependent property must be nullable but for the collection.
    let dependent_change = if (variant == 1) != (variant == 2) {
        as_is
    } else {
        nullable
    };
    let (mut from, mut to) = (owner, target);
    let (mut dependent, mut principal) = (Vec::new(), Vec::new());
    if matches!(variant, 3 | 4) {
        let c = complex(r, desc)?;
        let (t, path) = if variant == 3 {
            (&mut from, &mut dependent)
        } else {
            (&mut to, &mut principal)
        };
        path.push(add(r, desc, *t, c as u32, collection));
        *t = c;
    }
    if variant == 5 {
        let e = entity(r, desc)?;
        dependent.push(add(r, desc, from, e as u32, nullable));
        from = e;
    }
    let plain = if variant == 6 {
        entity(r, desc)? as u32
    } else {
        INT32
    };
    let other = if variant == 7 { STRING } else { plain };
    dependent.push(add(r, desc, from, plain, dependent_change));
    principal.push(add(r, desc, to, other, as_is));
    if variant == 8 {
        let last = number_of(desc, &dependent[0]);
        desc.properties[last].collection = true;
    }
    let property = number_of(desc, &property);
    let constraint = ConstraintDesc {
        property,
        dependent,
        principal,
    };
    insert(r, &mut desc.constraints, constraint);
    Some(Aim::Rule)
}

/// Rule 17.
pub fn partner(r: &mut Random, desc: &mut ModelDesc) -> Option<Aim> {
    let (owner, target) = (entity(r, desc)?, entity(r, desc)?);
    let property = add(r, desc, owner, target as u32, nullable);
    let mut path = Vec::new();
    match r.below(6) {
        0 => {
            let other = entity(r, desc)?;
            path.push(add(r, desc, target, other as u32, nullable));
            path.push(add(r, desc, other, owner as u32, nullable));
        }
        1 => {
            let one_hierarchy = desc.top(owner) == desc.top(target);
            let wrong = if one_hierarchy { as_is } else { nullable };
            path.push(add(r, desc, target, owner as u32, wrong));
            let p = number_of(desc, &property);
            desc.properties[p].contains = true;
        }
        2 => {
            let not_above = any(r, desc.types.len(), |t| {
                desc.types[t].kind == ENTITY && !desc.at(owner, t)
            })?;
            path.push(add(r, desc, target, not_above as u32, nullable));
        }
        3 => {
            let elsewhere = add(r, desc, owner, target as u32, nullable);
            path.push(add(r, desc, target, owner as u32, nullable));
            let q = number_of(desc, &path[0]);
            desc.properties[q].partner = vec![elsewhere];
        }
        4 => {
            path.push(add(r, desc, target, owner as u32, contained));
            let below = desc.below(owner);
            let heir = *r.pick(&below)?;
            let second = add(r, desc, heir, target as u32, nullable);
            let way_back = add(r, desc, target, owner as u32, contained);
            let s = number_of(desc, &second);
            desc.properties[s].partner = vec![way_back];
        }
        _ => path.push(add(r, desc, target, INT32, as_is)),
    }
    let p = number_of(desc, &property);
    desc.properties[p].partner = path;
    Some(Aim::Rule)
}

/// A child that is a singleton, or not; a new one if there is none.
fn child(r: &mut Random, desc: &mut ModelDesc, singleton: bool) -> Option<usize> {
    let found = any(r, desc.children.len(), |c| {
        desc.children[c].singleton == singleton
    });
    if found.is_some() || !singleton {
        return found;
    }
    let type_number = entity(r, desc)?;
    desc.children.push(ChildDesc {
        singleton,
        nullable: false,
        type_number,
        name: unused_name(r),
    });
    Some(desc.children.len() - 1)
}

/// Rule 19.
pub fn binding(r: &mut Random, desc: &mut ModelDesc) -> Option<Aim> {
    let variant = r.below(8);
    let target = child(r, desc, variant != 0)?;
    let child = any(r, desc.children.len(), |_| true)?;
    let (from, to) = (
        desc.children[child].type_number,
        desc.children[target].type_number,
    );
    let end = entity(r, desc)?;
    let (mut path, mut target_path) = (Vec::new(), Vec::new());
    let mut last = to;
    match variant {
        1 => target_path.push(Seg::Cast(to)),
        2 => {
            last = complex(r, desc)?;
            target_path.push(add(r, desc, to, last as u32, collection));
        }
        3 => {
            last = any(r, desc.types.len(), |t| {
                desc.types[t].kind == ENTITY && desc.has_key(t)
            })?;
            let step = add(r, desc, to, last as u32, collection);
            let p = number_of(desc, &step);
            desc.properties[p].contains = true;
            target_path.push(step);
        }
        4 => {
            last = entity(r, desc)?;
            target_path.push(add(r, desc, to, last as u32, nullable));
        }
        _ => {}
    }
    let target_change = if variant == 5 { nullable } else { contained };
    target_path.push(add(r, desc, last, end as u32, target_change));
    let mut start = from;
    if variant == 6 {
        start = entity(r, desc)?;
        path.push(add(r, desc, from, start as u32, nullable));
    }
    let path_change = if variant == 7 { contained } else { nullable };
    path.push(add(r, desc, start, end as u32, path_change));
    insert(
        r,
        &mut desc.bindings,
        BindingDesc {
            child,
            path,
            target,
            target_path,
        },
    );
    Some(Aim::Rule)
}
