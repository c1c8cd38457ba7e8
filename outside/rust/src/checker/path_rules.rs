//! Rules 13 and 15 to 19.

use super::model::*;
use super::model_rules::{lowest, Known};
use super::paths::{self, end_type, Resolved};

impl Known<'_> {
    fn steps(&self, path: Span) -> &[Resolved] {
        &self.resolution[path.range()]
    }

    /// The properties of a path without casts; nothing if it has one.
    fn names_only(&self, path: Span) -> Option<Vec<&Property>> {
        self.steps(path).iter().map(|&s| self.property(s)).collect()
    }

    fn property(&self, step: Resolved) -> Option<&Property> {
        match step {
            Resolved::Property(p) => Some(&self.model.properties[p]),
            Resolved::Cast(_) => None,
        }
    }

    fn single_complex(&self, p: &Property) -> bool {
        !p.collection && self.model.kind_of(p.type_ref) == Some(COMPLEX)
    }
}

/// Rule 13.
pub fn segment_use(m: &Model) -> Option<u32> {
    let mut uses = vec![0usize; m.segments.len()];
    for path in paths::all(m) {
        for segment in path.span.range() {
            uses[segment] += 1;
        }
    }
    lowest(m, Table::Segment, |i| uses[i] != 1)
}

/// Rule 15.
pub fn keys(known: &Known) -> Option<u32> {
    let m = &known.model;
    lowest(m, Table::Key, |i| {
        let key = &m.keys[i];
        m.types[key.owner].kind != ENTITY
            || m.keys
                .iter()
                .any(|other| known.derives(key.owner, other.owner))
            || bad_key_path(known, key.path)
            || key.alias.present() != (key.path.count > 1)
            || repeats_key(known, i)
            || key.alias.present() && known.has_property_named(key.owner, m.name(key.alias))
    })
}

fn bad_key_path(known: &Known, path: Span) -> bool {
    let Some(steps) = known.names_only(path) else {
        return true;
    };
    let (last, before) = steps.split_last().expect("a key path is present");
    before
        .iter()
        .any(|p| p.nullable || !known.single_complex(p))
        || bad_key_property(known, last)
}

fn bad_key_property(known: &Known, p: &Property) -> bool {
    let enumeration = known.model.kind_of(p.type_ref) == Some(ENUMERATION);
    let code = known.model.code_of(p.type_ref);
    let allowed = matches!(code, Some(2..=6 | 8..=13 | 16 | 17));
    p.collection || p.nullable || !(enumeration || allowed)
}

/// The key's one-segment name or alias is that of an earlier key of its owner.
fn repeats_key(known: &Known, i: usize) -> bool {
    let keys = &known.model.keys;
    let name = key_name(known, &keys[i]);
    keys[..i]
        .iter()
        .any(|other| other.owner == keys[i].owner && key_name(known, other) == name)
}

fn key_name<'m>(known: &'m Known, key: &Key) -> Option<&'m [u8]> {
    let m = &known.model;
    if key.alias.present() {
        return Some(m.name(key.alias));
    }
    match m.segments[key.path.first].step {
        Step::Name(name) if key.path.count == 1 => Some(m.name(name)),
        _ => None,
    }
}

/// Rule 16.
pub fn constraints(known: &Known) -> Option<u32> {
    let m = &known.model;
    lowest(m, Table::Constraint, |i| {
        let constraint = &m.constraints[i];
        let property = &m.properties[constraint.property];
        let dependent = constrained(known, constraint.dependent);
        let principal = constrained(known, constraint.principal);
        match (dependent, principal) {
            (Some(dependent), Some(principal)) => {
                !property.navigation
                    || property.collection
                    || !same_type(known, dependent, principal)
                    || dependent.nullable != (property.nullable || principal.nullable)
            }
            _ => true,
        }
    })
}

/// The structural property at the end of single complex steps.
fn constrained<'m>(known: &'m Known, path: Span) -> Option<&'m Property> {
    let steps = known.names_only(path)?;
    let (last, before) = steps.split_last()?;
    let reached = before.iter().all(|p| known.single_complex(p)) && !last.navigation;
    reached.then_some(*last)
}

fn same_type(known: &Known, a: &Property, b: &Property) -> bool {
    a.type_ref == b.type_ref && a.collection == b.collection
        || known.single_complex(a) && known.single_complex(b)
}

/// Rule 17.
pub fn partners(known: &Known) -> Option<u32> {
    let m = &known.model;
    let of_containment: Vec<usize> = (0..m.properties.len())
        .filter(|&i| partner_contains(known, i))
        .collect();
    lowest(m, Table::Property, |i| {
        m.properties[i].partner.present()
            && (bad_partner(known, i) || second_container(known, i, &of_containment))
    })
}

fn last_step(known: &Known, path: Span) -> Option<Resolved> {
    known.steps(path).last().copied()
}

/// The partner path ends at a containment navigation.
fn partner_contains(known: &Known, i: usize) -> bool {
    let partner = known.model.properties[i].partner;
    partner.present()
        && last_step(known, partner)
            .and_then(|step| known.property(step))
            .is_some_and(|p| p.contains)
}

fn bad_partner(known: &Known, i: usize) -> bool {
    let p = &known.model.properties[i];
    let (last, before) = known.steps(p.partner).split_last().expect("present");
    let navigates = |step: &Resolved| known.property(*step).is_some_and(|q| q.navigation);
    if before.iter().any(navigates) {
        return true;
    }
    let Some(partner) = known.property(*last).filter(|q| q.navigation) else {
        return true;
    };
    let one_hierarchy = known.top[p.owner] == known.top[p.type_ref as usize];
    !known.is_at(p.owner, partner.type_ref as usize)
        || partner.partner.present()
            && last_step(known, partner.partner) != Some(Resolved::Property(i))
        || p.contains && partner.nullable != one_hierarchy
}

/// The owner or an ancestor has another property whose partner contains.
fn second_container(known: &Known, i: usize, of_containment: &[usize]) -> bool {
    let properties = &known.model.properties;
    of_containment.contains(&i)
        && of_containment
            .iter()
            .any(|&j| j != i && known.is_at(properties[i].owner, properties[j].owner))
}

/// Rule 18.
pub fn keyless(known: &Known) -> Option<u32> {
    let m = &known.model;
    lowest(m, Table::Property, |i| {
        let p = &m.properties[i];
        p.contains && p.collection && !known.has_key(p.type_ref as usize)
    })
    .or_else(|| {
        lowest(m, Table::Child, |i| {
            let child = &m.children[i];
            m.types[child.type_number].kind != ENTITY
                || !child.singleton && (child.nullable || !known.has_key(child.type_number))
        })
    })
}

/// Rule 19.
pub fn bindings(known: &Known) -> Option<u32> {
    let m = &known.model;
    lowest(m, Table::Binding, |i| {
        let binding = &m.bindings[i];
        bad_binding_path(known, binding.path)
            || repeats_binding(known, i)
            || bad_target_path(known, binding)
            || unrelated_ends(known, binding)
    })
}

fn bad_binding_path(known: &Known, path: Span) -> bool {
    let names: Vec<&Property> = known
        .steps(path)
        .iter()
        .filter_map(|&step| known.property(step))
        .collect();
    let refers = |p: &Property| p.navigation && !p.contains;
    match names.split_last() {
        None => true,
        Some((last, before)) => !refers(last) || before.iter().any(|p| refers(p)),
    }
}

fn repeats_binding(known: &Known, i: usize) -> bool {
    let bindings = &known.model.bindings;
    bindings[..i].iter().any(|other| {
        other.child == bindings[i].child && same_segments(known, other.path, bindings[i].path)
    })
}

fn same_segments(known: &Known, a: Span, b: Span) -> bool {
    let segments = &known.model.segments;
    a.count == b.count
        && a.range()
            .zip(b.range())
            .all(|(x, y)| match (&segments[x].step, &segments[y].step) {
                (Step::Name(_), Step::Name(_)) => known.segment_names[x] == known.segment_names[y],
                (Step::Cast(t), Step::Cast(u)) => t == u,
                _ => false,
            })
}

fn bad_target_path(known: &Known, binding: &Binding) -> bool {
    if !binding.target_path.present() {
        return false;
    }
    let Some(steps) = known.names_only(binding.target_path) else {
        return true;
    };
    let (last, before) = steps.split_last().expect("present");
    let single = |p: &Property| known.single_complex(p) || !p.collection && p.contains;
    !known.model.children[binding.target].singleton
        || !last.contains
        || !before.iter().all(|p| single(p))
}

fn unrelated_ends(known: &Known, binding: &Binding) -> bool {
    let m = &known.model;
    let end = |path: Span| last_step(known, path).map(|step| end_type(m, step));
    let path_end = end(binding.path).expect("present");
    let target_type = m.children[binding.target].type_number as u32;
    let target_end = end(binding.target_path).unwrap_or(target_type);
    let named = |type_ref: u32| m.named_type(type_ref).map(|_| type_ref as usize);
    match (named(path_end), named(target_end)) {
        (Some(a), Some(b)) => !known.is_at(a, b) && !known.is_at(b, a),
        _ => true,
    }
}
