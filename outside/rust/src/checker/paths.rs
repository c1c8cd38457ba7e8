//! Which paths the records hold, and what their segments resolve to.

use super::model::*;
use super::model_rules::Known;

#[derive(Debug, Clone, Copy, PartialEq, Eq)]
pub enum Resolved {
    Property(usize),
    Cast(usize),
}

/// A path that is present, with the type reference it starts at.
#[derive(Debug, Clone, Copy)]
pub struct Path {
    pub start: u32,
    pub span: Span,
}

/// Path 0 or 1 of a record, if it holds such a path.
pub fn of_record(m: &Model, table: Table, number: usize, which: u32) -> Option<Path> {
    let (start, span) = match (table, which) {
        (Table::Property, 0) => {
            let p = &m.properties[number];
            (p.type_ref, p.partner)
        }
        (Table::Key, 0) => {
            let key = &m.keys[number];
            (key.owner as u32, key.path)
        }
        (Table::Constraint, 0) => {
            let c = &m.constraints[number];
            (m.properties[c.property].owner as u32, c.dependent)
        }
        (Table::Constraint, 1) => {
            let c = &m.constraints[number];
            (m.properties[c.property].type_ref, c.principal)
        }
        (Table::Binding, 0) => {
            let b = &m.bindings[number];
            (m.children[b.child].type_number as u32, b.path)
        }
        (Table::Binding, 1) => {
            let b = &m.bindings[number];
            (m.children[b.target].type_number as u32, b.target_path)
        }
        _ => return None,
    };
    span.present().then_some(Path { start, span })
}

/// All paths of the model, in place order.
pub fn all(m: &Model) -> Vec<Path> {
    let tables = [
        (Table::Property, m.properties.len()),
        (Table::Key, m.keys.len()),
        (Table::Constraint, m.constraints.len()),
        (Table::Binding, m.bindings.len()),
    ];
    let mut paths = Vec::new();
    for (table, count) in tables {
        for number in 0..count {
            paths.extend((0..2).filter_map(|which| of_record(m, table, number, which)));
        }
    }
    paths
}

/// One entry a segment, or the lowest place of one that does not resolve.
/// Needs rule 13: each segment lies in one path.
pub fn resolve_all(known: &Known) -> Result<Vec<Resolved>, u32> {
    let m = &known.model;
    let mut resolution = vec![Resolved::Cast(0); m.segments.len()];
    let mut lost: Option<usize> = None;
    for path in all(m) {
        let mut current = path.start;
        for segment in path.span.range() {
            match resolve(known, current, segment) {
                Some(resolved) => {
                    resolution[segment] = resolved;
                    current = end_type(m, resolved);
                }
                None => {
                    lost = Some(lost.map_or(segment, |lowest| lowest.min(segment)));
                    break;
                }
            }
        }
    }
    match lost {
        None => Ok(resolution),
        Some(segment) => Err(m.place(Table::Segment, segment)),
    }
}

fn resolve(known: &Known, current: u32, segment: usize) -> Option<Resolved> {
    let m = &known.model;
    let current_type = m.named_type(current)?;
    match m.segments[segment].step {
        Step::Name(_) if current_type.structured() => known
            .find(current as usize, known.segment_names[segment])
            .map(Resolved::Property),
        Step::Cast(t) if m.types[t].structured() && known.is_at(t, current as usize) => {
            Some(Resolved::Cast(t))
        }
        _ => None,
    }
}

/// The type reference a resolved segment moves to.
pub fn end_type(m: &Model, resolved: Resolved) -> u32 {
    match resolved {
        Resolved::Property(p) => m.properties[p].type_ref,
        Resolved::Cast(t) => t as u32,
    }
}
