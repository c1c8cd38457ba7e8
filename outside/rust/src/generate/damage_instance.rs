//! Damage to described instances, rules 22 to 26.

use super::damage_raw::Aim;
use super::describe::*;
use super::instances::*;
use super::random::Random;

/// Breaks the rule, if this instance has what that takes.
pub fn damage(
    rule: u32,
    r: &mut Random,
    model: &ModelDesc,
    desc: &mut InstanceDesc,
) -> Option<Aim> {
    (0..6).find_map(|_| {
        // A try that fails half-way leaves nothing behind.
        let mut tried = desc.clone();
        let aim = match rule {
            22 => node_type(r, model, &mut tried),
            23 => node_slots(r, model, &mut tried),
            24 => slot_state(r, model, &mut tried),
            25 => item(r, model, &mut tried),
            26 => holder(r, model, &mut tried),
            _ => None,
        }?;
        *desc = tried;
        Some(aim)
    })
}

fn any_node(r: &mut Random, desc: &InstanceDesc) -> Option<usize> {
    (!desc.nodes.is_empty()).then(|| r.below(desc.nodes.len()))
}

/// A node with slots, and one of them, that fits.
fn any_slot(
    r: &mut Random,
    desc: &InstanceDesc,
    fits: impl Fn(&SlotDesc) -> bool,
) -> Option<(usize, usize)> {
    let mut found = Vec::new();
    for (n, node) in desc.nodes.iter().enumerate() {
        for (s, slot) in node.slots.iter().enumerate() {
            if fits(slot) {
                found.push((n, s));
            }
        }
    }
    r.pick(&found).copied()
}

fn node_type(r: &mut Random, model: &ModelDesc, desc: &mut InstanceDesc) -> Option<Aim> {
    let n = any_node(r, desc)?;
    let unfit: Vec<usize> = (0..model.types.len())
        .filter(|&t| !model.structured(t) || model.types[t].is_abstract)
        .collect();
    desc.nodes[n].type_number = *r.pick(&unfit)?;
    Some(Aim::Place(n as u32))
}

fn node_slots(r: &mut Random, model: &ModelDesc, desc: &mut InstanceDesc) -> Option<Aim> {
    match r.below(4) {
        0 => {
            let (n, s) = any_slot(r, desc, |_| true)?;
            desc.nodes[n].slots.remove(s);
            Some(Aim::Place(n as u32))
        }
        1 => {
            let (n, s) = any_slot(r, desc, |_| true)?;
            let copy = desc.nodes[n].slots[s].clone();
            desc.nodes[n].slots.push(copy);
            Some(Aim::Place(n as u32))
        }
        2 => {
            let (n, s) = any_slot(r, desc, |_| true)?;
            let other = r.below(model.properties.len());
            if other == desc.nodes[n].slots[s].property {
                return None;
            }
            desc.nodes[n].slots[s].property = other;
            Some(Aim::Place(n as u32))
        }
        _ => hidden_declaration(r, model, desc),
    }
}

/// The ancestor's declaration in the place of the nearest.
fn hidden_declaration(r: &mut Random, model: &ModelDesc, desc: &mut InstanceDesc) -> Option<Aim> {
    let above = |slot: &SlotDesc| {
        let p = &model.properties[slot.property];
        model.chain(p.owner)[1..]
            .iter()
            .find_map(|&t| model.own(t, &p.name))
    };
    let (n, s) = any_slot(r, desc, |slot| above(slot).is_some())?;
    desc.nodes[n].slots[s].property = above(&desc.nodes[n].slots[s])?;
    Some(Aim::Place(n as u32))
}

fn slot_state(r: &mut Random, model: &ModelDesc, desc: &mut InstanceDesc) -> Option<Aim> {
    let (n, s) = any_slot(r, desc, |_| true)?;
    let slot = &mut desc.nodes[n].slots[s];
    let p = &model.properties[slot.property];
    if r.coin() && (p.collection || !p.nullable) {
        slot.state = 0;
        slot.items.clear();
    } else if p.collection {
        slot.state = 1;
        slot.items.truncate(1);
        if slot.items.is_empty() {
            slot.items.push(NULL_ITEM);
        }
    } else {
        slot.state = 2;
    }
    Some(Aim::Rule)
}

fn item(r: &mut Random, model: &ModelDesc, desc: &mut InstanceDesc) -> Option<Aim> {
    let (n, s) = any_slot(r, desc, |slot| !slot.items.is_empty())?;
    let nodes = desc.nodes.len();
    let types: Vec<u32> = desc
        .nodes
        .iter()
        .map(|node| node.type_number as u32)
        .collect();
    let slot = &mut desc.nodes[n].slots[s];
    let p = &model.properties[slot.property];
    let i = r.below(slot.items.len());
    let item = &mut slot.items[i];
    let is_node = is_node(model, *item);
    match r.below(6) {
        0 if !(p.collection && p.nullable) => *item = NULL_ITEM,
        1 => *item = (255, r.range(1, 0xff_ffff) as u32),
        2 if is_node => item.1 = r.range(nodes, nodes + 3) as u32,
        3 if is_node => {
            let other = r.below(nodes);
            let fits = model.at(types[other] as usize, p.type_ref as usize);
            *item = (types[other], other as u32);
            return Some(if fits { Aim::Maybe } else { Aim::Rule });
        }
        4 => {
            let other = r.below(256) as u32;
            if other == item.0 || other == 255 {
                return None;
            }
            let was_null = *item == NULL_ITEM;
            item.0 = other;
            if was_null {
                return Some(Aim::Maybe);
            }
        }
        5 if is_node => {
            // An ancestor's type in the place of the node's own.
            let chain = model.chain(item.0 as usize);
            if chain.len() < 2 {
                return None;
            }
            item.0 = chain[r.range(1, chain.len() - 1)] as u32;
        }
        _ => return None,
    }
    Some(Aim::Rule)
}

/// An integral item that holds a node held already, or its own holder.
fn holder(r: &mut Random, model: &ModelDesc, desc: &mut InstanceDesc) -> Option<Aim> {
    let integral = |slot: &SlotDesc| is_integral(model, &model.properties[slot.property]);
    let (n, s) = any_slot(r, desc, integral)?;
    let p = &model.properties[desc.nodes[n].slots[s].property];
    let fitting: Vec<usize> = (0..desc.nodes.len())
        .filter(|&m| model.at(desc.nodes[m].type_number, p.type_ref as usize))
        .collect();
    let mut held = *r.pick(&fitting)?;
    if fitting.contains(&n) && r.chance(40) {
        held = n;
    }
    let item = (desc.nodes[held].type_number as u32, held as u32);
    let slot = &mut desc.nodes[n].slots[s];
    if p.collection {
        slot.items.push(item);
    } else {
        slot.state = 1;
        slot.items = vec![item];
    }
    Some(Aim::Maybe)
}
