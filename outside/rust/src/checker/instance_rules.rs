//! Rules 20 to 26.

use std::collections::HashMap;

use super::instance::*;
use super::model::{Property, Span, COMPLEX};
use super::model_rules::{answer, Known};
use super::Refusal;

pub fn check(known: &Known, image: &[u8]) -> Result<Instance, Refusal> {
    let instance = Instance::decode(image).ok_or(Refusal { rule: 20, place: 0 })?;
    answer(21, fields(known, &instance))?;
    answer(22, node_types(known, &instance))?;
    answer(23, node_slots(known, &instance))?;
    answer(24, slot_states(known, &instance))?;
    answer(25, items(known, &instance))?;
    answer(26, holders(known, &instance))?;
    Ok(instance)
}

/// Rule 21. Runs are counted only once the records that hold them are sound.
fn fields(known: &Known, instance: &Instance) -> Option<u32> {
    let slot_count = instance.slots.len();
    let node = instance.nodes.iter().position(|n| {
        n.spare != 0 || n.type_number >= known.model.types.len() || bad_run(n.slots, slot_count)
    });
    if let Some(number) = node {
        return Some(number as u32);
    }
    let slot_uses = uses(instance.nodes.iter().map(|n| n.slots), slot_count);
    let slot = (0..slot_count)
        .find(|&i| bad_slot(known, instance, &instance.slots[i]) || slot_uses[i] != 1);
    if let Some(number) = slot {
        return Some(instance.slot_place(number));
    }
    let item_uses = uses(instance.slots.iter().map(|s| s.items), instance.items.len());
    let item = item_uses.iter().position(|&count| count != 1)?;
    Some(instance.item_place(item))
}

fn bad_slot(known: &Known, instance: &Instance, slot: &Slot) -> bool {
    let bad_count = match slot.state {
        NULL => slot.items.count != 0,
        SINGLE => slot.items.count != 1,
        COLLECTION => false,
        _ => true,
    };
    slot.spare != 0
        || slot.property >= known.model.properties.len()
        || bad_count
        || bad_run(slot.items, instance.items.len())
}

fn bad_run(run: Span, size: usize) -> bool {
    if run.present() {
        run.first + run.count > size
    } else {
        run.first != 0
    }
}

fn uses(runs: impl Iterator<Item = Span>, size: usize) -> Vec<u32> {
    let mut uses = vec![0; size];
    for run in runs {
        if run.present() {
            uses[run.range()].iter_mut().for_each(|count| *count += 1);
        }
    }
    uses
}

/// Rule 22.
fn node_types(known: &Known, instance: &Instance) -> Option<u32> {
    let number = instance.nodes.iter().position(|node| {
        let t = &known.model.types[node.type_number];
        !t.structured() || t.is_abstract
    })?;
    Some(number as u32)
}

/// Rule 23.
fn node_slots(known: &Known, instance: &Instance) -> Option<u32> {
    let mut visible: HashMap<usize, Vec<usize>> = HashMap::new();
    let number = instance.nodes.iter().position(|node| {
        let expected = visible
            .entry(node.type_number)
            .or_insert_with(|| known.visible(node.type_number));
        let mut found: Vec<usize> = slots_of(instance, node).map(|s| s.property).collect();
        found.sort_unstable();
        found != *expected
    })?;
    Some(number as u32)
}

pub fn slots_of<'i>(instance: &'i Instance, node: &Node) -> impl Iterator<Item = &'i Slot> {
    instance.slots[node.slots.range()].iter()
}

pub fn items_of<'i>(instance: &'i Instance, slot: &Slot) -> &'i [Item] {
    &instance.items[slot.items.range()]
}

/// Rule 24.
fn slot_states(known: &Known, instance: &Instance) -> Option<u32> {
    let number = instance.slots.iter().position(|slot| {
        let p = &known.model.properties[slot.property];
        match slot.state {
            NULL => p.collection || !p.nullable,
            SINGLE => p.collection,
            _ => !p.collection,
        }
    })?;
    Some(instance.slot_place(number))
}

/// Rule 25. Runs lie in any order, so the lowest place is sought over all.
fn items(known: &Known, instance: &Instance) -> Option<u32> {
    instance
        .slots
        .iter()
        .flat_map(|slot| slot.items.range().map(move |number| (slot, number)))
        .filter(|&(slot, number)| bad_item(known, instance, slot, instance.items[number]))
        .map(|(_, number)| instance.item_place(number))
        .min()
}

fn bad_item(known: &Known, instance: &Instance, slot: &Slot, item: Item) -> bool {
    let p = &known.model.properties[slot.property];
    if item.type_ref == NULL_ITEM.type_ref {
        return item != NULL_ITEM || !(p.collection && p.nullable);
    }
    if !known
        .model
        .named_type(p.type_ref)
        .is_some_and(|t| t.structured())
    {
        return item.type_ref != p.type_ref;
    }
    match instance.nodes.get(item.handle as usize) {
        None => true,
        Some(node) => {
            item.type_ref as usize != node.type_number
                || !known.is_at(node.type_number, p.type_ref as usize)
        }
    }
}

fn integral(known: &Known, p: &Property) -> bool {
    p.contains || known.model.kind_of(p.type_ref) == Some(COMPLEX)
}

/// Rule 26.
fn holders(known: &Known, instance: &Instance) -> Option<u32> {
    let held: Vec<Vec<usize>> = instance
        .nodes
        .iter()
        .map(|node| held_by(known, instance, node))
        .collect();
    let mut times = vec![0; held.len()];
    for &node in held.iter().flatten() {
        times[node] += 1;
    }
    let number = (0..held.len()).find(|&n| times[n] > 1 || times[n] == 1 && reaches(&held, n))?;
    Some(number as u32)
}

/// The nodes that integral items of a node hold, one entry an item.
fn held_by(known: &Known, instance: &Instance, node: &Node) -> Vec<usize> {
    slots_of(instance, node)
        .filter(|slot| integral(known, &known.model.properties[slot.property]))
        .flat_map(|slot| items_of(instance, slot))
        .filter(|&&item| item != NULL_ITEM)
        .map(|item| item.handle as usize)
        .collect()
}

/// A node comes back to itself.
fn reaches(held: &[Vec<usize>], node: usize) -> bool {
    let mut seen = vec![false; held.len()];
    let mut open = held[node].clone();
    while let Some(next) = open.pop() {
        if next == node {
            return true;
        }
        if !std::mem::replace(&mut seen[next], true) {
            open.extend(&held[next]);
        }
    }
    false
}
