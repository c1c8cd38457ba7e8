//! Rules 27 to 29 and the walk itself.

use super::instance::*;
use super::instance_rules::{items_of, slots_of};
use super::model::Step;
use super::model_rules::Known;
use super::paths;
use super::Refusal;

pub struct Walked {
    pub items: Vec<Item>,
    pub opened: u32,
    pub to_its_end: bool,
}

/// Both images are checked already.
pub fn walk(
    known: &Known,
    instance: &Instance,
    place: u32,
    path: u32,
    node: u32,
    room: usize,
) -> Result<Walked, Refusal> {
    let refuse = |rule| Refusal { rule, place: 0 };
    let path = known
        .model
        .record_at(place)
        .and_then(|(table, number)| paths::of_record(&known.model, table, number, path))
        .ok_or(refuse(27))?;
    let type_number = instance
        .nodes
        .get(node as usize)
        .map(|n| n.type_number)
        .filter(|&t| known.is_at(t, path.start as usize))
        .ok_or(refuse(28))?;
    if room < 4 * (1 + instance.slots.len() + instance.items.len()) {
        return Err(refuse(29));
    }
    let start = Item {
        type_ref: type_number as u32,
        handle: node,
    };
    Ok(steps(known, instance, start, path.span.range()))
}

fn steps(
    known: &Known,
    instance: &Instance,
    start: Item,
    segments: std::ops::Range<usize>,
) -> Walked {
    let mut walked = Walked {
        items: vec![start],
        opened: 0,
        to_its_end: true,
    };
    for segment in segments {
        let mut next = Vec::new();
        for &item in &walked.items {
            let step = &known.model.segments[segment].step;
            let taken = if item == NULL_ITEM {
                next.push(NULL_ITEM);
                true
            } else {
                match *step {
                    Step::Cast(t) => cast(known, instance, item, t, &mut next),
                    Step::Name(_) => {
                        let name = known.segment_names[segment];
                        open(known, instance, item, name, &mut next, &mut walked.opened)
                    }
                }
            };
            if !taken {
                walked.to_its_end = false;
                return walked;
            }
        }
        walked.items = next;
    }
    walked
}

/// The node an item stands for, if it stands for one.
fn node_of<'i>(known: &Known, instance: &'i Instance, item: Item) -> Option<&'i Node> {
    let structured = known.model.named_type(item.type_ref)?.structured();
    instance
        .nodes
        .get(item.handle as usize)
        .filter(|_| structured)
}

fn cast(known: &Known, instance: &Instance, item: Item, t: usize, next: &mut Vec<Item>) -> bool {
    match node_of(known, instance, item) {
        None => false,
        Some(node) => {
            let fits = known.is_at(node.type_number, t);
            next.push(if fits { item } else { NULL_ITEM });
            true
        }
    }
}

/// Opens the slot by its name: a derived type may declare the name anew.
fn open(
    known: &Known,
    instance: &Instance,
    item: Item,
    name: usize,
    next: &mut Vec<Item>,
    opened: &mut u32,
) -> bool {
    let slot = node_of(known, instance, item).and_then(|node| {
        slots_of(instance, node).find(|slot| known.property_names[slot.property] == name)
    });
    let Some(slot) = slot else {
        return false;
    };
    *opened += 1;
    match slot.state {
        NULL => next.push(NULL_ITEM),
        _ => next.extend(items_of(instance, slot)),
    }
    true
}

/// Four bytes an item; bytes after those stay.
pub fn write_items(items: &[Item], buffer: &mut [u8]) {
    for (item, four) in items.iter().zip(buffer.chunks_exact_mut(4)) {
        four.copy_from_slice(&(item.type_ref << 24 | item.handle).to_be_bytes());
    }
}
