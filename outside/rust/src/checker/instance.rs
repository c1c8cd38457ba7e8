//! The instance image, decoded into records.

use super::bits::{number16, Fields};
use super::model::{Span, VERSION};

const HEADER: usize = 8;
const LIMITS: [usize; 3] = [256, 1024, 2048];
const SIZES: [usize; 3] = [4, 5, 4];

pub const NULL: u32 = 0;
pub const SINGLE: u32 = 1;
pub const COLLECTION: u32 = 2;

pub struct Node {
    pub type_number: usize,
    pub slots: Span,
    pub spare: u32,
}

pub struct Slot {
    pub property: usize,
    pub state: u32,
    pub items: Span,
    pub spare: u32,
}

#[derive(Debug, Clone, Copy, PartialEq, Eq)]
pub struct Item {
    pub type_ref: u32,
    pub handle: u32,
}

pub const NULL_ITEM: Item = Item {
    type_ref: 255,
    handle: 0,
};

pub struct Instance {
    pub nodes: Vec<Node>,
    pub slots: Vec<Slot>,
    pub items: Vec<Item>,
}

impl Instance {
    /// Nothing if rule 20 is broken.
    pub fn decode(image: &[u8]) -> Option<Instance> {
        let counts = counts(image)?;
        let (nodes, rest) = image[HEADER..].split_at(counts[0] * SIZES[0]);
        let (slots, items) = rest.split_at(counts[1] * SIZES[1]);
        Some(Instance {
            nodes: nodes.chunks_exact(SIZES[0]).map(node).collect(),
            slots: slots.chunks_exact(SIZES[1]).map(slot).collect(),
            items: items.chunks_exact(SIZES[2]).map(item).collect(),
        })
    }

    pub fn slot_place(&self, number: usize) -> u32 {
        (self.nodes.len() + number) as u32
    }

    pub fn item_place(&self, number: usize) -> u32 {
        (self.nodes.len() + self.slots.len() + number) as u32
    }
}

fn counts(image: &[u8]) -> Option<[usize; 3]> {
    if image.len() < HEADER || number16(image, 0) != VERSION {
        return None;
    }
    let counts = [number16(image, 1), number16(image, 2), number16(image, 3)];
    let within = counts
        .iter()
        .zip(LIMITS)
        .all(|(&count, limit)| count <= limit);
    let length = HEADER + counts.iter().zip(SIZES).map(|(c, s)| c * s).sum::<usize>();
    (within && length == image.len()).then_some(counts)
}

fn node(record: &[u8]) -> Node {
    let mut f = Fields::new(record);
    Node {
        type_number: f.take(6) as usize,
        slots: Span {
            first: f.take(11) as usize,
            count: f.take(10) as usize,
        },
        spare: f.take(5),
    }
}

fn slot(record: &[u8]) -> Slot {
    let mut f = Fields::new(record);
    Slot {
        property: f.take(9) as usize,
        state: f.take(2),
        items: Span {
            first: f.take(12) as usize,
            count: f.take(12) as usize,
        },
        spare: f.take(5),
    }
}

fn item(record: &[u8]) -> Item {
    let mut f = Fields::new(record);
    Item {
        type_ref: f.take(8),
        handle: f.take(24),
    }
}
