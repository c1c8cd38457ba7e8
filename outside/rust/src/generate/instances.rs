//! Sound instances of a sound model.

use super::describe::*;
use super::random::Random;
use super::raw::Raw;

pub const NULL_ITEM: (u32, u32) = (255, 0);

#[derive(Debug, Clone)]
pub struct SlotDesc {
    pub property: usize,
    /// 0 null, 1 single, 2 collection.
    pub state: u32,
    /// Type reference and handle.
    pub items: Vec<(u32, u32)>,
}

#[derive(Debug, Clone)]
pub struct NodeDesc {
    pub type_number: usize,
    pub slots: Vec<SlotDesc>,
}

#[derive(Debug, Clone, Default)]
pub struct InstanceDesc {
    pub nodes: Vec<NodeDesc>,
}

impl InstanceDesc {
    pub fn slot_count(&self) -> usize {
        self.nodes.iter().map(|n| n.slots.len()).sum()
    }

    pub fn item_count(&self) -> usize {
        self.nodes
            .iter()
            .flat_map(|n| &n.slots)
            .map(|s| s.items.len())
            .sum()
    }

    /// Runs of slots and of items lie in any order.
    pub fn encode(&self, r: &mut Random) -> Raw {
        let mut raw = Raw::instance();
        raw.tables[0] = vec![Vec::new(); self.nodes.len()];
        let mut slots: Vec<&SlotDesc> = Vec::new();
        for n in r.order(self.nodes.len()) {
            let node = &self.nodes[n];
            let first = if node.slots.is_empty() {
                0
            } else {
                slots.len()
            };
            raw.tables[0][n] = vec![
                node.type_number as u32,
                first as u32 & 0x7ff,
                node.slots.len() as u32 & 0x3ff,
                0,
            ];
            slots.extend(
                r.order(node.slots.len())
                    .into_iter()
                    .map(|i| &node.slots[i]),
            );
        }
        raw.tables[1] = vec![Vec::new(); slots.len()];
        for s in r.order(slots.len()) {
            let slot = slots[s];
            let first = if slot.items.is_empty() {
                0
            } else {
                raw.tables[2].len()
            };
            raw.tables[1][s] = vec![
                slot.property as u32,
                slot.state,
                first as u32 & 0xfff,
                slot.items.len() as u32 & 0xfff,
                0,
            ];
            raw.tables[2].extend(
                slot.items
                    .iter()
                    .map(|&(type_ref, handle)| vec![type_ref, handle]),
            );
        }
        raw
    }
}

/// How much an instance may hold.
#[derive(Debug, Clone, Copy)]
pub struct Room {
    pub nodes: usize,
    pub slots: usize,
    pub items: usize,
}

pub const WHOLE: Room = Room {
    nodes: 256,
    slots: 1024,
    items: 2048,
};

/// A sound instance, perhaps empty, with roots of the wanted types if possible.
pub fn instance(r: &mut Random, model: &ModelDesc, wanted: &[usize], room: Room) -> InstanceDesc {
    let possible = possible_types(model);
    let mut roots = if r.chance(5) { 0 } else { r.range(1, 5) };
    loop {
        let mut g = Growth {
            r,
            model,
            possible: &possible,
            visible: vec![None; model.types.len()],
            desc: InstanceDesc::default(),
            pending: Vec::new(),
            room,
        };
        let mut grown = true;
        for _ in 0..roots {
            grown = grown && g.root(wanted).is_some();
        }
        if grown && g.connect().is_some() && g.fits() {
            let desc = g.desc;
            return renumbered(desc, model, r);
        }
        if roots == 0 {
            return InstanceDesc::default();
        }
        roots -= 1;
    }
}

/// For each type, whether a node of exactly that type can be grown.
fn possible_types(model: &ModelDesc) -> Vec<bool> {
    let count = model.types.len();
    let concrete = |t: usize| model.structured(t) && !model.types[t].is_abstract;
    let mut references_fit: Vec<bool> = (0..count).map(concrete).collect();
    loop {
        let grown = least(model, &references_fit);
        if grown == references_fit {
            return grown;
        }
        references_fit = grown;
    }
}

/// Types whose required parts end, given the types that may be referred to.
fn least(model: &ModelDesc, allowed: &[bool]) -> Vec<bool> {
    let count = model.types.len();
    let mut possible = vec![false; count];
    loop {
        let next: Vec<bool> = (0..count)
            .map(|t| {
                allowed[t]
                    && model.visible(t).into_iter().all(|p| {
                        let property = &model.properties[p];
                        let structured = model
                            .kind_of(property.type_ref)
                            .is_some_and(|k| k <= COMPLEX);
                        if !structured || property.nullable || property.collection {
                            return true;
                        }
                        let below = model.below(property.type_ref as usize);
                        let from = if is_integral(model, property) {
                            &possible
                        } else {
                            allowed
                        };
                        below.into_iter().any(|u| from[u])
                    })
            })
            .collect();
        if next == possible {
            return possible;
        }
        possible = next;
    }
}

pub fn is_integral(model: &ModelDesc, p: &PropertyDesc) -> bool {
    p.contains || model.kind_of(p.type_ref) == Some(COMPLEX)
}

struct Growth<'g> {
    r: &'g mut Random,
    model: &'g ModelDesc,
    possible: &'g [bool],
    visible: Vec<Option<Vec<usize>>>,
    desc: InstanceDesc,
    /// Slots, by node and number, whose references are still to be chosen.
    pending: Vec<(usize, usize)>,
    room: Room,
}

impl Growth<'_> {
    fn fits(&self) -> bool {
        self.desc.nodes.len() <= self.room.nodes
            && self.desc.slot_count() <= self.room.slots
            && self.desc.item_count() <= self.room.items
    }

    fn root(&mut self, wanted: &[usize]) -> Option<usize> {
        let all: Vec<usize> = (0..self.model.types.len()).collect();
        let start = match self.r.pick(wanted) {
            Some(&t) if self.r.chance(80) => t,
            _ => *self.r.pick(&all)?,
        };
        match self.concrete_below(start) {
            Some(t) => self.node(t, 0),
            None => Some(0),
        }
    }

    fn concrete_below(&mut self, t: usize) -> Option<usize> {
        if !self.model.structured(t) {
            return None;
        }
        let mut below = self.model.below(t);
        below.retain(|&u| self.possible[u]);
        self.r.pick(&below).copied()
    }

    /// Grows a node with all its parts; nothing if there is no more room.
    fn node(&mut self, t: usize, depth: usize) -> Option<usize> {
        if self.desc.nodes.len() >= self.room.nodes || depth > 60 {
            return None;
        }
        let number = self.desc.nodes.len();
        self.desc.nodes.push(NodeDesc {
            type_number: t,
            slots: Vec::new(),
        });
        if self.visible[t].is_none() {
            self.visible[t] = Some(self.model.visible(t));
        }
        let visible = self.visible[t].clone().expect("just filled");
        for (i, &p) in visible.iter().enumerate() {
            let slot = self.slot(number, i, p, depth)?;
            self.desc.nodes[number].slots.push(slot);
        }
        Some(number)
    }

    fn slot(&mut self, node: usize, slot: usize, p: usize, depth: usize) -> Option<SlotDesc> {
        let property = &self.model.properties[p];
        let structured = self
            .model
            .kind_of(property.type_ref)
            .is_some_and(|k| k <= COMPLEX);
        let state = if property.collection { 2 } else { 1 };
        let made = |state, items| {
            Some(SlotDesc {
                property: p,
                state,
                items,
            })
        };
        if !structured {
            let count = self.count(property, 3);
            let items: Vec<_> = (0..count).map(|_| self.plain_item(property)).collect();
            return made(if state == 1 && count == 0 { 0 } else { state }, items);
        }
        if !is_integral(self.model, property) {
            self.pending.push((node, slot));
            return made(state, Vec::new());
        }
        let most = self.parts(depth);
        let count = self.count(property, most);
        let mut items = Vec::new();
        for _ in 0..count {
            items.extend(self.part(property, depth)?);
        }
        made(
            if state == 1 && items.is_empty() {
                0
            } else {
                state
            },
            items,
        )
    }

    /// Parts at most in a collection: fewer the deeper, none without room.
    fn parts(&self, depth: usize) -> usize {
        if self.desc.nodes.len() * 2 > self.room.nodes {
            0
        } else {
            [3, 3, 2, 2, 1, 1, 1].get(depth).copied().unwrap_or(0)
        }
    }

    /// The number of items; 0 for a null where it is allowed.
    fn count(&mut self, p: &PropertyDesc, most: usize) -> usize {
        match (p.collection, p.nullable) {
            (true, _) => {
                let least = usize::from(most > 0 && self.r.chance(60));
                self.r.range(least, most)
            }
            (false, true) if most == 0 => 0,
            (false, true) => usize::from(self.r.chance(75)),
            (false, false) => 1,
        }
    }

    fn plain_item(&mut self, p: &PropertyDesc) -> (u32, u32) {
        if p.collection && p.nullable && self.r.chance(30) {
            NULL_ITEM
        } else {
            (p.type_ref, self.r.number() as u32 & 0xff_ffff)
        }
    }

    /// One integral item; none where the type can have no node but need not.
    fn part(&mut self, p: &PropertyDesc, depth: usize) -> Option<Option<(u32, u32)>> {
        if p.collection && p.nullable && self.r.chance(25) {
            return Some(Some(NULL_ITEM));
        }
        match self.concrete_below(p.type_ref as usize) {
            None => Some(None),
            Some(t) => {
                let node = self.node(t, depth + 1)?;
                Some(Some((t as u32, node as u32)))
            }
        }
    }

    /// Chooses all references; a required one may need one more root.
    fn connect(&mut self) -> Option<()> {
        while let Some((node, slot)) = self.pending.pop() {
            let p = self.desc.nodes[node].slots[slot].property;
            let property = &self.model.properties[p];
            let target = property.type_ref as usize;
            let count = self.count(property, 3);
            let mut items = Vec::new();
            for _ in 0..count {
                let referred = match self.existing(target) {
                    Some(n) => Some(n),
                    None if property.collection || property.nullable => None,
                    None => {
                        let t = self.concrete_below(target)?;
                        Some(self.node(t, 0)?)
                    }
                };
                items.extend(referred.map(|n| (self.desc.nodes[n].type_number as u32, n as u32)));
            }
            let filled = &mut self.desc.nodes[node].slots[slot];
            if !property.collection && items.is_empty() {
                filled.state = 0;
            }
            filled.items = items;
        }
        Some(())
    }

    /// Any node at the type, also one that others refer to or hold.
    fn existing(&mut self, target: usize) -> Option<usize> {
        let below = self.model.below(target);
        let fitting: Vec<usize> = (0..self.desc.nodes.len())
            .filter(|&n| below.contains(&self.desc.nodes[n].type_number))
            .collect();
        self.r.pick(&fitting).copied()
    }
}

/// The same nodes under other numbers.
fn renumbered(desc: InstanceDesc, model: &ModelDesc, r: &mut Random) -> InstanceDesc {
    let numbers = r.order(desc.nodes.len());
    let mut pairs: Vec<(usize, NodeDesc)> = numbers.iter().copied().zip(desc.nodes).collect();
    pairs.sort_by_key(|pair| pair.0);
    let mut nodes: Vec<NodeDesc> = pairs.into_iter().map(|pair| pair.1).collect();
    let slots = nodes.iter_mut().flat_map(|n| &mut n.slots);
    for item in slots.flat_map(|s| &mut s.items) {
        if is_node(model, *item) {
            item.1 = numbers[item.1 as usize] as u32;
        }
    }
    InstanceDesc { nodes }
}

/// The item stands for a node.
pub fn is_node(model: &ModelDesc, item: (u32, u32)) -> bool {
    model.kind_of(item.0).is_some_and(|kind| kind <= COMPLEX)
}
