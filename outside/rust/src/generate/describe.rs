//! A model as readable structures, and its encoder to tables of fields.

use super::random::Random;
use super::raw::{Raw, Record};

pub const ENTITY: u32 = 0;
pub const COMPLEX: u32 = 1;
pub const ENUMERATION: u32 = 2;
pub const DEFINITION: u32 = 3;

pub const INT32: u32 = 64 + 11;
pub const STRING: u32 = 64 + 16;
pub const STREAM: u32 = 64 + 15;

pub type Bytes = Vec<u8>;

#[derive(Debug, Clone, PartialEq, Eq)]
pub enum Seg {
    Name(Bytes),
    Cast(usize),
}

pub type Path = Vec<Seg>;

/// A path of names.
pub fn names(parts: &[&str]) -> Path {
    parts
        .iter()
        .map(|part| Seg::Name(part.as_bytes().to_vec()))
        .collect()
}

#[derive(Debug, Clone)]
pub struct SchemaDesc {
    pub namespace: Bytes,
    pub alias: Bytes,
}

#[derive(Debug, Clone)]
pub struct TypeDesc {
    pub schema: usize,
    pub kind: u32,
    pub is_abstract: bool,
    pub open: bool,
    pub media: bool,
    pub base: Option<usize>,
    pub underlying: u32,
    pub name: Bytes,
}

#[derive(Debug, Clone)]
pub struct PropertyDesc {
    pub owner: usize,
    pub navigation: bool,
    pub collection: bool,
    pub nullable: bool,
    pub contains: bool,
    pub type_ref: u32,
    pub name: Bytes,
    pub partner: Path,
}

#[derive(Debug, Clone)]
pub struct KeyDesc {
    pub owner: usize,
    pub path: Path,
    pub alias: Bytes,
}

#[derive(Debug, Clone)]
pub struct ConstraintDesc {
    pub property: usize,
    pub dependent: Path,
    pub principal: Path,
}

#[derive(Debug, Clone)]
pub struct ChildDesc {
    pub singleton: bool,
    pub nullable: bool,
    pub type_number: usize,
    pub name: Bytes,
}

#[derive(Debug, Clone)]
pub struct BindingDesc {
    pub child: usize,
    pub path: Path,
    pub target: usize,
    pub target_path: Path,
}

#[derive(Debug, Clone, Default)]
pub struct ModelDesc {
    pub schemas: Vec<SchemaDesc>,
    pub types: Vec<TypeDesc>,
    pub properties: Vec<PropertyDesc>,
    pub keys: Vec<KeyDesc>,
    pub constraints: Vec<ConstraintDesc>,
    pub children: Vec<ChildDesc>,
    pub bindings: Vec<BindingDesc>,
}

/// Small steps for models written by hand.
impl ModelDesc {
    pub fn schema(&mut self, namespace: &str) -> usize {
        self.schemas.push(SchemaDesc {
            namespace: namespace.into(),
            alias: Vec::new(),
        });
        self.schemas.len() - 1
    }

    /// A type of the first schema, without base and flags.
    pub fn add_type(&mut self, kind: u32, name: &str) -> usize {
        self.types.push(TypeDesc {
            schema: 0,
            kind,
            is_abstract: false,
            open: false,
            media: false,
            base: None,
            underlying: 0,
            name: name.into(),
        });
        self.types.len() - 1
    }

    /// A single, not nullable structural property.
    pub fn structural(&mut self, owner: usize, name: &str, type_ref: u32) -> usize {
        self.properties.push(PropertyDesc {
            owner,
            navigation: false,
            collection: false,
            nullable: false,
            contains: false,
            type_ref,
            name: name.into(),
            partner: Vec::new(),
        });
        self.properties.len() - 1
    }

    /// A single, not nullable navigation property.
    pub fn navigation(&mut self, owner: usize, name: &str, target: usize) -> usize {
        let number = self.structural(owner, name, target as u32);
        self.properties[number].navigation = true;
        number
    }

    pub fn key(&mut self, owner: usize, path: &[&str]) -> usize {
        self.keys.push(KeyDesc {
            owner,
            path: names(path),
            alias: Vec::new(),
        });
        self.keys.len() - 1
    }

    pub fn set(&mut self, name: &str, type_number: usize) -> usize {
        self.children.push(ChildDesc {
            singleton: false,
            nullable: false,
            type_number,
            name: name.into(),
        });
        self.children.len() - 1
    }

    pub fn bind(&mut self, child: usize, path: &[&str], target: usize) -> usize {
        self.bindings.push(BindingDesc {
            child,
            path: names(path),
            target,
            target_path: Vec::new(),
        });
        self.bindings.len() - 1
    }
}

/// Questions on types and names, answered by climbing the bases.
impl ModelDesc {
    /// The type and its ancestors, nearest first. Models that are damaged
    /// already are asked too: a circle is cut off, no type has no ancestors.
    pub fn chain(&self, t: usize) -> Vec<usize> {
        let mut chain = vec![t];
        let mut next = t;
        while let Some(base) = self.types.get(next).and_then(|u| u.base) {
            if chain.len() >= self.types.len() {
                break;
            }
            chain.push(base);
            next = base;
        }
        chain
    }

    pub fn at(&self, t: usize, u: usize) -> bool {
        self.chain(t).contains(&u)
    }

    pub fn top(&self, t: usize) -> usize {
        *self.chain(t).last().expect("a chain is not empty")
    }

    /// All types at `t`.
    pub fn below(&self, t: usize) -> Vec<usize> {
        (0..self.types.len()).filter(|&u| self.at(u, t)).collect()
    }

    pub fn structured(&self, t: usize) -> bool {
        self.types.get(t).is_some_and(|u| u.kind <= COMPLEX)
    }

    /// All numbers of types of a kind.
    pub fn of_kind(&self, kind: u32) -> Vec<usize> {
        (0..self.types.len())
            .filter(|&t| self.types[t].kind == kind)
            .collect()
    }

    pub fn kind_of(&self, type_ref: u32) -> Option<u32> {
        if type_ref < 64 {
            self.types.get(type_ref as usize).map(|t| t.kind)
        } else {
            None
        }
    }

    pub fn own(&self, t: usize, name: &[u8]) -> Option<usize> {
        self.properties
            .iter()
            .position(|p| p.owner == t && p.name == name)
    }

    /// The property a name means at a type.
    pub fn find(&self, t: usize, name: &[u8]) -> Option<usize> {
        self.chain(t).into_iter().find_map(|u| self.own(u, name))
    }

    /// The properties that the names of a type mean.
    pub fn visible(&self, t: usize) -> Vec<usize> {
        let mut found: Vec<usize> = Vec::new();
        for u in self.chain(t) {
            for (i, p) in self.properties.iter().enumerate() {
                let hidden = found.iter().any(|&j| self.properties[j].name == p.name);
                if p.owner == u && !hidden {
                    found.push(i);
                }
            }
        }
        found
    }

    pub fn has_key(&self, t: usize) -> bool {
        let chain = self.chain(t);
        self.keys.iter().any(|key| chain.contains(&key.owner))
    }

    /// The type reference and last property at the end of a path.
    pub fn follow(&self, start: u32, path: &[Seg]) -> (u32, Option<usize>) {
        let mut current = start;
        let mut last = None;
        for seg in path {
            last = match seg {
                Seg::Name(name) if current < 64 => self.find(current as usize, name),
                _ => None,
            };
            current = match (seg, last) {
                (Seg::Cast(t), _) => *t as u32,
                (_, Some(p)) => self.properties[p].type_ref,
                _ => 64,
            };
        }
        (current, last)
    }

    /// The property a partner path ends at.
    pub fn partner(&self, p: usize) -> Option<usize> {
        let property = &self.properties[p];
        self.follow(property.type_ref, &property.partner).1
    }

    /// The place of record `number` of a table, before the segments.
    pub fn place(&self, table: usize, number: usize) -> u32 {
        let counts = [
            self.schemas.len(),
            self.types.len(),
            self.properties.len(),
            self.keys.len(),
            self.constraints.len(),
            self.children.len(),
            self.bindings.len(),
        ];
        (counts[..table].iter().sum::<usize>() + number) as u32
    }

    /// All paths with the place and path number of their record, and start type.
    pub fn all_paths(&self) -> Vec<(u32, u32, u32, &Path)> {
        let mut all = Vec::new();
        for (i, p) in self.properties.iter().enumerate() {
            all.push((self.place(2, i), 0, p.type_ref, &p.partner));
        }
        for (i, key) in self.keys.iter().enumerate() {
            all.push((self.place(3, i), 0, key.owner as u32, &key.path));
        }
        for (i, c) in self.constraints.iter().enumerate() {
            let p = &self.properties[c.property];
            all.push((self.place(4, i), 0, p.owner as u32, &c.dependent));
            all.push((self.place(4, i), 1, p.type_ref, &c.principal));
        }
        for (i, b) in self.bindings.iter().enumerate() {
            let child = &self.children[b.child];
            let target = &self.children[b.target];
            all.push((self.place(6, i), 0, child.type_number as u32, &b.path));
            all.push((
                self.place(6, i),
                1,
                target.type_number as u32,
                &b.target_path,
            ));
        }
        all.retain(|(_, _, _, path)| !path.is_empty());
        all
    }
}

impl ModelDesc {
    /// Every path that is present, to be changed, with its start type.
    pub fn paths_mut(&mut self) -> Vec<(u32, &mut Path)> {
        let properties: Vec<(u32, u32)> = self
            .properties
            .iter()
            .map(|p| (p.owner as u32, p.type_ref))
            .collect();
        let children: Vec<u32> = self.children.iter().map(|c| c.type_number as u32).collect();
        let mut all: Vec<(u32, &mut Path)> = Vec::new();
        all.extend(
            self.properties
                .iter_mut()
                .map(|p| (p.type_ref, &mut p.partner)),
        );
        all.extend(self.keys.iter_mut().map(|k| (k.owner as u32, &mut k.path)));
        for c in &mut self.constraints {
            let (owner, type_ref) = properties[c.property];
            all.push((owner, &mut c.dependent));
            all.push((type_ref, &mut c.principal));
        }
        for b in &mut self.bindings {
            all.push((children[b.child], &mut b.path));
            all.push((children[b.target], &mut b.target_path));
        }
        all.retain(|(_, path)| !path.is_empty());
        all
    }
}

/// How the encoder lays out what the description leaves open.
pub struct Layout {
    /// Equal names, and names within names, share their bytes.
    pub share_names: bool,
    /// The paths lie in the segment table in any order.
    pub paths: Option<Random>,
    /// Name bytes that stand in the image before others are added.
    pub names: Bytes,
}

impl Layout {
    pub fn plain() -> Layout {
        Layout {
            share_names: true,
            paths: None,
            names: Vec::new(),
        }
    }
}

/// Start and length of a name in the name bytes: where it stands already, if
/// names are shared, or else at their end.
pub fn put_name(names: &mut Bytes, name: &[u8], share: bool) -> [u32; 2] {
    if name.is_empty() {
        return [0, 0];
    }
    let found = if share {
        names.windows(name.len()).position(|part| part == name)
    } else {
        None
    };
    let start = found.unwrap_or_else(|| {
        names.extend(name);
        names.len() - name.len()
    });
    [start as u32 & 0xfff, name.len() as u32 & 0xff]
}

struct Encoder {
    names: Bytes,
    share: bool,
    segments: Vec<Record>,
    /// First segment and count of each path, by number of asking.
    spans: Vec<(u32, u32)>,
    asked: usize,
}

impl Encoder {
    fn name(&mut self, name: &[u8]) -> [u32; 2] {
        put_name(&mut self.names, name, self.share)
    }

    fn segment(&mut self, seg: &Seg) {
        let record = match seg {
            Seg::Name(name) => {
                let [start, length] = self.name(name);
                vec![0, 0, start, length]
            }
            Seg::Cast(t) => vec![1, 0, *t as u32 >> 8, *t as u32 & 255],
        };
        self.segments.push(record);
    }

    fn next_path(&mut self) -> [u32; 2] {
        let (first, count) = self.spans[self.asked];
        self.asked += 1;
        [first & 0x7ff, count & 0xf]
    }
}

impl ModelDesc {
    /// All paths, absent ones too, in the order in which records ask for them.
    fn paths_in_order(&self) -> Vec<&Path> {
        let mut paths: Vec<&Path> = Vec::new();
        paths.extend(self.properties.iter().map(|p| &p.partner));
        paths.extend(self.keys.iter().map(|k| &k.path));
        paths.extend(
            self.constraints
                .iter()
                .flat_map(|c| [&c.dependent, &c.principal]),
        );
        paths.extend(self.bindings.iter().flat_map(|b| [&b.path, &b.target_path]));
        paths
    }

    pub fn encode(&self, layout: &Layout) -> Raw {
        let mut raw = Raw::model();
        let mut e = Encoder {
            names: layout.names.clone(),
            share: layout.share_names,
            segments: Vec::new(),
            spans: Vec::new(),
            asked: 0,
        };
        self.lay_out_paths(&mut e, layout);
        raw.tables[0] = self.encode_schemas(&mut e);
        raw.tables[1] = self.encode_types(&mut e);
        raw.tables[2] = self.encode_properties(&mut e);
        raw.tables[3] = self.encode_keys(&mut e);
        raw.tables[4] = self.encode_constraints(&mut e);
        raw.tables[5] = self.encode_children(&mut e);
        raw.tables[6] = self.encode_bindings(&mut e);
        self.encode_segments(&mut e, layout);
        raw.tables[7] = e.segments;
        raw.names = Some(e.names);
        raw
    }

    fn path_order(&self, layout: &Layout) -> Vec<usize> {
        let count = self.paths_in_order().len();
        match &layout.paths {
            None => (0..count).collect(),
            Some(random) => random.clone().order(count),
        }
    }

    fn lay_out_paths(&self, e: &mut Encoder, layout: &Layout) {
        let paths = self.paths_in_order();
        e.spans = vec![(0, 0); paths.len()];
        let mut first = 0;
        for i in self.path_order(layout) {
            let count = paths[i].len() as u32;
            if count > 0 {
                e.spans[i] = (first, count);
                first += count;
            }
        }
    }

    fn encode_segments(&self, e: &mut Encoder, layout: &Layout) {
        let paths = self.paths_in_order();
        for i in self.path_order(layout) {
            for seg in paths[i] {
                e.segment(seg);
            }
        }
    }

    fn encode_schemas(&self, e: &mut Encoder) -> Vec<Record> {
        let record = |s: &SchemaDesc| [e.name(&s.namespace), e.name(&s.alias)].concat();
        self.schemas.iter().map(record).collect()
    }

    fn encode_types(&self, e: &mut Encoder) -> Vec<Record> {
        let record = |t: &TypeDesc| {
            let [start, length] = e.name(&t.name);
            vec![
                t.schema as u32,
                t.kind,
                t.is_abstract.into(),
                t.open.into(),
                t.media.into(),
                t.base.map_or(0, |base| base as u32 + 1),
                t.underlying,
                start,
                length,
                0,
            ]
        };
        self.types.iter().map(record).collect()
    }

    fn encode_properties(&self, e: &mut Encoder) -> Vec<Record> {
        let record = |p: &PropertyDesc| {
            let [start, length] = e.name(&p.name);
            let [first, count] = e.next_path();
            vec![
                p.owner as u32,
                p.navigation.into(),
                p.collection.into(),
                p.nullable.into(),
                p.contains.into(),
                p.type_ref,
                start,
                length,
                first,
                count,
                0,
            ]
        };
        self.properties.iter().map(record).collect()
    }

    fn encode_keys(&self, e: &mut Encoder) -> Vec<Record> {
        let record = |k: &KeyDesc| {
            let [first, count] = e.next_path();
            let [start, length] = e.name(&k.alias);
            vec![k.owner as u32, first, count, start, length, 0]
        };
        self.keys.iter().map(record).collect()
    }

    fn encode_constraints(&self, e: &mut Encoder) -> Vec<Record> {
        let record = |c: &ConstraintDesc| {
            let [first, count] = e.next_path();
            let [principal, principal_count] = e.next_path();
            vec![
                c.property as u32,
                first,
                count,
                principal,
                principal_count,
                0,
            ]
        };
        self.constraints.iter().map(record).collect()
    }

    fn encode_children(&self, e: &mut Encoder) -> Vec<Record> {
        let record = |c: &ChildDesc| {
            let [start, length] = e.name(&c.name);
            let flags = [c.singleton.into(), c.nullable.into()];
            vec![flags[0], flags[1], c.type_number as u32, start, length, 0]
        };
        self.children.iter().map(record).collect()
    }

    fn encode_bindings(&self, e: &mut Encoder) -> Vec<Record> {
        let record = |b: &BindingDesc| {
            let [first, count] = e.next_path();
            let [target, target_count] = e.next_path();
            vec![
                b.child as u32,
                first,
                count,
                b.target as u32,
                target,
                target_count,
                0,
            ]
        };
        self.bindings.iter().map(record).collect()
    }
}
