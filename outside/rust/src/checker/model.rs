//! The model image, decoded into records.

use super::bits::{number16, Fields};

pub const VERSION: usize = 0x0402;
pub const HEADER: usize = 20;

/// Highest counts, in header order; the last is of name bytes.
pub const LIMITS: [usize; 9] = [16, 64, 512, 128, 64, 64, 128, 1024, 4096];
/// Bytes a record, in header order.
pub const SIZES: [usize; 9] = [5, 6, 7, 6, 5, 4, 6, 3, 1];

pub const ENTITY: u32 = 0;
pub const COMPLEX: u32 = 1;
pub const ENUMERATION: u32 = 2;
pub const DEFINITION: u32 = 3;
pub const STREAM: u32 = 15;

#[derive(Debug, Clone, Copy, PartialEq, Eq)]
pub enum Table {
    Schema,
    Type,
    Property,
    Key,
    Constraint,
    Child,
    Binding,
    Segment,
}

/// A name (start, length) or a path (first segment, count); count 0 is absent.
#[derive(Debug, Clone, Copy, PartialEq, Eq)]
pub struct Span {
    pub first: usize,
    pub count: usize,
}

impl Span {
    pub fn present(self) -> bool {
        self.count != 0
    }

    pub fn range(self) -> std::ops::Range<usize> {
        self.first..self.first + self.count
    }
}

pub struct Schema {
    pub namespace: Span,
    pub alias: Span,
}

pub struct Type {
    pub schema: usize,
    pub kind: u32,
    pub is_abstract: bool,
    pub open: bool,
    pub media: bool,
    pub base: usize,
    pub underlying: u32,
    pub name: Span,
    pub spare: u32,
}

impl Type {
    pub fn structured(&self) -> bool {
        self.kind == ENTITY || self.kind == COMPLEX
    }
}

pub struct Property {
    pub owner: usize,
    pub navigation: bool,
    pub collection: bool,
    pub nullable: bool,
    pub contains: bool,
    pub type_ref: u32,
    pub name: Span,
    pub partner: Span,
    pub spare: u32,
}

pub struct Key {
    pub owner: usize,
    pub path: Span,
    pub alias: Span,
    pub spare: u32,
}

pub struct Constraint {
    pub property: usize,
    pub dependent: Span,
    pub principal: Span,
    pub spare: u32,
}

pub struct Child {
    pub singleton: bool,
    pub nullable: bool,
    pub type_number: usize,
    pub name: Span,
    pub spare: u32,
}

pub struct Binding {
    pub child: usize,
    pub path: Span,
    pub target: usize,
    pub target_path: Span,
    pub spare: u32,
}

pub enum Step {
    Name(Span),
    Cast(usize),
}

pub struct Segment {
    pub spare: u32,
    pub step: Step,
}

pub struct Model<'a> {
    pub schemas: Vec<Schema>,
    pub types: Vec<Type>,
    pub properties: Vec<Property>,
    pub keys: Vec<Key>,
    pub constraints: Vec<Constraint>,
    pub children: Vec<Child>,
    pub bindings: Vec<Binding>,
    pub segments: Vec<Segment>,
    pub names: &'a [u8],
}

impl<'a> Model<'a> {
    /// Nothing if rule 1 is broken.
    pub fn decode(image: &'a [u8]) -> Option<Model<'a>> {
        let counts = counts(image)?;
        let mut rest = &image[HEADER..];
        let mut table = |index: usize| {
            let (records, after) = rest.split_at(counts[index] * SIZES[index]);
            rest = after;
            records
        };
        Some(Model {
            schemas: records(table(0), 5, schema),
            types: records(table(1), 6, type_record),
            properties: records(table(2), 7, property),
            keys: records(table(3), 6, key),
            constraints: records(table(4), 5, constraint),
            children: records(table(5), 4, child),
            bindings: records(table(6), 6, binding),
            segments: records(table(7), 3, segment),
            names: table(8),
        })
    }

    /// Record counts in image order.
    pub fn counts(&self) -> [usize; 8] {
        [
            self.schemas.len(),
            self.types.len(),
            self.properties.len(),
            self.keys.len(),
            self.constraints.len(),
            self.children.len(),
            self.bindings.len(),
            self.segments.len(),
        ]
    }

    pub fn place(&self, table: Table, number: usize) -> u32 {
        let before: usize = self.counts()[..table as usize].iter().sum();
        (before + number) as u32
    }

    /// The table and number of the record at a place.
    pub fn record_at(&self, place: u32) -> Option<(Table, usize)> {
        const ALL: [Table; 8] = [
            Table::Schema,
            Table::Type,
            Table::Property,
            Table::Key,
            Table::Constraint,
            Table::Child,
            Table::Binding,
            Table::Segment,
        ];
        let mut number = place as usize;
        for (table, count) in ALL.into_iter().zip(self.counts()) {
            if number < count {
                return Some((table, number));
            }
            number -= count;
        }
        None
    }

    pub fn name(&self, name: Span) -> &'a [u8] {
        &self.names[name.range()]
    }

    /// The type a reference names, if it is not primitive.
    pub fn named_type(&self, type_ref: u32) -> Option<&Type> {
        self.types.get(type_ref as usize).filter(|_| type_ref < 64)
    }

    pub fn kind_of(&self, type_ref: u32) -> Option<u32> {
        self.named_type(type_ref).map(|t| t.kind)
    }

    /// The primitive code of a primitive reference or of a type definition.
    pub fn code_of(&self, type_ref: u32) -> Option<u32> {
        match self.named_type(type_ref) {
            Some(t) if t.kind == DEFINITION => Some(t.underlying),
            Some(_) => None,
            None => Some(type_ref - 64),
        }
    }
}

/// The nine counts, if rule 1 holds.
fn counts(image: &[u8]) -> Option<[usize; 9]> {
    if image.len() < HEADER || number16(image, 0) != VERSION {
        return None;
    }
    let mut counts = [0; 9];
    let mut length = HEADER;
    for i in 0..9 {
        counts[i] = number16(image, i + 1);
        if counts[i] > LIMITS[i] {
            return None;
        }
        length += counts[i] * SIZES[i];
    }
    (counts[0] >= 1 && image.len() == length).then_some(counts)
}

fn records<T>(table: &[u8], size: usize, decode: fn(&mut Fields) -> T) -> Vec<T> {
    table
        .chunks_exact(size)
        .map(|record| decode(&mut Fields::new(record)))
        .collect()
}

pub fn name(f: &mut Fields) -> Span {
    Span {
        first: f.take(12) as usize,
        count: f.take(8) as usize,
    }
}

fn path(f: &mut Fields) -> Span {
    Span {
        first: f.take(11) as usize,
        count: f.take(4) as usize,
    }
}

fn schema(f: &mut Fields) -> Schema {
    Schema {
        namespace: name(f),
        alias: name(f),
    }
}

fn type_record(f: &mut Fields) -> Type {
    Type {
        schema: f.take(4) as usize,
        kind: f.take(3),
        is_abstract: f.flag(),
        open: f.flag(),
        media: f.flag(),
        base: f.take(7) as usize,
        underlying: f.take(5),
        name: name(f),
        spare: f.take(6),
    }
}

fn property(f: &mut Fields) -> Property {
    Property {
        owner: f.take(6) as usize,
        navigation: f.flag(),
        collection: f.flag(),
        nullable: f.flag(),
        contains: f.flag(),
        type_ref: f.take(8),
        name: name(f),
        partner: path(f),
        spare: f.take(3),
    }
}

fn key(f: &mut Fields) -> Key {
    Key {
        owner: f.take(6) as usize,
        path: path(f),
        alias: name(f),
        spare: f.take(7),
    }
}

fn constraint(f: &mut Fields) -> Constraint {
    Constraint {
        property: f.take(9) as usize,
        dependent: path(f),
        principal: path(f),
        spare: f.take(1),
    }
}

fn child(f: &mut Fields) -> Child {
    Child {
        singleton: f.flag(),
        nullable: f.flag(),
        type_number: f.take(6) as usize,
        name: name(f),
        spare: f.take(4),
    }
}

fn binding(f: &mut Fields) -> Binding {
    Binding {
        child: f.take(6) as usize,
        path: path(f),
        target: f.take(6) as usize,
        target_path: path(f),
        spare: f.take(6),
    }
}

fn segment(f: &mut Fields) -> Segment {
    let cast = f.flag();
    let spare = f.take(3);
    let step = if cast {
        Step::Cast(f.take(20) as usize)
    } else {
        Step::Name(name(f))
    };
    Segment { spare, step }
}
