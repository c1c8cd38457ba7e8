//! Sound models, built rule by rule.

use super::describe::*;
use super::random::Random;

/// How much of everything a model gets.
#[derive(Debug, Clone)]
pub struct Shape {
    pub schemas: usize,
    pub entities: usize,
    pub complexes: usize,
    pub enumerations: usize,
    pub definitions: usize,
    pub properties: usize,
    pub constraints: usize,
    pub children: usize,
    pub bindings: usize,
    pub longest_path: usize,
    pub long_names: bool,
    /// Percent of structured types that get a base.
    pub derived: usize,
    /// Each type derives from the one before: one deep chain a kind.
    pub chained: bool,
    /// Parts within parts, and long paths through them.
    pub nested: bool,
}

impl Shape {
    pub fn random(r: &mut Random) -> Shape {
        match r.below(20) {
            0 => Shape::tiny(r),
            1 => Shape::deep(r),
            2 | 3 => Shape::wide(r),
            4..=11 => Shape::nested(r),
            _ => Shape::usual(r),
        }
    }

    fn usual(r: &mut Random) -> Shape {
        Shape {
            schemas: r.range(1, 3),
            entities: r.range(2, 6),
            complexes: r.range(1, 5),
            enumerations: r.range(0, 2),
            definitions: r.range(0, 2),
            properties: r.range(8, 30),
            constraints: r.range(0, 4),
            children: r.range(1, 5),
            bindings: r.range(0, 6),
            longest_path: if r.chance(15) { 15 } else { 5 },
            long_names: r.chance(5),
            derived: r.range(20, 80),
            chained: false,
            nested: false,
        }
    }

    fn nested(r: &mut Random) -> Shape {
        Shape {
            entities: r.range(2, 5),
            complexes: r.range(2, 4),
            properties: r.range(15, 30),
            children: r.range(2, 4),
            bindings: r.range(6, 14),
            longest_path: r.range(4, 15),
            nested: true,
            ..Shape::usual(r)
        }
    }

    fn tiny(r: &mut Random) -> Shape {
        Shape {
            schemas: 1,
            entities: r.range(0, 1),
            complexes: r.range(0, 1),
            enumerations: r.range(0, 1),
            definitions: 0,
            properties: r.range(0, 3),
            constraints: 0,
            children: r.range(0, 1),
            bindings: 0,
            ..Shape::usual(r)
        }
    }

    fn deep(r: &mut Random) -> Shape {
        Shape {
            entities: r.range(8, 40),
            complexes: r.range(4, 20),
            properties: r.range(20, 60),
            chained: true,
            ..Shape::usual(r)
        }
    }

    fn wide(r: &mut Random) -> Shape {
        Shape {
            schemas: r.range(1, 16),
            entities: r.range(5, 25),
            complexes: r.range(5, 20),
            enumerations: r.range(1, 4),
            definitions: r.range(1, 5),
            properties: r.range(40, 120),
            constraints: r.range(3, 12),
            children: r.range(5, 15),
            bindings: r.range(5, 25),
            ..Shape::usual(r)
        }
    }
}

/// A sound model within all limits.
pub fn model(r: &mut Random, shape: &Shape) -> ModelDesc {
    loop {
        let mut b = Builder::new(r, shape.clone());
        b.schemas();
        b.types();
        b.properties();
        b.keys();
        b.children();
        b.bindings();
        b.partners();
        b.constraints();
        let mut desc = b.desc;
        shuffle(&mut desc, r);
        if within_limits(&desc) {
            return desc;
        }
    }
}

fn within_limits(desc: &ModelDesc) -> bool {
    let raw = desc.encode(&Layout::plain());
    let limits = [16, 64, 512, 128, 64, 64, 128, 1024];
    let counted = raw
        .tables
        .iter()
        .zip(limits)
        .all(|(t, limit)| t.len() <= limit);
    counted && raw.names.is_some_and(|names| names.len() <= 4096)
}

const WORDS: [&str; 24] = [
    "No", "Name", "Stop", "Stops", "Tour", "Label", "Next", "Text", "Lang", "a", "b", "_", "x1",
    "Id", "Parent", "Parts", "Owner", "Kind", "Code", "Size", "Edm", "System", "Date_2", "odata",
];

/// A simple identifier; sometimes of the greatest length.
pub fn identifier(r: &mut Random, long_names: bool) -> Bytes {
    if long_names && r.chance(10) {
        return letters(r, 128);
    }
    match r.below(10) {
        0..=5 => WORDS[r.below(WORDS.len())].into(),
        6..=8 => {
            let count = r.range(1, 4);
            letters(r, count)
        }
        _ => {
            let mut name: Bytes = WORDS[r.below(WORDS.len())].into();
            name.extend(letters(r, 2));
            name
        }
    }
}

/// Letters, underscores and, but for the first, digits.
pub fn letters(r: &mut Random, count: usize) -> Bytes {
    const FIRST: &[u8] = b"abcxyzABCXYZ_";
    const LATER: &[u8] = b"abcxyzABCXYZ_0189";
    (0..count)
        .map(|i| {
            if i == 0 {
                FIRST[r.below(FIRST.len())]
            } else {
                LATER[r.below(LATER.len())]
            }
        })
        .collect()
}

/// A namespace of a few identifiers.
pub fn namespace(r: &mut Random) -> Bytes {
    let parts = r.range(1, 3);
    let mut name = identifier(r, false);
    for _ in 1..parts {
        name.push(b'.');
        name.extend(identifier(r, false));
    }
    name
}

const KEY_CODES: [u32; 13] = [2, 3, 4, 5, 6, 8, 9, 10, 11, 12, 13, 16, 17];

pub struct Builder<'r> {
    pub r: &'r mut Random,
    pub desc: ModelDesc,
    shape: Shape,
    /// One number a type; required steps go to a type of higher rank only.
    rank: Vec<usize>,
}

impl<'r> Builder<'r> {
    fn new(r: &'r mut Random, shape: Shape) -> Builder<'r> {
        Builder {
            r,
            desc: ModelDesc::default(),
            shape,
            rank: Vec::new(),
        }
    }

    /// Tries names until one is free.
    fn fresh(&mut self, taken: impl Fn(&ModelDesc, &[u8]) -> bool) -> Bytes {
        loop {
            let name = identifier(self.r, self.shape.long_names);
            if !taken(&self.desc, &name) {
                return name;
            }
            let mut longer = name;
            longer.truncate(8);
            longer.extend(letters(self.r, 3));
            if !taken(&self.desc, &longer) {
                return longer;
            }
        }
    }

    fn schemas(&mut self) {
        const RESERVED: [&[u8]; 4] = [b"Edm", b"odata", b"System", b"Transient"];
        let taken = |desc: &ModelDesc, name: &[u8]| {
            RESERVED.contains(&name)
                || desc
                    .schemas
                    .iter()
                    .any(|s| s.namespace == name || s.alias == name)
        };
        for _ in 0..self.shape.schemas {
            let mut name = namespace(self.r);
            while taken(&self.desc, &name) {
                name.extend(letters(self.r, 2));
            }
            self.desc.schemas.push(SchemaDesc {
                namespace: name,
                alias: Vec::new(),
            });
            if self.r.coin() {
                let alias = self.fresh(taken);
                self.desc.schemas.last_mut().expect("just added").alias = alias;
            }
        }
    }

    fn types(&mut self) {
        for (kind, count) in [
            (ENTITY, self.shape.entities),
            (COMPLEX, self.shape.complexes),
            (ENUMERATION, self.shape.enumerations),
            (DEFINITION, self.shape.definitions),
        ] {
            for _ in 0..count {
                self.add_type(kind);
            }
        }
        self.rank = self.r.order(self.desc.types.len());
        for t in 0..self.desc.types.len() {
            self.rank[t] = self.rank[self.desc.top(t)];
        }
    }

    fn add_type(&mut self, kind: u32) {
        let schema = self.r.below(self.desc.schemas.len());
        let name = self.fresh(|desc, name| {
            desc.types
                .iter()
                .any(|t| t.schema == schema && t.name == name)
        });
        let base = self.choose_base(kind);
        let above = base.map(|b| self.desc.types[b].clone());
        let entity = kind == ENTITY;
        let structured = kind <= COMPLEX;
        let may_be_abstract = !entity || above.as_ref().is_none_or(|b| b.is_abstract);
        let underlying = match kind {
            ENUMERATION => [3, 10, 11, 12, 13][self.r.below(5)],
            DEFINITION => self.r.range(1, 17) as u32,
            _ => 0,
        };
        let open = above.as_ref().is_some_and(|b| b.open) || self.r.chance(10);
        let media = above.as_ref().is_some_and(|b| b.media) || self.r.chance(10);
        self.desc.types.push(TypeDesc {
            schema,
            kind,
            is_abstract: structured && may_be_abstract && self.r.chance(15),
            open: structured && open,
            media: entity && media,
            base,
            underlying,
            name,
        });
    }

    fn choose_base(&mut self, kind: u32) -> Option<usize> {
        let same = self.desc.of_kind(kind);
        if kind > COMPLEX || same.is_empty() {
            None
        } else if self.shape.chained {
            same.last().copied()
        } else if self.r.chance(self.shape.derived) {
            self.r.pick(&same).copied()
        } else {
            None
        }
    }

    /// The name is free on a type, its ancestors and all types below it.
    fn name_taken(desc: &ModelDesc, owner: usize, name: &[u8]) -> bool {
        desc.properties
            .iter()
            .any(|p| p.name == name && (desc.at(owner, p.owner) || desc.at(p.owner, owner)))
    }

    fn property_name(&mut self, owner: usize) -> Bytes {
        self.fresh(|desc, name| Self::name_taken(desc, owner, name))
    }

    fn structured_types(&self) -> Vec<usize> {
        (0..self.desc.types.len())
            .filter(|&t| self.desc.structured(t))
            .collect()
    }

    fn properties(&mut self) {
        let owners = self.structured_types();
        for _ in 0..self.shape.properties {
            let Some(&owner) = self.r.pick(&owners) else {
                return;
            };
            let plain = if self.shape.nested { 1 } else { 5 };
            match self.r.range(5 - plain, 19) {
                0..=4 => self.add_plain(owner),
                5..=10 => self.add_complex(owner),
                11..=14 => {
                    // Few types inherit something that can be narrowed.
                    for _ in 0..5 {
                        let heir = owners[self.r.below(owners.len())];
                        if self.redeclare(heir) {
                            break;
                        }
                    }
                }
                15 | 16 => self.add_pair(owner),
                _ => self.add_navigation(owner),
            }
        }
    }

    fn push_property(&mut self, owner: usize, type_ref: u32) -> usize {
        let name = self.property_name(owner);
        self.desc.properties.push(PropertyDesc {
            owner,
            navigation: self.desc.kind_of(type_ref) == Some(ENTITY),
            collection: false,
            nullable: false,
            contains: false,
            type_ref,
            name,
            partner: Vec::new(),
        });
        self.desc.properties.len() - 1
    }

    /// A property of a primitive type, enumeration or type definition.
    fn add_plain(&mut self, owner: usize) {
        let mut choices = self.desc.of_kind(ENUMERATION);
        choices.extend(self.desc.of_kind(DEFINITION));
        let type_ref = match self.r.pick(&choices) {
            Some(&t) if self.r.chance(35) => t as u32,
            _ => 64 + self.r.range(1, 17) as u32,
        };
        let underlying = self.desc.types.get(type_ref as usize).map(|t| t.underlying);
        let stream = type_ref == STREAM || type_ref < 64 && underlying == Some(15);
        let p = self.push_property(owner, type_ref);
        let property = &mut self.desc.properties[p];
        property.collection = !stream && self.r.chance(20);
        property.nullable = self.r.chance(40);
    }

    /// A required single step may lead to a higher rank only.
    fn may_require(&self, owner: usize, target: usize) -> bool {
        self.rank[owner] < self.rank[target]
    }

    fn add_complex(&mut self, owner: usize) {
        let complexes = self.desc.of_kind(COMPLEX);
        let Some(&target) = self.r.pick(&complexes) else {
            return;
        };
        let p = self.push_property(owner, target as u32);
        let may_require = self.may_require(owner, target);
        let property = &mut self.desc.properties[p];
        property.collection = self.r.chance(if self.shape.nested { 50 } else { 25 });
        property.nullable = if property.collection || may_require {
            self.r.chance(30)
        } else {
            true
        };
    }

    fn add_navigation(&mut self, owner: usize) {
        let entities = self.desc.of_kind(ENTITY);
        let Some(&target) = self.r.pick(&entities) else {
            return;
        };
        let p = self.push_property(owner, target as u32);
        let may_require = self.may_require(owner, target);
        let property = &mut self.desc.properties[p];
        property.contains = self.r.chance(if self.shape.nested { 60 } else { 30 });
        property.collection = self.r.chance(if self.shape.nested { 50 } else { 35 });
        let required = !property.contains || may_require;
        property.nullable = !property.collection && (!required || self.r.coin());
    }

    /// Declares an inherited name anew, with a type derived from the earlier ones.
    fn redeclare(&mut self, owner: usize) -> bool {
        let inherited: Vec<usize> = self.desc.visible(owner);
        let candidates: Vec<usize> = inherited
            .into_iter()
            .filter(|&p| self.desc.properties[p].owner != owner && self.can_narrow(p))
            .collect();
        let Some(&p) = self.r.pick(&candidates) else {
            return false;
        };
        let earlier = self.desc.properties[p].clone();
        let mut narrower = self.desc.below(earlier.type_ref as usize);
        narrower.retain(|&t| t != earlier.type_ref as usize && self.fits_below(owner, &earlier, t));
        let Some(&t) = self.r.pick(&narrower) else {
            return false;
        };
        self.desc.properties.push(PropertyDesc {
            owner,
            type_ref: t as u32,
            ..earlier
        });
        true
    }

    fn can_narrow(&self, p: usize) -> bool {
        let type_ref = self.desc.properties[p].type_ref;
        type_ref < 64 && self.desc.structured(type_ref as usize)
    }

    /// What types below the owner declare under the name derives from `t`.
    fn fits_below(&self, owner: usize, earlier: &PropertyDesc, t: usize) -> bool {
        self.desc.properties.iter().all(|q| {
            let below = q.owner != owner && self.desc.at(q.owner, owner);
            !below || q.name != earlier.name || {
                let derived = q.type_ref as usize;
                derived != t && self.desc.at(derived, t)
            }
        })
    }

    /// A containment navigation and a way back, often partners.
    fn add_pair(&mut self, owner: usize) {
        let entities = self.desc.of_kind(ENTITY);
        let Some(&target) = self.r.pick(&entities) else {
            return;
        };
        if self.desc.types[owner].kind != ENTITY {
            return;
        }
        let down = self.push_property(owner, target as u32);
        self.desc.properties[down].contains = true;
        self.desc.properties[down].collection = self.r.coin();
        self.desc.properties[down].nullable = !self.desc.properties[down].collection
            && (!self.may_require(owner, target) || self.r.coin());
        let chain = self.desc.chain(owner);
        let back_to = if self.r.chance(70) {
            owner
        } else {
            chain[self.r.below(chain.len())]
        };
        let back = self.push_property(target, back_to as u32);
        let recursive = self.desc.top(owner) == self.desc.top(target);
        self.desc.properties[back].nullable = recursive;
    }

    /// Keys on types none of whose ancestors or heirs has one.
    fn keys(&mut self) {
        let entities = self.desc.of_kind(ENTITY);
        for &t in &entities {
            let wanted = self.r.chance(if self.desc.types[t].base.is_none() {
                75
            } else {
                40
            });
            let needed = wanted && !self.desc.has_key(t);
            let below = self.desc.below(t);
            if needed && !self.desc.keys.iter().any(|k| below.contains(&k.owner)) {
                self.add_key(t);
            }
        }
        self.unset_keyless_collections();
    }

    /// Contained collections of types without a key become plain collections.
    fn unset_keyless_collections(&mut self) {
        for p in 0..self.desc.properties.len() {
            let property = &self.desc.properties[p];
            let unsound = property.contains
                && property.collection
                && !self.desc.has_key(property.type_ref as usize);
            if unsound {
                let name = property.name.clone();
                // Declarations of one name must agree, so all of them change.
                for q in &mut self.desc.properties {
                    if q.name == name && q.collection {
                        q.contains = false;
                    }
                }
            }
        }
    }

    /// A required complex property with a property fit for a key.
    fn embed_key_property(&mut self, t: usize) {
        let mut complexes = self.desc.of_kind(COMPLEX);
        complexes.retain(|&c| self.may_require(t, c));
        if let Some(&c) = self.r.pick(&complexes) {
            let code = 64 + KEY_CODES[self.r.below(KEY_CODES.len())];
            self.push_property(c, code);
            self.push_property(t, c as u32);
        }
    }

    fn add_key(&mut self, t: usize) {
        if self.r.chance(30) {
            self.embed_key_property(t);
        }
        let mut paths = Vec::new();
        self.key_paths(t, &mut Vec::new(), &mut paths);
        self.r.shuffle(&mut paths);
        if self.r.coin() {
            paths.sort_by_key(|path| usize::MAX - path.len());
        }
        let simple = paths.iter().any(|path| path.len() == 1);
        if paths.is_empty() || !simple && self.r.coin() {
            let code = 64 + KEY_CODES[self.r.below(KEY_CODES.len())];
            let p = self.push_property(t, code);
            paths.insert(0, vec![Seg::Name(self.desc.properties[p].name.clone())]);
        }
        let count = self.r.range(1, 3).min(paths.len());
        for path in paths.into_iter().take(count) {
            let alias = if path.len() > 1 {
                self.fresh(|desc, name| {
                    desc.keys.iter().any(|k| k.owner == t && k.alias == name)
                        || desc.chain(t).iter().any(|&u| desc.own(u, name).is_some())
                })
            } else {
                Vec::new()
            };
            self.desc.keys.push(KeyDesc {
                owner: t,
                path,
                alias,
            });
        }
    }

    /// Paths of required single complex steps to a property fit for a key.
    fn key_paths(&mut self, t: usize, before: &mut Path, found: &mut Vec<Path>) {
        if before.len() >= self.shape.longest_path || found.len() > 20 {
            return;
        }
        for p in self.desc.visible(t) {
            let property = self.desc.properties[p].clone();
            if property.collection || property.nullable || property.navigation {
                continue;
            }
            before.push(Seg::Name(property.name));
            match self.desc.kind_of(property.type_ref) {
                Some(COMPLEX) => self.key_paths(property.type_ref as usize, before, found),
                Some(ENUMERATION) => found.push(before.clone()),
                Some(_) => {
                    let code = self.desc.types[property.type_ref as usize].underlying;
                    found.extend(KEY_CODES.contains(&code).then(|| before.clone()));
                }
                None => {
                    let code = property.type_ref - 64;
                    found.extend(KEY_CODES.contains(&code).then(|| before.clone()));
                }
            }
            before.pop();
        }
    }

    fn children(&mut self) {
        let entities = self.desc.of_kind(ENTITY);
        for _ in 0..self.shape.children {
            let Some(&t) = self.r.pick(&entities) else {
                return;
            };
            let name = self.fresh(|desc, name| desc.children.iter().any(|c| c.name == name));
            let singleton = !self.desc.has_key(t) || self.r.chance(40);
            self.desc.children.push(ChildDesc {
                singleton,
                nullable: singleton && self.r.chance(30),
                type_number: t,
                name,
            });
        }
    }

    fn bindings(&mut self) {
        if self.desc.children.is_empty() {
            return;
        }
        for _ in 0..self.shape.bindings {
            for _ in 0..6 {
                let child = self.r.below(self.desc.children.len());
                if let Some(path) = self.binding_path(self.desc.children[child].type_number) {
                    if self.add_binding(child, path) {
                        break;
                    }
                }
            }
        }
    }

    /// Casts, complex and containment steps, then a plain navigation, then casts.
    fn binding_path(&mut self, start: usize) -> Option<Path> {
        let longest = self.r.range(1, self.shape.longest_path);
        let casts = if self.r.coin() { 30 } else { 5 };
        let mut path = Vec::new();
        let mut t = start;
        while path.len() < longest {
            if path.len() + 1 < longest && self.r.chance(casts) {
                t = self.push_cast(&mut path, t);
                continue;
            }
            let visible = self.desc.visible(t);
            let last = path.len() + 1 == longest || self.r.chance(15);
            let p = self.pick_property(&visible, |desc, p| {
                let plain = p.navigation && !p.contains;
                if last {
                    plain
                } else {
                    p.contains || desc.kind_of(p.type_ref) == Some(COMPLEX)
                }
            });
            let Some(p) = p else {
                if last {
                    return None;
                }
                continue;
            };
            let property = &self.desc.properties[p];
            path.push(Seg::Name(property.name.clone()));
            t = property.type_ref as usize;
            if last {
                while path.len() < longest && self.r.chance(30) {
                    t = self.push_cast(&mut path, t);
                }
                return Some(path);
            }
        }
        None
    }

    /// A cast to the type itself or one below it.
    fn push_cast(&mut self, path: &mut Path, t: usize) -> usize {
        let below = self.desc.below(t);
        let target = below[self.r.below(below.len())];
        path.push(Seg::Cast(target));
        target
    }

    fn pick_property(
        &mut self,
        from: &[usize],
        fits: impl Fn(&ModelDesc, &PropertyDesc) -> bool,
    ) -> Option<usize> {
        let fitting: Vec<usize> = from
            .iter()
            .copied()
            .filter(|&p| fits(&self.desc, &self.desc.properties[p]))
            .collect();
        self.r.pick(&fitting).copied()
    }

    fn add_binding(&mut self, child: usize, path: Path) -> bool {
        let desc = &self.desc;
        let repeated = desc
            .bindings
            .iter()
            .any(|b| b.child == child && b.path == path);
        if repeated {
            return false;
        }
        let start = desc.children[child].type_number as u32;
        let end = desc.follow(start, &path).0 as usize;
        let target = self.r.below(self.desc.children.len());
        let mut target_path = Vec::new();
        let mut target_end = self.desc.children[target].type_number;
        if self.desc.children[target].singleton && self.r.chance(60) {
            target_path = self.target_path(target_end).unwrap_or_default();
            target_end = self.desc.follow(target_end as u32, &target_path).0 as usize;
        }
        let related = self.desc.at(end, target_end) || self.desc.at(target_end, end);
        if related {
            self.desc.bindings.push(BindingDesc {
                child,
                path,
                target,
                target_path,
            });
        }
        related
    }

    /// Single complex or containment steps, then any containment.
    fn target_path(&mut self, start: usize) -> Option<Path> {
        let longest = self.r.range(1, self.shape.longest_path.min(6));
        let mut path = Vec::new();
        let mut t = start;
        while path.len() < longest {
            let last = path.len() + 1 == longest || self.r.coin();
            let visible = self.desc.visible(t);
            let p = self.pick_property(&visible, |desc, p| {
                let complex = desc.kind_of(p.type_ref) == Some(COMPLEX);
                if last {
                    p.contains
                } else {
                    !p.collection && (p.contains || complex)
                }
            })?;
            let property = &self.desc.properties[p];
            path.push(Seg::Name(property.name.clone()));
            t = property.type_ref as usize;
            if last {
                return Some(path);
            }
        }
        None
    }

    fn partners(&mut self) {
        let navigations: Vec<usize> = (0..self.desc.properties.len())
            .filter(|&p| {
                let property = &self.desc.properties[p];
                property.navigation && self.desc.types[property.owner].kind == ENTITY
            })
            .collect();
        for &p in &navigations {
            for _ in 0..6 {
                if let Some((path, q)) = self.partner_path(p) {
                    if self.may_partner(p, q) {
                        self.desc.properties[p].partner = path;
                        break;
                    }
                }
            }
        }
    }

    /// Casts and complex steps to a navigation property.
    fn partner_path(&mut self, p: usize) -> Option<(Path, usize)> {
        let longest = self.r.range(1, self.shape.longest_path.min(8));
        let mut path = Vec::new();
        let mut t = self.desc.properties[p].type_ref as usize;
        while path.len() < longest {
            if path.len() + 1 < longest && self.r.chance(20) {
                t = self.push_cast(&mut path, t);
                continue;
            }
            let visible = self.desc.visible(t);
            let q = self.pick_property(&visible, |desc, q| {
                q.navigation || desc.kind_of(q.type_ref) == Some(COMPLEX)
            })?;
            let property = &self.desc.properties[q];
            path.push(Seg::Name(property.name.clone()));
            if property.navigation {
                return Some((path, q));
            }
            t = property.type_ref as usize;
        }
        None
    }

    fn may_partner(&self, p: usize, q: usize) -> bool {
        let desc = &self.desc;
        let (this, partner) = (&desc.properties[p], &desc.properties[q]);
        let one_hierarchy = desc.top(this.owner) == desc.top(this.type_ref as usize);
        let partner_elsewhere = desc.partner(q).is_some_and(|back| back != p);
        let wanted_elsewhere =
            (0..desc.properties.len()).any(|s| s != q && desc.partner(s) == Some(p));
        let second = partner.contains
            && (0..desc.properties.len()).any(|s| {
                let other = desc.properties[s].owner;
                let one_chain = desc.at(other, this.owner) || desc.at(this.owner, other);
                let contained = desc.partner(s).is_some_and(|x| desc.properties[x].contains);
                s != p && one_chain && contained
            });
        desc.at(this.owner, partner.type_ref as usize)
            && !partner_elsewhere
            && !wanted_elsewhere
            && !second
            && (!this.contains || partner.nullable == one_hierarchy)
    }

    fn constraints(&mut self) {
        let singles: Vec<usize> = (0..self.desc.properties.len())
            .filter(|&p| {
                let property = &self.desc.properties[p];
                property.navigation && !property.collection
            })
            .collect();
        for _ in 0..self.shape.constraints {
            if let Some(&property) = self.r.pick(&singles) {
                for _ in 0..4 {
                    if self.add_constraint(property) {
                        break;
                    }
                }
            }
        }
    }

    /// Single complex steps to a structural property.
    fn structural_path(&mut self, start: usize) -> Option<(Path, usize)> {
        let longest = self.r.range(1, self.shape.longest_path.min(6));
        let mut path = Vec::new();
        let mut t = start;
        loop {
            let visible = self.desc.visible(t);
            let p = self.pick_property(&visible, |_, p| !p.navigation)?;
            let property = &self.desc.properties[p];
            path.push(Seg::Name(property.name.clone()));
            let goes_on = !property.collection
                && self.desc.kind_of(property.type_ref) == Some(COMPLEX)
                && path.len() < longest;
            t = property.type_ref as usize;
            if !goes_on || self.r.chance(20) {
                return Some((path, p));
            }
        }
    }

    fn add_constraint(&mut self, property: usize) -> bool {
        let navigation = self.desc.properties[property].clone();
        let Some((principal, q)) = self.structural_path(navigation.type_ref as usize) else {
            return false;
        };
        let end = self.desc.properties[q].clone();
        let nullable = navigation.nullable || end.nullable;
        let dependent = self
            .find_dependent(navigation.owner, &end, nullable)
            .or_else(|| self.add_dependent(navigation.owner, &end, nullable));
        let Some(dependent) = dependent else {
            return false;
        };
        self.desc.constraints.push(ConstraintDesc {
            property,
            dependent,
            principal,
        });
        true
    }

    fn find_dependent(&mut self, t: usize, end: &PropertyDesc, nullable: bool) -> Option<Path> {
        for _ in 0..4 {
            let (path, p) = self.structural_path(t)?;
            let dependent = &self.desc.properties[p];
            let complex =
                |p: &PropertyDesc| !p.collection && self.desc.kind_of(p.type_ref) == Some(COMPLEX);
            let same = dependent.type_ref == end.type_ref && dependent.collection == end.collection;
            if dependent.nullable == nullable && (same || complex(dependent) && complex(end)) {
                return Some(path);
            }
        }
        None
    }

    fn add_dependent(&mut self, t: usize, end: &PropertyDesc, nullable: bool) -> Option<Path> {
        let step = !end.collection && self.desc.kind_of(end.type_ref) == Some(COMPLEX);
        if step && !nullable && !self.may_require(t, end.type_ref as usize) {
            return None;
        }
        let taken_alias = |desc: &ModelDesc, name: &[u8]| desc.keys.iter().any(|k| k.alias == name);
        let p = self.push_property(t, end.type_ref);
        while taken_alias(&self.desc, &self.desc.properties[p].name) {
            self.desc.properties[p].name = Vec::new();
            self.desc.properties[p].name = self.property_name(t);
        }
        let property = &mut self.desc.properties[p];
        property.collection = end.collection;
        property.nullable = nullable;
        Some(vec![Seg::Name(property.name.clone())])
    }
}

/// Puts the records of every table in another order.
pub fn shuffle(desc: &mut ModelDesc, r: &mut Random) {
    let schemas = permute(&mut desc.schemas, r);
    let types = permute(&mut desc.types, r);
    let properties = permute(&mut desc.properties, r);
    let children = permute(&mut desc.children, r);
    permute(&mut desc.keys, r);
    permute(&mut desc.constraints, r);
    permute(&mut desc.bindings, r);
    for t in &mut desc.types {
        t.schema = schemas[t.schema];
        t.base = t.base.map(|base| types[base]);
    }
    for p in &mut desc.properties {
        p.owner = types[p.owner];
        if p.type_ref < 64 {
            p.type_ref = types[p.type_ref as usize] as u32;
        }
        renumber(&mut p.partner, &types);
    }
    for k in &mut desc.keys {
        k.owner = types[k.owner];
        renumber(&mut k.path, &types);
    }
    for c in &mut desc.constraints {
        c.property = properties[c.property];
        renumber(&mut c.dependent, &types);
        renumber(&mut c.principal, &types);
    }
    for c in &mut desc.children {
        c.type_number = types[c.type_number];
    }
    for b in &mut desc.bindings {
        b.child = children[b.child];
        b.target = children[b.target];
        renumber(&mut b.path, &types);
        renumber(&mut b.target_path, &types);
    }
}

fn renumber(path: &mut Path, types: &[usize]) {
    for seg in path {
        if let Seg::Cast(t) = seg {
            *t = types[*t];
        }
    }
}

/// Shuffles a table; the answer gives each old number's new one.
fn permute<T>(table: &mut Vec<T>, r: &mut Random) -> Vec<usize> {
    let new_numbers = r.order(table.len());
    let mut pairs: Vec<(usize, T)> = new_numbers.iter().copied().zip(table.drain(..)).collect();
    pairs.sort_by_key(|pair| pair.0);
    table.extend(pairs.into_iter().map(|pair| pair.1));
    new_numbers
}
