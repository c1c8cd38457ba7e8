//! Damage to tables of fields and to packed bytes.

use super::random::Random;
use super::raw::Raw;

/// What is known of the answer to a damaged case.
#[derive(Debug, Clone, Copy, PartialEq, Eq)]
pub enum Aim {
    /// The rule aimed at, at this place.
    Place(u32),
    /// The rule aimed at, somewhere.
    Rule,
    /// Likely the rule aimed at.
    Maybe,
}

const MODEL_LIMITS: [usize; 9] = [16, 64, 512, 128, 64, 64, 128, 1024, 4096];

/// The field of spare bits of each model table.
const SPARE: [Option<usize>; 8] = [
    None,
    Some(9),
    Some(10),
    Some(5),
    Some(5),
    Some(5),
    Some(6),
    Some(1),
];

/// Table, field of the first segment, absent allowed; the count is next to it.
const PATHS: [(usize, usize, bool); 6] = [
    (2, 8, true),
    (3, 1, false),
    (4, 1, false),
    (4, 3, false),
    (6, 1, false),
    (6, 4, true),
];

/// A table that has records, weighted by nothing but chance.
fn any_table(r: &mut Random, raw: &Raw) -> Option<usize> {
    let filled: Vec<usize> = (0..raw.tables.len())
        .filter(|&t| !raw.tables[t].is_empty())
        .collect();
    r.pick(&filled).copied()
}

/// A record; not always the first of its table.
fn any_record(r: &mut Random, raw: &Raw) -> Option<(usize, usize)> {
    let table = any_table(r, raw)?;
    Some((table, r.below(raw.tables[table].len())))
}

/// Rule 3.
pub fn spare_bit(r: &mut Random, raw: &mut Raw) -> Option<Aim> {
    let (table, number) = any_record(r, raw)?;
    let field = SPARE[table]?;
    let width = raw.widths[table][field];
    raw.tables[table][number][field] = 1 << r.below(width as usize);
    Some(Aim::Place(raw.place(table, number)))
}

/// Rule 4.
pub fn bad_field(r: &mut Random, raw: &mut Raw) -> Option<Aim> {
    let (table, number) = any_record(r, raw)?;
    let done = match r.below(4) {
        0 => bad_number(r, raw, table, number),
        1 => bad_name_span(r, raw, table, number),
        2 => bad_path_span(r, raw, table, number),
        _ => bad_code(r, raw, table, number),
    };
    done.then(|| Aim::Place(raw.place(table, number)))
}

/// A number that is not below its count but fits its field.
fn bad_number(r: &mut Random, raw: &mut Raw, table: usize, number: usize) -> bool {
    let count = |t: usize| raw.tables[t].len() as u32;
    let cast = table == 7 && raw.tables[7][number][0] == 1;
    let choices: &[(usize, u32)] = match table {
        1 => &[(0, count(0)), (5, count(1) + 1)],
        2 => &[(0, count(1)), (5, count(1))],
        3 => &[(0, count(1))],
        4 => &[(0, count(2))],
        5 => &[(2, count(1))],
        6 => &[(0, count(5)), (3, count(5))],
        7 if cast => &[(3, count(1)), (2, 1)],
        _ => return false,
    };
    let (field, least) = choices[r.below(choices.len())];
    let width = raw.widths[table][field];
    let most = if table == 2 && field == 5 {
        64
    } else {
        (1u32 << width) - 1
    };
    if least > most {
        return false;
    }
    let value = if r.coin() {
        least
    } else {
        r.range(least as usize, most as usize) as u32
    };
    raw.tables[table][number][field] = value;
    true
}

/// Name fields of a table: start, and whether it may be absent.
fn name_fields(raw: &Raw, table: usize, number: usize) -> &'static [(usize, bool)] {
    match table {
        0 => &[(0, false), (2, true)],
        1 => &[(7, false)],
        2 => &[(6, false)],
        3 => &[(3, true)],
        5 => &[(3, false)],
        7 if raw.tables[7][number][0] == 0 => &[(2, false)],
        _ => &[],
    }
}

fn bad_name_span(r: &mut Random, raw: &mut Raw, table: usize, number: usize) -> bool {
    let size = raw.names.as_ref().map_or(0, Vec::len);
    let fields = name_fields(raw, table, number);
    let Some(&(start, optional)) = r.pick(fields) else {
        return false;
    };
    bad_span(
        r,
        &mut raw.tables[table][number],
        start,
        size,
        4096,
        256,
        optional,
    )
}

fn bad_path_span(r: &mut Random, raw: &mut Raw, table: usize, number: usize) -> bool {
    let size = raw.tables[7].len();
    let fields: Vec<(usize, bool)> = PATHS
        .iter()
        .filter(|path| path.0 == table)
        .map(|path| (path.1, path.2))
        .collect();
    let Some(&(first, optional)) = r.pick(&fields) else {
        return false;
    };
    bad_span(
        r,
        &mut raw.tables[table][number],
        first,
        size,
        2048,
        16,
        optional,
    )
}

/// Past its table by one or by much, absent but not at 0, or absent.
pub fn bad_span(
    r: &mut Random,
    record: &mut [u32],
    field: usize,
    size: usize,
    starts: usize,
    counts: usize,
    optional: bool,
) -> bool {
    match r.below(3) {
        0 if !optional => record[field + 1] = 0,
        1 => {
            record[field] = r.range(1, starts - 1) as u32;
            record[field + 1] = 0;
        }
        _ => {
            let count = r.range(1, counts - 1);
            let least = (size + 1).saturating_sub(count);
            if least >= starts {
                return false;
            }
            record[field + 1] = count as u32;
            let just = r.coin();
            record[field] = if just {
                least
            } else {
                r.range(least, starts - 1)
            } as u32;
        }
    }
    true
}

/// A kind, underlying code or type reference without meaning.
fn bad_code(r: &mut Random, raw: &mut Raw, table: usize, number: usize) -> bool {
    let record = &mut raw.tables[table][number];
    match (table, r.coin()) {
        (1, true) => record[1] = r.range(4, 7) as u32,
        (1, false) => record[6] = r.range(18, 31) as u32,
        (2, true) => record[5] = 64,
        (2, false) => record[5] = r.range(82, 255) as u32,
        _ => return false,
    }
    true
}

/// Rule 13.
pub fn segment_use(r: &mut Random, raw: &mut Raw) -> Option<Aim> {
    match r.below(4) {
        0 => unused_segment(r, raw),
        1 => shorter_path(r, raw),
        2 => absent_path(r, raw),
        _ => shared_path(r, raw),
    }
}

fn unused_segment(r: &mut Random, raw: &mut Raw) -> Option<Aim> {
    let model = raw.tables[7].clone();
    let copy = r.pick(&model)?.clone();
    raw.tables[7].push(copy);
    Some(Aim::Place(raw.place(7, model.len())))
}

fn any_path(r: &mut Random, raw: &Raw) -> Option<(usize, usize, usize, bool)> {
    let (table, field, optional) = PATHS[r.below(PATHS.len())];
    let present: Vec<usize> = (0..raw.tables[table].len())
        .filter(|&i| raw.tables[table][i][field + 1] > 0)
        .collect();
    let &number = r.pick(&present)?;
    Some((table, number, field, optional))
}

fn shorter_path(r: &mut Random, raw: &mut Raw) -> Option<Aim> {
    let (table, number, field, _) = any_path(r, raw)?;
    let record = &mut raw.tables[table][number];
    if record[field + 1] < 2 {
        return None;
    }
    record[field + 1] -= 1;
    let left_out = record[field] + record[field + 1];
    Some(Aim::Place(raw.place(7, left_out as usize)))
}

fn absent_path(r: &mut Random, raw: &mut Raw) -> Option<Aim> {
    let (table, number, field, optional) = any_path(r, raw)?;
    if !optional {
        return None;
    }
    let record = &mut raw.tables[table][number];
    let first = record[field];
    record[field] = 0;
    record[field + 1] = 0;
    // Without its partner path a property is sound in the rules before 13.
    Some(Aim::Place(raw.place(7, first as usize)))
}

fn shared_path(r: &mut Random, raw: &mut Raw) -> Option<Aim> {
    let (table, number, field, _) = any_path(r, raw)?;
    let (other, other_number, other_field, _) = any_path(r, raw)?;
    if (table, number, field) == (other, other_number, other_field) {
        return None;
    }
    for i in 0..2 {
        let value = raw.tables[other][other_number][other_field + i];
        raw.tables[table][number][field + i] = value;
    }
    Some(Aim::Rule)
}

/// Rule 21.
pub fn bad_instance_field(
    r: &mut Random,
    raw: &mut Raw,
    types: usize,
    properties: usize,
) -> Option<Aim> {
    let slots = raw.tables[1].len();
    let items = raw.tables[2].len();
    let table = r.below(3);
    if table == 2 || raw.tables[table].is_empty() {
        return unheld_record(r, raw);
    }
    let number = r.below(raw.tables[table].len());
    let record = &mut raw.tables[table][number];
    let done = match (table, r.below(6)) {
        (0, 0) => set(&mut record[3], 1 << r.below(5)),
        (0, 1) if types < 64 => set(&mut record[0], r.range(types, 63) as u32),
        (0, _) => bad_span(r, record, 1, slots, 2048, 1024, true),
        (_, 0) => set(&mut record[4], 1 << r.below(5)),
        (_, 1) if properties < 512 => set(&mut record[0], r.range(properties, 511) as u32),
        (_, 2) => set(&mut record[1], 3),
        (_, 3) if record[1] < 2 => {
            let other_count = [1 - record[1], 2][r.below(2)];
            set(&mut record[3], other_count)
        }
        _ => bad_span(r, record, 2, items, 4096, 4096, true),
    };
    done.then(|| Aim::Place(raw.place(table, number)))
}

fn set(field: &mut u32, value: u32) -> bool {
    *field = value;
    true
}

/// A slot or item in no run, or in two.
fn unheld_record(r: &mut Random, raw: &mut Raw) -> Option<Aim> {
    let (holder, held, field) = [(0, 1, 1), (1, 2, 2)][r.below(2)];
    if r.coin() {
        let copy = r.pick(&raw.tables[held])?.clone();
        let count = raw.tables[held].len();
        raw.tables[held].push(copy);
        // A slot without a run may be faulty in its own items too.
        let sure = held == 2;
        let aim = if sure {
            Aim::Place(raw.place(2, count))
        } else {
            Aim::Rule
        };
        return Some(aim);
    }
    let long: Vec<usize> = (0..raw.tables[holder].len())
        .filter(|&i| raw.tables[holder][i][field + 1] > 1)
        .collect();
    let &number = r.pick(&long)?;
    let record = &mut raw.tables[holder][number];
    record[field + 1] -= 1;
    if r.coin() {
        record[field] += 1;
    }
    Some(Aim::Rule)
}

/// One field set to any value of its width.
pub fn change_field(r: &mut Random, raw: &mut Raw) -> Option<Aim> {
    let (table, number) = any_record(r, raw)?;
    let field = r.below(raw.widths[table].len());
    let width = raw.widths[table][field];
    let other = any_record(r, raw).filter(|o| o.0 == table);
    let value = match (other, r.below(3)) {
        (Some((_, donor)), 0) => raw.tables[table][donor][field],
        (_, 1) => (raw.tables[table][number][field] ^ 1) & ((1u64 << width) - 1) as u32,
        _ => (r.number() & ((1 << width) - 1)) as u32,
    };
    raw.tables[table][number][field] = value;
    Some(Aim::Maybe)
}

pub fn drop_record(r: &mut Random, raw: &mut Raw) -> Option<Aim> {
    let (table, number) = any_record(r, raw)?;
    raw.tables[table].remove(number);
    Some(Aim::Maybe)
}

pub fn duplicate_record(r: &mut Random, raw: &mut Raw) -> Option<Aim> {
    let (table, number) = any_record(r, raw)?;
    let copy = raw.tables[table][number].clone();
    let at = r.range(0, raw.tables[table].len());
    raw.tables[table].insert(at, copy);
    Some(Aim::Maybe)
}

pub fn swap_records(r: &mut Random, raw: &mut Raw) -> Option<Aim> {
    let (table, number) = any_record(r, raw)?;
    let other = r.below(raw.tables[table].len());
    raw.tables[table].swap(number, other);
    Some(Aim::Maybe)
}

/// Rule 1 or 20, by bytes: header, length or counts.
pub fn bad_bytes(r: &mut Random, bytes: &mut Vec<u8>, header: usize) -> Aim {
    match r.below(7) {
        0 => bytes.truncate(r.below(bytes.len())),
        1 => {
            let more = r.range(1, 9);
            bytes.extend(r.bytes(more));
        }
        2 => {
            let bit = r.below(16);
            bytes[bit / 8] ^= 1 << (bit % 8);
        }
        3 => bytes.truncate(r.range(0, header - 1)),
        4 => {
            // One count changed, the length kept.
            let at = 2 * r.range(1, header / 2 - 1) + 1;
            bytes[at] = bytes[at].wrapping_add(r.range(1, 255) as u8);
        }
        5 => {
            let count = r.range(0, header - 1);
            *bytes = r.bytes(count);
        }
        _ => {
            let keep = r.range(0, header - 1);
            bytes.truncate(keep);
            if keep > 0 {
                let at = r.below(keep);
                bytes[at] = r.number() as u8;
            }
        }
    }
    Aim::Place(0)
}

/// Rule 1: one record too many of a table, the length as it should be.
pub fn beyond_limit(r: &mut Random, raw: &mut Raw) -> Option<Aim> {
    let table = r.below(9);
    if table == 8 {
        let names = raw.names.as_mut()?;
        names.resize(MODEL_LIMITS[8] + 1, b'a');
        return Some(Aim::Place(0));
    }
    if table == 0 && r.coin() {
        raw.tables[0].clear();
        return Some(Aim::Place(0));
    }
    let copy = raw.tables[table].first()?.clone();
    raw.tables[table].resize(MODEL_LIMITS[table] + 1, copy);
    Some(Aim::Place(0))
}

/// Rule 20: one record too many.
pub fn beyond_instance_limit(r: &mut Random, raw: &mut Raw) -> Option<Aim> {
    let table = r.below(3);
    let copy = raw.tables[table].first()?.clone();
    raw.tables[table].resize([257, 1025, 2049][table], copy);
    Some(Aim::Place(0))
}

pub fn flip_bits(r: &mut Random, bytes: &mut [u8]) {
    for _ in 0..r.range(1, 2) {
        if !bytes.is_empty() {
            let at = r.below(bytes.len());
            bytes[at] ^= 1 << r.below(8);
        }
    }
}

/// Random bytes under a header that fits them, as far as limits allow.
pub fn random_under_header(r: &mut Random, header: &Raw) -> Vec<u8> {
    let mut bytes = header.to_bytes();
    let start = 2 * (1 + header.tables.len() + usize::from(header.names.is_some()));
    for byte in &mut bytes[start..] {
        if r.chance(30) {
            *byte = r.number() as u8;
        }
    }
    bytes
}
