//! The name of a record, as a part of the lent image.

use super::model::{Step, Table};
use super::model_rules::well_formed;

/// Empty if a rule of 1, 3, 4, 5 is broken, past the end, or without a name.
pub fn name_of_record(image: &[u8], place: u32) -> &[u8] {
    let Ok(m) = well_formed(image, None) else {
        return &image[..0];
    };
    let name = match m.record_at(place) {
        Some((Table::Schema, i)) => m.schemas[i].namespace,
        Some((Table::Type, i)) => m.types[i].name,
        Some((Table::Property, i)) => m.properties[i].name,
        Some((Table::Key, i)) => m.keys[i].alias,
        Some((Table::Child, i)) => m.children[i].name,
        Some((Table::Segment, i)) => match m.segments[i].step {
            Step::Name(name) => name,
            Step::Cast(t) => m.types[t].name,
        },
        Some((Table::Constraint | Table::Binding, _)) | None => return &image[..0],
    };
    m.name(name)
}
