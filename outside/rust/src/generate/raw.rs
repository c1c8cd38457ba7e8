//! Images as tables of field values, before they are packed.

/// Field widths of the model's tables; the spare bits are a field of their own.
/// A cast's type number is split over the last two fields, of 12 and 8 bits.
pub const MODEL_WIDTHS: [&[u32]; 8] = [
    &[12, 8, 12, 8],
    &[4, 3, 1, 1, 1, 7, 5, 12, 8, 6],
    &[6, 1, 1, 1, 1, 8, 12, 8, 11, 4, 3],
    &[6, 11, 4, 12, 8, 7],
    &[9, 11, 4, 11, 4, 1],
    &[1, 1, 6, 12, 8, 4],
    &[6, 11, 4, 6, 11, 4, 6],
    &[1, 3, 12, 8],
];

/// Field widths of the instance's tables: node, slot, item.
pub const INSTANCE_WIDTHS: [&[u32]; 3] = [&[6, 11, 10, 5], &[9, 2, 12, 12, 5], &[8, 24]];

/// Field widths of the members' table; a value is split over two fields.
pub const MEMBERS_WIDTHS: [&[u32]; 1] = [&[6, 1, 12, 8, 32, 32, 5]];

pub type Record = Vec<u32>;

#[derive(Debug, Clone)]
pub struct Raw {
    pub version: u16,
    pub widths: &'static [&'static [u32]],
    pub tables: Vec<Vec<Record>>,
    /// The name bytes; an instance has none.
    pub names: Option<Vec<u8>>,
}

impl Raw {
    pub fn model() -> Raw {
        Raw {
            version: 0x0402,
            widths: &MODEL_WIDTHS,
            tables: vec![Vec::new(); 8],
            names: Some(Vec::new()),
        }
    }

    pub fn instance() -> Raw {
        Raw {
            version: 0x0402,
            widths: &INSTANCE_WIDTHS,
            tables: vec![Vec::new(); 3],
            names: None,
        }
    }

    pub fn members() -> Raw {
        Raw {
            version: 0x0402,
            widths: &MEMBERS_WIDTHS,
            tables: vec![Vec::new()],
            names: Some(Vec::new()),
        }
    }

    /// The place of a record.
    pub fn place(&self, table: usize, number: usize) -> u32 {
        let before: usize = self.tables[..table].iter().map(Vec::len).sum();
        (before + number) as u32
    }

    pub fn records(&self) -> usize {
        self.tables.iter().map(Vec::len).sum()
    }

    pub fn to_bytes(&self) -> Vec<u8> {
        let mut bytes = self.version.to_be_bytes().to_vec();
        let name_count = self.names.as_ref().map(Vec::len);
        for count in self.tables.iter().map(Vec::len).chain(name_count) {
            bytes.extend((count as u16).to_be_bytes());
        }
        for (table, widths) in self.tables.iter().zip(self.widths) {
            for record in table {
                pack(record, widths, &mut bytes);
            }
        }
        bytes.extend(self.names.iter().flatten());
        bytes
    }
}

/// Packs one record, most significant bit first.
fn pack(record: &[u32], widths: &[u32], bytes: &mut Vec<u8>) {
    assert_eq!(record.len(), widths.len());
    let mut value = 0u128;
    let mut bits = 0;
    for (&field, &width) in record.iter().zip(widths) {
        assert!(
            u64::from(field) < 1 << width,
            "field {field} in {width} bits"
        );
        value = value << width | u128::from(field);
        bits += width;
    }
    assert_eq!(bits % 8, 0);
    for i in (0..bits / 8).rev() {
        bytes.push((value >> (8 * i)) as u8);
    }
}
