//! The sheet: records as bytes, the reader and the writer of entries handed over.

use crate::refusal::Refusal;
use crate::shadow::GUARDS;

/// A record of a sheet: its kind and the numbers of its body in their order, 0 where a kind has fewer.
/// Seconds are stored plus 10,800.
#[derive(Clone, Copy, PartialEq, Eq, Debug)]
pub struct Record {
    pub kind: u32,
    pub fields: [u32; 4],
}

/// The numbers of an entry handed over or read: its kind and its fields.
pub const WORDS: usize = 5;

pub const HEAD: u32 = 0x01;
pub const ENTER_PENUMBRA: u32 = 0x10;
pub const LEAVE_PENUMBRA: u32 = 0x11;
pub const GRAZE_PENUMBRA: u32 = 0x12;
pub const OPEN_PENUMBRA: u32 = 0x13;
pub const ENTER_CENTRAL: u32 = 0x20;
pub const LEAVE_CENTRAL: u32 = 0x21;
pub const GRAZE_CENTRAL: u32 = 0x22;
pub const OPEN_CENTRAL: u32 = 0x23;
pub const ENTER_STAR: u32 = 0x40;
pub const LEAVE_STAR: u32 = 0x41;
pub const GRAZE_STAR: u32 = 0x42;
pub const OPEN_STAR: u32 = 0x43;
pub const CLOSEST: u32 = 0x30;
pub const SHARE: u32 = 0x31;
pub const END: u32 = 0x7F;

/// The bytes of each number in a kind's body, or nothing for a kind that is not in the table.
fn widths(kind: u32) -> Option<&'static [usize]> {
    match kind {
        HEAD => Some(&[2, 2, 2, 2]),
        ENTER_PENUMBRA | LEAVE_PENUMBRA | ENTER_CENTRAL | LEAVE_CENTRAL | ENTER_STAR | LEAVE_STAR => {
            Some(&[2, 2, 2])
        }
        GRAZE_PENUMBRA | OPEN_PENUMBRA | GRAZE_CENTRAL | OPEN_CENTRAL | GRAZE_STAR | OPEN_STAR => {
            Some(&[2, 2])
        }
        CLOSEST => Some(&[2, 4]),
        SHARE => Some(&[4]),
        END => Some(&[]),
        _ => None,
    }
}

/// What a record is for, in the order of a sheet; penumbra and central are an eclipse's, and star stands in their
/// place.
#[derive(Clone, Copy, PartialEq, Eq, PartialOrd, Ord, Debug)]
pub enum Family {
    Head,
    Penumbra,
    Central,
    Star,
    Closest,
    Share,
    End,
}

/// What a record says of a phase. Enter, leave, graze and open are words of document 01.
#[derive(Clone, Copy, PartialEq, Eq, Debug)]
pub enum Role {
    Enter,
    Leave,
    Graze,
    Open,
}

impl Record {
    pub fn new(kind: u32, fields: [u32; 4]) -> Record {
        Record { kind, fields }
    }

    /// Five numbers: kind, then fields.
    pub fn words(&self) -> [u32; WORDS] {
        let [a, b, c, d] = self.fields;
        [self.kind, a, b, c, d]
    }

    /// What is said of a phase, for the records of one.
    pub fn role(&self) -> Option<Role> {
        match self.family() {
            Family::Penumbra | Family::Central | Family::Star => match self.kind & 15 {
                0 => Some(Role::Enter),
                1 => Some(Role::Leave),
                2 => Some(Role::Graze),
                _ => Some(Role::Open),
            },
            _ => None,
        }
    }

    /// The family of a kind that is in the table.
    pub fn family(&self) -> Family {
        match self.kind {
            HEAD => Family::Head,
            ENTER_PENUMBRA..=OPEN_PENUMBRA => Family::Penumbra,
            ENTER_CENTRAL..=OPEN_CENTRAL => Family::Central,
            ENTER_STAR..=OPEN_STAR => Family::Star,
            CLOSEST => Family::Closest,
            SHARE => Family::Share,
            _ => Family::End,
        }
    }

    fn is_contact(&self) -> bool {
        matches!(self.role(), Some(Role::Enter | Role::Leave))
    }

    /// The bytes of a record whose kind is in the table and whose numbers fit.
    fn append_to(&self, bytes: &mut Vec<u8>) {
        bytes.push(self.kind as u8);
        for (field, &width) in self.fields.iter().zip(widths(self.kind).unwrap_or(&[])) {
            bytes.extend_from_slice(&field.to_be_bytes()[4 - width..]);
        }
    }

    /// Whether the record may stand behind these.
    fn in_order_after(&self, before: &[Record]) -> bool {
        let Some(previous) = before.last() else {
            return self.kind == HEAD;
        };
        let family = self.family();
        let due = match family {
            Family::Head => false,
            // The share may be left out, and stands nowhere else, and not in a star's sheet.
            Family::End => matches!(previous.family(), Family::Closest | Family::Share),
            Family::Share => previous.family() == Family::Closest && !has_star(before),
            Family::Closest => previous.family() < Family::Closest,
            // No star after an entry of an eclipse, and no such entry after a star.
            Family::Star => matches!(previous.family(), Family::Head | Family::Star),
            Family::Penumbra | Family::Central => previous.family() <= family,
        };
        if !due || self.role().is_none() {
            return due;
        }
        let after_previous = previous.family() != family || self.fields[0] >= previous.fields[1];
        let mut contacts =
            before.iter().rev().take_while(|r| r.family() == family).filter(|r| r.is_contact());
        let alternates = !self.is_contact() || contacts.next().is_none_or(|r| r.kind != self.kind);
        after_previous && alternates
    }

    /// Whether the record's numbers keep the reader's rules behind these records, the first of them the head.
    fn fields_good_after(&self, before: &[Record]) -> bool {
        let used = widths(self.kind).map_or(0, |w| w.len());
        let unused_are_zero = self.fields[used..].iter().all(|&field| field == 0);
        let [a, b, c, d] = self.fields;
        let Some(head) = before.first() else {
            let window = b <= c && c <= 21_600;
            return unused_are_zero && (1..=999).contains(&a) && window && GUARDS.contains(&d.into());
        };
        let [_, first, last, _] = head.fields;
        let in_window = |second: u32| first <= second && second <= last;
        let kept = match self.role() {
            Some(role) => {
                in_window(a)
                    && in_window(b)
                    && match role {
                        Role::Enter | Role::Leave => a < b && (c <= 3599 || c == 65_535),
                        Role::Graze => a < b,
                        Role::Open => a <= b && (a == first || b == last),
                    }
            }
            None if self.kind == CLOSEST => in_window(a) && b <= if has_star(before) { 0 } else { 1_300_000 },
            None if self.kind == SHARE => a <= 1_000_000,
            None => true,
        };
        unused_are_zero && kept
    }
}

/// Whether a star entry is among the records.
fn has_star(records: &[Record]) -> bool {
    records.iter().any(|record| record.family() == Family::Star)
}

/// The bytes of records that keep all rules.
pub fn bytes_of(records: &[Record]) -> Vec<u8> {
    let mut bytes = Vec::new();
    for record in records {
        record.append_to(&mut bytes);
    }
    bytes
}

/// The records of a well-formed sheet, or the first fault: in a record 5, 6, 8, 7; after the end 9.
pub fn records_of(sheet: &[u8]) -> Result<Vec<Record>, Refusal> {
    let mut records: Vec<Record> = Vec::new();
    let mut place = 0;
    while records.last().is_none_or(|r| r.kind != END) {
        let &kind = sheet.get(place).ok_or(Refusal::Cut(place))?;
        let widths = widths(kind.into()).ok_or(Refusal::Kind(place))?;
        let mut body = sheet[place + 1..].iter();
        if body.len() < widths.iter().sum() {
            return Err(Refusal::Cut(place));
        }
        let mut record = Record::new(kind.into(), [0; 4]);
        for (field, &width) in record.fields.iter_mut().zip(widths) {
            *field = body.by_ref().take(width).fold(0, |number, &byte| number << 8 | u32::from(byte));
        }
        if !record.in_order_after(&records) {
            return Err(Refusal::Order(place));
        }
        if !record.fields_good_after(&records) {
            return Err(Refusal::Field(place));
        }
        records.push(record);
        place = sheet.len() - body.len();
    }
    if place < sheet.len() {
        return Err(Refusal::After(place));
    }
    Ok(records)
}

/// Read a sheet into the caller's buffer, five numbers an entry: kind, then fields. Every record is an entry, head
/// and end too. The number of entries, or the sheet's first fault, or 4 with the number of entries where
/// the buffer holds fewer. After a refusal the buffer holds its old numbers.
pub fn read(sheet: &[u8], room: &mut [u32]) -> Result<usize, Refusal> {
    let records = records_of(sheet)?;
    if room.len() / WORDS < records.len() {
        return Err(Refusal::Room(records.len()));
    }
    for (entry, record) in room.chunks_exact_mut(WORDS).zip(&records) {
        entry.copy_from_slice(&record.words());
    }
    Ok(records.len())
}

/// Write entries handed over, five numbers each, as a sheet. The sheet's length; or the first fault, in an
/// entry 5, 8, 7, at the place its record has or would have; 6 where the list stops before its end entry or
/// inside an entry; 9 for anything after the end entry; last 4. After a refusal the buffer holds its old bytes.
pub fn write(entries: &[u32], buffer: &mut [u8]) -> Result<usize, Refusal> {
    let mut records: Vec<Record> = Vec::new();
    let mut bytes = Vec::new();
    for entry in entries.chunks(WORDS) {
        let place = bytes.len();
        if records.last().is_some_and(|r| r.kind == END) {
            return Err(Refusal::After(place));
        }
        let &[kind, a, b, c, d] = entry else {
            return Err(Refusal::Cut(place));
        };
        let record = Record::new(kind, [a, b, c, d]);
        if widths(kind).is_none() {
            return Err(Refusal::Kind(place));
        }
        if !record.in_order_after(&records) {
            return Err(Refusal::Order(place));
        }
        if !record.fields_good_after(&records) {
            return Err(Refusal::Field(place));
        }
        record.append_to(&mut bytes);
        records.push(record);
    }
    if records.last().is_none_or(|r| r.kind != END) {
        return Err(Refusal::Cut(bytes.len()));
    }
    copy_into(&bytes, buffer)
}

/// Copy a sheet to the start of a buffer, or 4 with the length it needs.
pub fn copy_into(sheet: &[u8], buffer: &mut [u8]) -> Result<usize, Refusal> {
    match buffer.get_mut(..sheet.len()) {
        None => Err(Refusal::Room(sheet.len())),
        Some(room) => {
            room.copy_from_slice(sheet);
            Ok(sheet.len())
        }
    }
}
