//! The tapes that are measured. They are made by rule, the same each time.

use mysqlclient_sys::recording::{Event, Field, Recording};

const SHORT: u8 = 2;
const INTEGER: u8 = 3;
const DOUBLE: u8 = 5;
const BIG: u8 = 8;
const NUMERIC: u8 = 246;
const TEXT: u8 = 253;

/// The most rows of a tape.
const MOST: usize = 65_535;

/// The most bytes of an arena.
const WHOLE: usize = 65_536;

pub struct Workload {
    pub tape: Vec<u8>,
    pub columns: usize,
    pub rows: usize,
    pub arena: usize,
    /// Where each row begins in the tape, and how many bytes its fields have together.
    pub places: Vec<(usize, usize)>,
    /// Whether column 0 is an integer or numeric text, and is read too.
    pub is_read: bool,
}

fn held(bytes: impl Into<Vec<u8>>) -> Field {
    let bytes = bytes.into();
    Field::Bytes { bytes, lost: false }
}

fn text(seed: usize, length: usize) -> Field {
    held((0..length).map(|i| b'a' + ((seed + i) % 26) as u8).collect::<Vec<_>>())
}

fn integer(k: usize) -> Field {
    held((k as i32).to_le_bytes())
}

fn workload(codes: &[u8], rows: usize, arena: usize, row: impl Fn(usize) -> Vec<Field>) -> Workload {
    let recording = Recording {
        columns: codes.iter().map(|code| (*code, 0)).collect(),
        events: (0..rows).map(|k| Event::Row(row(k))).collect(),
    };
    let tape = recording.tape();
    let places = places(&recording);
    let is_read = matches!(codes[0], INTEGER | NUMERIC);
    Workload { tape, columns: codes.len(), rows, arena, places, is_read }
}

/// Where each row of a tape begins, and how many bytes its fields have together (docs/tape.md).
fn places(recording: &Recording) -> Vec<(usize, usize)> {
    let mut at = 4 + 5 * recording.columns.len();
    let mut places = Vec::new();
    for event in &recording.events {
        let Event::Row(fields) = event else { continue };
        let held: Vec<usize> = fields.iter().filter_map(|field| match field {
            Field::Null => None,
            Field::Bytes { bytes, .. } => Some(bytes.len()),
        }).collect();
        let bytes = held.iter().sum::<usize>();
        places.push((at, bytes));
        at += 1 + fields.len() + 4 * held.len() + bytes;
    }
    places
}

fn number(code: u8, k: usize) -> Field {
    match code {
        SHORT => held((k as i16).to_le_bytes()),
        INTEGER => integer(k),
        DOUBLE => held((k as f64).to_le_bytes()),
        _ => held((k as i64).to_le_bytes()),
    }
}

/// A null in every second place, shifted by one from row to row.
fn half_null(k: usize) -> Vec<Field> {
    let mut row = vec![integer(k), text(k, 12), number(BIG, k), text(k, 12)];
    row.iter_mut().skip(k % 2).step_by(2).for_each(|field| *field = Field::Null);
    row
}

/// Two texts, of which the first or the second is long by turns.
fn swapped(k: usize) -> Vec<Field> {
    let (first, second) = if k % 2 == 0 { (2_000, 1) } else { (1, 2_000) };
    vec![text(k, first), text(k, second)]
}

/// So many texts, each a byte longer in each row, from 2 bytes on.
fn longer(columns: usize) -> Workload {
    workload(&vec![TEXT; columns], 100, WHOLE, |k| (0..columns).map(|i| text(k + i, 2 + k)).collect())
}

/// So many texts of 8 bytes.
fn steady(columns: usize) -> Workload {
    workload(&vec![TEXT; columns], (256_000 / columns).min(MOST), WHOLE, |k| (0..columns).map(|i| text(k + i, 8)).collect())
}

/// One text of so many bytes.
fn one_text(bytes: usize) -> Workload {
    workload(&[TEXT], (4_194_304 / bytes).min(MOST), WHOLE, |k| vec![text(k, bytes)])
}

/// A row's time by one number: what that is called, the numbers, and the workload of each.
pub struct Series {
    pub name: &'static str,
    pub numbers: &'static [usize],
    pub make: fn(usize) -> Workload,
}

pub const SERIES: [Series; 3] = [
    Series { name: "columns", numbers: &[1, 2, 4, 8, 16, 32, 64], make: steady },
    Series { name: "columns-longer", numbers: &[1, 2, 4, 8, 16, 32, 64], make: longer },
    Series { name: "bytes", numbers: &[16, 64, 256, 1_024, 4_096, 16_384, 65_536], make: one_text },
];

/// What each workload is called, and how it is made.
pub const ALL: [(&str, fn() -> Workload); 13] = [
    ("class list", || workload(&[INTEGER, TEXT], MOST, WHOLE, |k| vec![integer(k), text(k, 4 + k % 9)])),
    ("numeric text", || workload(&[NUMERIC], MOST, WHOLE, |k| vec![held(format!("{k}.25"))])),
    ("16 numbers", || {
        let codes = [INTEGER, BIG, DOUBLE, SHORT].repeat(4);
        workload(&codes, 20_000, WHOLE, |k| codes.iter().map(|code| number(*code, k)).collect())
    }),
    ("60 bytes", || workload(&[TEXT], MOST, WHOLE, |k| vec![text(k, 60)])),
    ("64 texts of 8 bytes", || workload(&[TEXT; 64], 4_000, WHOLE, |k| (0..64).map(|i| text(k + i, 8)).collect())),
    ("nulls", || workload(&[INTEGER, TEXT, BIG, TEXT], MOST, WHOLE, half_null)),
    ("2,000 bytes", || workload(&[TEXT], 10_000, WHOLE, |k| vec![text(k, 2_000)])),
    ("steps", || workload(&[INTEGER, TEXT, TEXT], 4_000, WHOLE, |k| vec![integer(k), text(k, 1 + k / 4), text(k, 1 + k / 2)])),
    ("always longer", || workload(&[TEXT, TEXT], 2_000, WHOLE, |k| vec![text(k, 2 + k), text(k, 2 + k)])),
    ("64 texts longer", || longer(64)),
    ("swapped, with room", || workload(&[TEXT, TEXT], 10_000, WHOLE, swapped)),
    ("swapped, without", || workload(&[TEXT, TEXT], 10_000, 2_500, swapped)),
    ("one row", || workload(&[INTEGER, TEXT], 1, WHOLE, |k| vec![integer(k), text(k, 1)])),
];
