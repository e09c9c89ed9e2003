//! What the library hands out: the result of one statement, as a tape or a tray has it (docs/tape.md, docs/host.md).

use std::collections::VecDeque;

#[derive(Clone, Debug, PartialEq)]
pub enum Field {
    Null,
    Bytes { bytes: Vec<u8>, lost: bool },
}

#[derive(Clone, Debug, PartialEq)]
pub enum Event {
    Row(Vec<Field>),
    Failure(u32),
}

#[derive(Clone, Debug, Default, PartialEq)]
pub struct Recording {
    pub columns: Vec<(u8, u32)>,
    pub events: VecDeque<Event>,
}

impl Recording {
    /// The bytes of the tape of this result.
    pub fn tape(&self) -> Vec<u8> {
        let mut out = Vec::new();
        out.extend_from_slice(&(self.columns.len() as u16).to_le_bytes());
        out.extend_from_slice(&(self.events.len() as u16).to_le_bytes());
        for (code, flags) in &self.columns {
            out.push(*code);
            out.extend_from_slice(&flags.to_le_bytes());
        }
        for event in &self.events {
            write_event(event, &mut out);
        }
        out
    }

    /// The result that these bytes are the tape of, as far as their layout tells; sizes, marks and numbers are not looked at.
    pub fn from_tape(bytes: &[u8]) -> Option<Self> {
        let mut at = Reader { rest: bytes };
        let columns = at.number(2)?;
        let events = at.number(2)?;
        let mut recording = Self::default();
        for _ in 0..columns {
            recording.columns.push((at.number(1)? as u8, at.number(4)?));
        }
        for _ in 0..events {
            recording.events.push_back(at.event(recording.columns.len())?);
        }
        at.rest.is_empty().then_some(recording)
    }

    /// The tray of so many rows.
    pub fn tray(rows: usize) -> Self {
        let row = |k: usize| match k % 5 {
            3 => Field::Null,
            _ => Field::Bytes {
                bytes: (0..37 * k % 200).map(|j| (k + j) as u8).collect(),
                lost: false,
            },
        };
        Self {
            columns: vec![(253, 0)],
            events: (1..=rows).map(|k| Event::Row(vec![row(k)])).collect(),
        }
    }
}

fn write_event(event: &Event, out: &mut Vec<u8>) {
    match event {
        Event::Failure(number) => {
            out.push(1);
            out.extend_from_slice(&(*number as u16).to_le_bytes());
        }
        Event::Row(fields) => {
            out.push(0);
            for field in fields {
                match field {
                    Field::Null => out.push(0),
                    Field::Bytes { bytes, lost } => {
                        out.push(1 + u8::from(*lost));
                        out.extend_from_slice(&(bytes.len() as u32).to_le_bytes());
                        out.extend_from_slice(bytes);
                    }
                }
            }
        }
    }
}

struct Reader<'a> {
    rest: &'a [u8],
}

impl Reader<'_> {
    fn take(&mut self, count: usize) -> Option<&[u8]> {
        let (taken, rest) = self.rest.split_at_checked(count)?;
        self.rest = rest;
        Some(taken)
    }

    fn number(&mut self, width: usize) -> Option<u32> {
        let taken = self.take(width)?;
        Some(taken.iter().rev().fold(0, |sum, byte| sum << 8 | u32::from(*byte)))
    }

    fn event(&mut self, columns: usize) -> Option<Event> {
        match self.number(1)? {
            0 => (0..columns).map(|_| self.field()).collect::<Option<Vec<_>>>().map(Event::Row),
            1 => Some(Event::Failure(self.number(2)?)),
            _ => None,
        }
    }

    fn field(&mut self) -> Option<Field> {
        let mark = self.number(1)?;
        match mark {
            0 => Some(Field::Null),
            1 | 2 => {
                let count = self.number(4)? as usize;
                let bytes = self.take(count)?.to_vec();
                Some(Field::Bytes { bytes, lost: mark == 2 })
            }
            _ => None,
        }
    }
}
