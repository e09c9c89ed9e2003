//! A statement over a recorded result.

use crate::guard;
use crate::names::*;
use crate::recording::{Event, Field, Recording};
use std::cell::RefCell;
use std::ffi::{c_char, c_int, c_uint, c_ulong, CString};
use std::ptr;

const COMMANDS_OUT_OF_ORDER: c_uint = 2014;
const INVALID_PARAMETER: c_uint = 2034;
const UNSUPPORTED_TYPE: c_uint = 2036;
const NO_DATA: c_uint = 2051;

/// How the library uses what the rules leave free to it, and, for witnesses, where it departs from them.
#[derive(Clone, Copy, Debug, Default)]
pub struct Habits {
    /// The length that is reported of a null; without one the length is left.
    pub null_length: Option<u64>,
    /// What is written into the rest of a place, after the bytes; without it the rest is left.
    pub rest: Option<u8>,
    /// Whether a failure writes over all places and reports.
    pub wild_failures: bool,
    /// Departs from the rules: a failure has a number and no text.
    pub silent_failures: bool,
    /// Departs from the rules: a column fetch writes no more than so many bytes.
    pub short_columns: Option<usize>,
    /// Departs from the rules: a column fetch is refused with this number.
    pub failing_columns: Option<u32>,
    /// Departs from the rules, as MariaDB's library does: a null leaves the truncation mark.
    pub null_keeps_mark: bool,
    /// Departs from the rules: the length that is reported of every fixed field.
    pub fixed_length: Option<u64>,
}

/// What happened to the caller's memory.
#[derive(Clone, Debug, Default, PartialEq)]
pub struct Writes {
    /// How many bytes went into buffers that are alive.
    pub alive: usize,
    /// The lengths of the writes that would have gone into memory that was given back, in order.
    pub dead: Vec<usize>,
}

thread_local! {
    static NEXT: RefCell<Option<(Recording, Habits)>> = const { RefCell::new(None) };
    static WRITES: RefCell<Writes> = const { RefCell::new(Writes { alive: 0, dead: Vec::new() }) };
    static CAPACITIES: RefCell<Vec<(u32, usize)>> = const { RefCell::new(Vec::new()) };
}

/// What the next statement that is prepared will have as its result.
pub fn hand_in(recording: Recording, habits: Habits) {
    NEXT.set(Some((recording, habits)));
    WRITES.take();
}

/// What was written since the last result was handed in.
pub fn writes() -> Writes {
    WRITES.with_borrow(Clone::clone)
}

/// The code and the capacity of each place, as they were last bound.
pub fn bound() -> Vec<(u32, usize)> {
    CAPACITIES.with_borrow(Clone::clone)
}

pub struct MYSQL_STMT {
    recording: Recording,
    habits: Habits,
    binds: Option<Vec<MYSQL_BIND>>,
    current: Option<Vec<Field>>,
    number: c_uint,
    text: CString,
}

impl MYSQL_STMT {
    fn answer(&mut self, number: c_uint) -> bool {
        self.number = number;
        let text = match number {
            0 => String::new(),
            _ if self.habits.silent_failures => String::new(),
            _ => format!("error {number}"),
        };
        self.text = CString::new(text).unwrap();
        number != 0
    }

    unsafe fn bind(&mut self, records: *mut MYSQL_BIND) -> bool {
        let count = self.recording.columns.len();
        let records = unsafe { std::slice::from_raw_parts(records, count) }.to_vec();
        let mut codes = self.recording.columns.iter().zip(&records);
        if codes.any(|((code, _), record)| record.buffer_type.0 != u32::from(*code)) {
            return self.answer(UNSUPPORTED_TYPE);
        }
        let capacity = |r: &MYSQL_BIND| (r.buffer_type.0, r.buffer_length as usize);
        CAPACITIES.set(records.iter().map(capacity).collect());
        self.binds = Some(records);
        self.answer(0)
    }

    unsafe fn fetch(&mut self) -> c_int {
        let Some(binds) = self.binds.clone() else {
            self.answer(INVALID_PARAMETER);
            return 1;
        };
        self.current = None;
        match self.recording.events.pop_front() {
            None => {
                self.answer(0);
                MYSQL_NO_DATA as c_int
            }
            Some(Event::Failure(number)) => {
                if self.habits.wild_failures {
                    binds.iter().for_each(|bind| unsafe { scribble(bind) });
                }
                self.answer(number);
                1
            }
            Some(Event::Row(fields)) => {
                let mut truncated = false;
                for (field, bind) in fields.iter().zip(&binds) {
                    truncated |= unsafe { give(field, bind, 0, usize::MAX, &self.habits) };
                }
                self.current = Some(fields);
                self.answer(0);
                if truncated { MYSQL_DATA_TRUNCATED as c_int } else { 0 }
            }
        }
    }

    unsafe fn fetch_column(&mut self, bind: &MYSQL_BIND, column: usize, offset: usize) -> bool {
        if let Some(number) = self.habits.failing_columns {
            return self.answer(number);
        }
        let Some(fields) = &self.current else {
            return self.answer(NO_DATA);
        };
        match fields.get(column) {
            Some(field) if self.binds.is_some() => {
                let most = self.habits.short_columns.unwrap_or(usize::MAX);
                unsafe { give(field, bind, offset, most, &self.habits) };
                self.answer(0)
            }
            _ => self.answer(INVALID_PARAMETER),
        }
    }
}

/// Gives a field from an offset on to where a record says, at most so many bytes, and says whether it is truncated.
unsafe fn give(field: &Field, bind: &MYSQL_BIND, offset: usize, most: usize, habits: &Habits) -> bool {
    let (null, length, truncated) = match field {
        Field::Null => (true, habits.null_length, false),
        Field::Bytes { bytes, lost } => {
            let left = &bytes[offset.min(bytes.len())..];
            let room = bind.buffer_length as usize;
            let count = left.len().min(room).min(most);
            unsafe { write(bind.buffer.cast(), &left[..count]) };
            if let (Some(byte), usize::MAX) = (habits.rest, most) {
                unsafe { write(bind.buffer.cast::<u8>().wrapping_add(count), &vec![byte; room - count]) };
            }
            let length = match habits.fixed_length {
                Some(length) if fixed(bind.buffer_type) => length,
                _ => bytes.len() as u64,
            };
            (false, Some(length), left.len() > room || *lost)
        }
    };
    unsafe {
        report(bind.is_null, null);
        if !(null && habits.null_keeps_mark) {
            report(bind.error, truncated);
        }
        if let Some(length) = length {
            report(bind.length, length);
        }
    }
    truncated
}

/// Whether values of a code have one size.
fn fixed(code: enum_field_types) -> bool {
    matches!(code.0, 1..=5 | 7..=13)
}

unsafe fn scribble(bind: &MYSQL_BIND) {
    unsafe {
        write(bind.buffer.cast(), &vec![0xEE; bind.buffer_length as usize]);
        report(bind.is_null, false);
        report(bind.error, true);
        report(bind.length, 0xEEEE_EEEE);
    }
}

/// Writes bytes where they belong, if that memory is alive.
unsafe fn write(at: *mut u8, bytes: &[u8]) {
    if bytes.is_empty() {
        return;
    }
    let alive = guard::is_alive(at, bytes.len());
    WRITES.with_borrow_mut(|writes| match alive {
        true => writes.alive += bytes.len(),
        false => writes.dead.push(bytes.len()),
    });
    if alive {
        unsafe { ptr::copy_nonoverlapping(bytes.as_ptr(), at, bytes.len()) };
    }
}

unsafe fn report<T>(at: *mut T, value: T) {
    assert!(!at.is_null() && guard::is_alive(at.cast(), size_of::<T>()));
    unsafe { at.write(value) };
}

pub unsafe fn mysql_stmt_init(_: *mut MYSQL) -> *mut MYSQL_STMT {
    let (recording, habits) = NEXT.take().expect("a result was handed in");
    Box::into_raw(Box::new(MYSQL_STMT {
        recording,
        habits,
        binds: None,
        current: None,
        number: 0,
        text: CString::default(),
    }))
}

pub unsafe fn mysql_stmt_prepare(_: *mut MYSQL_STMT, _: *const c_char, _: c_ulong) -> c_int {
    0
}

pub unsafe fn mysql_stmt_bind_param(statement: *mut MYSQL_STMT, _: *mut MYSQL_BIND) -> my_bool {
    unsafe { (*statement).answer(COMMANDS_OUT_OF_ORDER) }
}

pub unsafe fn mysql_stmt_result_metadata(statement: *mut MYSQL_STMT) -> *mut MYSQL_RES {
    let columns = unsafe { &(*statement).recording.columns };
    let field = |(code, flags): &(u8, u32)| MYSQL_FIELD {
        name: ptr::null_mut(),
        other_names: [ptr::null_mut(); 6],
        lengths: [0; 2],
        name_lengths: [0; 7],
        flags: *flags,
        decimals: 0,
        charsetnr: 0,
        type_: enum_field_types(u32::from(*code)),
        extension: ptr::null_mut(),
    };
    Box::into_raw(Box::new(MYSQL_RES {
        fields: columns.iter().map(field).collect(),
    }))
}

pub unsafe fn mysql_num_fields(result: *mut MYSQL_RES) -> c_uint {
    unsafe { (*result).fields.len() as c_uint }
}

pub unsafe fn mysql_fetch_fields(result: *mut MYSQL_RES) -> *mut MYSQL_FIELD {
    unsafe { (*result).fields.as_mut_ptr() }
}

pub unsafe fn mysql_free_result(result: *mut MYSQL_RES) {
    drop(unsafe { Box::from_raw(result) });
}

pub unsafe fn mysql_stmt_bind_result(statement: *mut MYSQL_STMT, records: *mut MYSQL_BIND) -> my_bool {
    unsafe { (*statement).bind(records) }
}

pub unsafe fn mysql_stmt_execute(_: *mut MYSQL_STMT) -> c_int {
    0
}

pub unsafe fn mysql_stmt_store_result(_: *mut MYSQL_STMT) -> c_int {
    0
}

pub unsafe fn mysql_stmt_fetch(statement: *mut MYSQL_STMT) -> c_int {
    unsafe { (*statement).fetch() }
}

pub unsafe fn mysql_stmt_fetch_column(
    statement: *mut MYSQL_STMT,
    bind: *mut MYSQL_BIND,
    column: c_uint,
    offset: c_ulong,
) -> c_int {
    let bind = unsafe { *bind };
    c_int::from(unsafe { (*statement).fetch_column(&bind, column as usize, offset as usize) })
}

pub unsafe fn mysql_stmt_error(statement: *mut MYSQL_STMT) -> *const c_char {
    unsafe { (*statement).text.as_ptr() }
}

pub unsafe fn mysql_stmt_errno(statement: *mut MYSQL_STMT) -> c_uint {
    unsafe { (*statement).number }
}

pub unsafe fn mysql_stmt_num_rows(statement: *mut MYSQL_STMT) -> u64 {
    let rows = |event: &&Event| matches!(event, Event::Row(_));
    unsafe { (*statement).recording.events.iter().filter(rows).count() as u64 }
}

pub unsafe fn mysql_stmt_affected_rows(_: *mut MYSQL_STMT) -> u64 {
    u64::MAX
}

pub unsafe fn mysql_stmt_free_result(statement: *mut MYSQL_STMT) -> my_bool {
    let statement = unsafe { &mut *statement };
    statement.recording.events.clear();
    statement.binds = None;
    statement.current = None;
    statement.answer(0)
}

pub unsafe fn mysql_stmt_close(statement: *mut MYSQL_STMT) -> my_bool {
    drop(unsafe { Box::from_raw(statement) });
    false
}
