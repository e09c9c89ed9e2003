//! A client library over a tape's bytes, with the names that the original calls. It keeps the rules of docs/host.md and does nothing beside them: no
//! watch over memory, no notes, no copies of rows. A tape is gone through once when its result is stored, as the port does when it takes one, and a row
//! once when it is fetched.

use mysqlclient_sys::{enum_field_types, my_bool, mysql_option, MYSQL, MYSQL_BIND, MYSQL_FIELD, MYSQL_RES};
use std::cell::Cell;
use std::ffi::{c_char, c_int, c_uint, c_ulong, c_void};
use std::ptr;

const INVALID_PARAMETER: c_uint = 2034;
const UNSUPPORTED_TYPE: c_uint = 2036;
const MALFORMED_PACKET: c_uint = 2027;
const NO_DATA: c_uint = 2051;

const FETCHED: c_int = 0;
const FAILED: c_int = 1;
const AT_END: c_int = 100;
const TRUNCATED: c_int = 101;

thread_local! {
    static NEXT: Cell<&'static [u8]> = const { Cell::new(&[]) };
}

/// What the next statement has as its result. The tape must be there for as long as the statement.
pub unsafe fn hand_in(tape: &[u8]) {
    NEXT.set(unsafe { std::slice::from_raw_parts(tape.as_ptr(), tape.len()) });
}

pub struct Statement {
    columns: Vec<(u8, u32)>,
    binds: Vec<MYSQL_BIND>,
    /// What is left of the events, and how many they are.
    rest: &'static [u8],
    count: u16,
    /// The fields of the current row.
    row: Vec<Field>,
    current: bool,
    number: c_uint,
}

#[derive(Clone, Copy)]
enum Field {
    Null,
    Held { bytes: &'static [u8], lost: bool },
}

enum Event {
    Row,
    Failure(u16),
}

fn split<const N: usize>(bytes: &'static [u8]) -> Option<([u8; N], &'static [u8])> {
    bytes.split_first_chunk().map(|(first, rest)| (*first, rest))
}

fn size_of_code(code: u8) -> Option<usize> {
    match code {
        1 => Some(1),
        2 | 13 => Some(2),
        3 | 4 | 9 => Some(4),
        5 | 8 => Some(8),
        7 | 10..=12 => Some(48),
        _ => None,
    }
}

fn take_field(code: u8, bytes: &'static [u8]) -> Option<(Field, &'static [u8])> {
    let (mark, rest) = bytes.split_first()?;
    let lost = match mark {
        0 => return Some((Field::Null, rest)),
        1 => false,
        2 => true,
        _ => return None,
    };
    let (length, rest) = split(rest)?;
    let length = u32::from_le_bytes(length) as usize;
    let fits = size_of_code(code).map_or(!lost, |size| size == length);
    let (bytes, rest) = rest.split_at_checked(length).filter(|_| fits)?;
    Some((Field::Held { bytes, lost }, rest))
}

impl Statement {
    fn new(tape: &'static [u8]) -> Option<Statement> {
        let (columns, rest) = split(tape)?;
        let (count, mut rest) = split(rest)?;
        let mut all = Vec::new();
        for _ in 0..u16::from_le_bytes(columns) {
            let (code, after) = split::<1>(rest)?;
            let (flags, after) = split(after)?;
            all.push((code[0], u32::from_le_bytes(flags)));
            rest = after;
        }
        Some(Statement {
            row: vec![Field::Null; all.len()],
            columns: all,
            binds: Vec::new(),
            rest,
            count: u16::from_le_bytes(count),
            current: false,
            number: 0,
        })
    }

    /// Gives each field of the next event to `each`.
    fn take_event(
        columns: &[(u8, u32)],
        bytes: &'static [u8],
        mut each: impl FnMut(usize, Field),
    ) -> Option<(Event, &'static [u8])> {
        let (mark, mut rest) = bytes.split_first()?;
        match mark {
            0 => {
                for (i, (code, _)) in columns.iter().enumerate() {
                    let (field, after) = take_field(*code, rest)?;
                    each(i, field);
                    rest = after;
                }
                Some((Event::Row, rest))
            }
            1 => {
                let (number, rest) = split(rest)?;
                Some((Event::Failure(u16::from_le_bytes(number)), rest))
            }
            _ => None,
        }
    }

    /// Whether the bytes are a tape to their end.
    fn is_whole(&self) -> bool {
        let mut rest = self.rest;
        for _ in 0..self.count {
            match Self::take_event(&self.columns, rest, |_, _| ()) {
                Some((_, after)) => rest = after,
                None => return false,
            }
        }
        rest.is_empty()
    }

    unsafe fn fetch(&mut self) -> c_int {
        if self.binds.len() != self.columns.len() {
            self.number = INVALID_PARAMETER;
            return FAILED;
        }
        self.current = false;
        self.number = 0;
        if self.count == 0 {
            return AT_END;
        }
        self.count -= 1;
        let mut truncated = false;
        let (binds, row) = (&self.binds, &mut self.row);
        let event = Self::take_event(&self.columns, self.rest, |i, field| {
            row[i] = field;
            truncated |= unsafe { give(field, &binds[i], 0) };
        });
        let Some((event, rest)) = event else {
            self.number = MALFORMED_PACKET;
            return FAILED;
        };
        self.rest = rest;
        match event {
            Event::Failure(number) => {
                self.number = number.into();
                FAILED
            }
            Event::Row => {
                self.current = true;
                if truncated { TRUNCATED } else { FETCHED }
            }
        }
    }
}

/// Writes a field from an offset on to its buffer, and reports it; says whether it is truncated.
unsafe fn give(field: Field, bind: &MYSQL_BIND, offset: usize) -> bool {
    unsafe {
        match field {
            Field::Null => {
                bind.is_null.write(true);
                bind.error.write(false);
                false
            }
            Field::Held { bytes, lost } => {
                let left = &bytes[offset.min(bytes.len())..];
                let room = bind.buffer_length as usize;
                ptr::copy_nonoverlapping(left.as_ptr(), bind.buffer.cast(), left.len().min(room));
                let truncated = left.len() > room || lost;
                bind.is_null.write(false);
                bind.length.write(bytes.len() as c_ulong);
                bind.error.write(truncated);
                truncated
            }
        }
    }
}

#[no_mangle]
pub unsafe extern "C" fn mysql_stmt_init(_: *mut MYSQL) -> *mut Statement {
    Box::into_raw(Box::new(Statement::new(NEXT.get()).expect("a tape")))
}

#[no_mangle]
pub unsafe extern "C" fn mysql_stmt_prepare(_: *mut Statement, _: *const c_char, _: c_ulong) -> c_int {
    0
}

#[no_mangle]
pub unsafe extern "C" fn mysql_stmt_result_metadata(statement: *mut Statement) -> *mut MYSQL_RES {
    let columns = unsafe { &(*statement).columns };
    let field = |(code, flags): &(u8, u32)| MYSQL_FIELD {
        name: ptr::null_mut(),
        other_names: [ptr::null_mut(); 6],
        lengths: [0; 2],
        name_lengths: [0; 7],
        flags: *flags,
        decimals: 0,
        charsetnr: 0,
        type_: enum_field_types(u32::from(*code)),
        extension: ptr::null_mut(),
    };
    Box::into_raw(Box::new(MYSQL_RES {
        fields: columns.iter().map(field).collect(),
    }))
}

#[no_mangle]
pub unsafe extern "C" fn mysql_num_fields(result: *mut MYSQL_RES) -> c_uint {
    unsafe { (*result).fields.len() as c_uint }
}

#[no_mangle]
pub unsafe extern "C" fn mysql_fetch_fields(result: *mut MYSQL_RES) -> *mut MYSQL_FIELD {
    unsafe { (*result).fields.as_mut_ptr() }
}

#[no_mangle]
pub unsafe extern "C" fn mysql_free_result(result: *mut MYSQL_RES) {
    drop(unsafe { Box::from_raw(result) });
}

#[no_mangle]
pub unsafe extern "C" fn mysql_stmt_bind_result(statement: *mut Statement, records: *mut MYSQL_BIND) -> my_bool {
    let statement = unsafe { &mut *statement };
    let records = unsafe { std::slice::from_raw_parts(records, statement.columns.len()) };
    let mut pairs = statement.columns.iter().zip(records);
    let other = pairs.any(|((code, _), record)| record.buffer_type.0 != u32::from(*code));
    statement.number = if other { UNSUPPORTED_TYPE } else { 0 };
    if !other {
        statement.binds.clear();
        statement.binds.extend_from_slice(records);
    }
    other
}

#[no_mangle]
pub unsafe extern "C" fn mysql_stmt_execute(_: *mut Statement) -> c_int {
    0
}

#[no_mangle]
pub unsafe extern "C" fn mysql_stmt_store_result(statement: *mut Statement) -> c_int {
    let statement = unsafe { &mut *statement };
    statement.number = if statement.is_whole() { 0 } else { MALFORMED_PACKET };
    c_int::from(statement.number != 0)
}

#[no_mangle]
pub unsafe extern "C" fn mysql_stmt_fetch(statement: *mut Statement) -> c_int {
    unsafe { (*statement).fetch() }
}

#[no_mangle]
pub unsafe extern "C" fn mysql_stmt_fetch_column(
    statement: *mut Statement,
    bind: *mut MYSQL_BIND,
    column: c_uint,
    offset: c_ulong,
) -> c_int {
    let statement = unsafe { &mut *statement };
    statement.number = match statement.row.get(column as usize) {
        _ if !statement.current => NO_DATA,
        None => INVALID_PARAMETER,
        Some(field) => {
            unsafe { give(*field, &*bind, offset as usize) };
            0
        }
    };
    c_int::from(statement.number != 0)
}

#[no_mangle]
pub unsafe extern "C" fn mysql_stmt_error(statement: *mut Statement) -> *const c_char {
    let text = match unsafe { (*statement).number } {
        0 => c"",
        _ => c"error",
    };
    text.as_ptr()
}

#[no_mangle]
pub unsafe extern "C" fn mysql_stmt_errno(statement: *mut Statement) -> c_uint {
    unsafe { (*statement).number }
}

#[no_mangle]
pub unsafe extern "C" fn mysql_stmt_free_result(statement: *mut Statement) -> my_bool {
    let statement = unsafe { &mut *statement };
    statement.count = 0;
    statement.binds.clear();
    statement.current = false;
    statement.number = 0;
    false
}

#[no_mangle]
pub unsafe extern "C" fn mysql_stmt_close(statement: *mut Statement) -> my_bool {
    drop(unsafe { Box::from_raw(statement) });
    false
}

#[no_mangle]
pub unsafe extern "C" fn mysql_server_init(_: c_int, _: *mut *mut c_char, _: *mut *mut c_char) -> c_int {
    0
}

#[no_mangle]
pub unsafe extern "C" fn mysql_init(_: *mut MYSQL) -> *mut MYSQL {
    ptr::dangling_mut()
}

#[no_mangle]
pub unsafe extern "C" fn mysql_options(_: *mut MYSQL, _: mysql_option, _: *const c_void) -> c_int {
    0
}

#[no_mangle]
pub unsafe extern "C" fn mysql_close(_: *mut MYSQL) {}

/// What the original names besides, and no measured path calls.
macro_rules! never_called {
    ($($name:ident)*) => {
        $(#[no_mangle]
        pub extern "C" fn $name() {
            unimplemented!(stringify!($name))
        })*
    };
}

never_called! {
    mysql_error mysql_get_client_info mysql_more_results mysql_next_result mysql_real_connect mysql_real_query mysql_set_server_option
    mysql_stmt_affected_rows mysql_stmt_bind_param mysql_stmt_num_rows mysql_store_result
}

/// The library alone: a result, stored, bound to buffers of this length and fetched to its end. How many rows came is answered.
pub fn alone(tape: &[u8], room: usize) -> u64 {
    unsafe {
        hand_in(tape);
        let statement = mysql_stmt_init(ptr::null_mut());
        let columns = (*statement).columns.clone();
        let mut buffers = vec![vec![0u8; room]; columns.len()];
        let (mut length, mut is_null, mut error): (c_ulong, my_bool, my_bool) = (0, false, false);
        let record = |((code, _), buffer): (&(u8, u32), &mut Vec<u8>)| {
            let mut bind: MYSQL_BIND = std::mem::zeroed();
            bind.buffer_type = enum_field_types(u32::from(*code));
            bind.buffer = buffer.as_mut_ptr().cast();
            bind.buffer_length = room as c_ulong;
            (bind.length, bind.is_null, bind.error) = (&raw mut length, &raw mut is_null, &raw mut error);
            bind
        };
        let mut binds: Vec<MYSQL_BIND> = columns.iter().zip(&mut buffers).map(record).collect();
        assert!(!mysql_stmt_bind_result(statement, binds.as_mut_ptr()));
        assert_eq!(mysql_stmt_store_result(statement), 0);
        let mut rows = 0;
        while mysql_stmt_fetch(statement) != AT_END {
            rows += 1;
        }
        mysql_stmt_free_result(statement);
        mysql_stmt_close(statement);
        rows
    }
}
