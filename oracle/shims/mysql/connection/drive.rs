// What asks the original: a result is opened, fetched and read by its own calls, in the order in which its connection makes them, and
// what it answers is put into numbers.

use super::bind::{Flags, OutputBinds};
use super::raw::RawConnection;
use super::statement_cache::{MaybeCached, PrepareForCache};
use super::stmt::StatementUse;
use crate::deserialize::FromSql;
use crate::mysql::types::date_and_time::{MysqlTime, MysqlTimestampType};
use crate::mysql::{Mysql, MysqlType, MysqlValue};
use crate::result::Error::{DatabaseError, DeserializationError};
use crate::result::{Error, UnexpectedNullError};
use crate::sql_types::{BigInt, Date, Datetime, Integer, Time, Timestamp};
use mysqlclient_sys::enum_field_types;
use mysqlclient_sys::recording::{Event, Field, Recording};
use std::collections::VecDeque;
use std::panic::{catch_unwind, AssertUnwindSafe};

pub use mysqlclient_sys::Habits;

/// The types by their numbers, which are those of their order in the original.
pub const TYPES: [MysqlType; 20] = [
    MysqlType::Tiny,
    MysqlType::UnsignedTiny,
    MysqlType::Short,
    MysqlType::UnsignedShort,
    MysqlType::Long,
    MysqlType::UnsignedLong,
    MysqlType::LongLong,
    MysqlType::UnsignedLongLong,
    MysqlType::Float,
    MysqlType::Double,
    MysqlType::Numeric,
    MysqlType::Time,
    MysqlType::Date,
    MysqlType::DateTime,
    MysqlType::Timestamp,
    MysqlType::String,
    MysqlType::Blob,
    MysqlType::Bit,
    MysqlType::Set,
    MysqlType::Enum,
];

/// A wanted type by its number, or none.
pub type Wanted = Option<u8>;

/// Why a result was not opened.
#[derive(Clone, Debug, PartialEq)]
pub enum Unopened {
    Flags,
    Host { number: u32, kind: u8 },
}

/// What a fetch came to.
#[derive(Clone, Debug, PartialEq)]
pub enum Fetched {
    Row,
    End,
    Failed { number: u32, kind: u8 },
    Lost,
    Panicked(String),
}

/// What a column shows.
#[derive(Clone, Debug, PartialEq)]
pub enum Shown {
    Null,
    Value { tpe: u8, bytes: Vec<u8> },
    Panicked(String),
}

/// A result that was opened. The statement goes before the connection.
pub struct Opened {
    statement: StatementUse<'static>,
    binds: OutputBinds,
    connection: RawConnection,
}

/// Opens a result for wanted types.
pub fn open(recording: Recording, habits: Habits, wanted: &[Wanted]) -> Result<Opened, Unopened> {
    mysqlclient_sys::hand_in(recording, habits);
    let types: Vec<_> = wanted.iter().map(|t| t.map(|t| TYPES[usize::from(t)])).collect();
    let connection = RawConnection::new();
    let statement = connection.prepare("", PrepareForCache::No, &[]).expect("a statement");
    let metadata = statement.metadata().expect("metadata");
    let mut binds = OutputBinds::from_output_types(&types, &metadata).map_err(|_| Unopened::Flags)?;
    let statement = MaybeCached::CannotCache(statement)
        .execute_statement(&mut binds)
        .map_err(|error| match failure(&error) {
            Some((number, kind)) => Unopened::Host { number, kind },
            None => panic!("an opening is refused with {error:?}"),
        })?;
    Ok(Opened { statement, binds, connection })
}

impl Opened {
    pub fn fetch(&mut self) -> Fetched {
        let fetch = || self.statement.populate_row_buffers(&mut self.binds);
        match catch_unwind(AssertUnwindSafe(fetch)) {
            Err(panic) => Fetched::Panicked(words_of(&*panic)),
            Ok(Ok(Some(()))) => Fetched::Row,
            Ok(Ok(None)) => Fetched::End,
            Ok(Err(error)) => match failure(&error) {
                Some((number, kind)) => Fetched::Failed { number, kind },
                None if is_overflow(&error) => Fetched::Lost,
                None => panic!("a fetch is refused with {error:?}"),
            },
        }
    }

    pub fn show(&self, column: usize) -> Shown {
        match catch_unwind(AssertUnwindSafe(|| self.binds[column].value())) {
            Err(panic) => Shown::Panicked(words_of(&*panic)),
            Ok(None) => Shown::Null,
            Ok(Some(value)) => Shown::Value {
                tpe: value.value_type() as u8,
                bytes: value.as_bytes().to_vec(),
            },
        }
    }

    /// A column as a big integer, by the original's reading of a field that may be null.
    pub fn big(&self, column: usize) -> Result<i64, u8> {
        FromSql::<BigInt, Mysql>::from_nullable_sql(self.binds[column].value()).map_err(refusal)
    }
}

/// The number and the kind of an error of the client library.
fn failure(error: &Error) -> Option<(u32, u8)> {
    match error {
        DatabaseError(kind, information) => {
            let number = information.message().strip_prefix("error ").and_then(|n| n.parse().ok());
            Some((number.expect("a number"), *kind as u8))
        }
        _ => None,
    }
}

fn is_overflow(error: &Error) -> bool {
    matches!(error, DeserializationError(inner) if inner.to_string() == "Numeric overflow/underflow occurred")
}

fn words_of(panic: &(dyn std::any::Any + Send)) -> String {
    match (panic.downcast_ref::<String>(), panic.downcast_ref::<&str>()) {
        (Some(words), _) => words.clone(),
        (_, Some(words)) => words.to_string(),
        _ => String::new(),
    }
}

/// The pair that a type asks for.
pub fn asks(tpe: u8) -> (u32, u32) {
    let (code, flags) = <(enum_field_types, Flags)>::from(TYPES[usize::from(tpe)]);
    (code.0, flags.bits())
}

pub fn takes_flags(flags: u32) -> bool {
    Flags::try_from(flags).is_ok()
}

/// The type that a pair stands for; without one the words with which the original panics.
pub fn type_of(code: u8, flags: u32) -> Result<u8, String> {
    let flags = Flags::try_from(flags).expect("known flags");
    let pair = (enum_field_types(u32::from(code)), flags);
    catch_unwind(|| MysqlType::from(pair)).map(|t| t as u8).map_err(|panic| words_of(&*panic))
}

fn one_column(code: u8, flags: u32, fields: Vec<Field>) -> Recording {
    Recording {
        columns: vec![(code, flags)],
        events: fields.into_iter().map(|field| Event::Row(vec![field])).collect::<VecDeque<_>>(),
    }
}

/// The size of a code, where it is fixed: there a mark of a lost figure is an error, and elsewhere it is not.
pub fn size_of_code(code: u8) -> Option<usize> {
    let opened = open(one_column(code, 0, vec![]), Habits::default(), &[]);
    drop(opened.ok().expect("an opening"));
    let capacity = mysqlclient_sys::bound()[0].1;
    let lost = Field::Bytes { bytes: vec![0; capacity + 1], lost: true };
    let mut opened = open(one_column(code, 0, vec![lost]), Habits::default(), &[]).ok().expect("an opening");
    match opened.fetch() {
        Fetched::Lost => Some(capacity),
        Fetched::Row => None,
        other => panic!("{other:?}"),
    }
}

/// Whether a wanted type keeps the field's own pair: only there are the field's flags looked at.
pub fn keeps(tpe: u8, code: u8) -> bool {
    match open(one_column(code, 1 << 31, vec![]), Habits::default(), &[Some(tpe)]) {
        Err(Unopened::Flags) => {
            let opened = open(one_column(code, 1, vec![]), Habits::default(), &[Some(tpe)]);
            assert!(opened.is_ok() && mysqlclient_sys::bound()[0].0 == u32::from(code));
            true
        }
        _ => false,
    }
}

/// The kind of a failure with this number.
pub fn kind_of(number: u32) -> u8 {
    let mut recording = one_column(253, 0, vec![]);
    recording.events.push_back(Event::Failure(number));
    let mut opened = open(recording, Habits::default(), &[]).ok().expect("an opening");
    match opened.fetch() {
        Fetched::Failed { number: came, kind } if came == number => kind,
        other => panic!("{other:?}"),
    }
}

fn value_of(tpe: u8, bytes: Option<&[u8]>) -> Option<MysqlValue<'_>> {
    bytes.map(|bytes| MysqlValue::new_internal(bytes, TYPES[usize::from(tpe)]))
}

pub fn read_integer(tpe: u8, bytes: Option<&[u8]>) -> Result<i32, u8> {
    FromSql::<Integer, Mysql>::from_nullable_sql(value_of(tpe, bytes)).map_err(refusal)
}

pub fn read_big_integer(tpe: u8, bytes: Option<&[u8]>) -> Result<i64, u8> {
    FromSql::<BigInt, Mysql>::from_nullable_sql(value_of(tpe, bytes)).map_err(refusal)
}

/// The nine numbers of a time: year, month, day, hour, minute, second, microseconds, kind and displacement.
pub fn read_time(tpe: u8, bytes: Option<&[u8]>) -> Result<[i128; 9], u8> {
    let four = [
        <MysqlTime as FromSql<Datetime, Mysql>>::from_nullable_sql(value_of(tpe, bytes)),
        <MysqlTime as FromSql<Timestamp, Mysql>>::from_nullable_sql(value_of(tpe, bytes)),
        <MysqlTime as FromSql<Time, Mysql>>::from_nullable_sql(value_of(tpe, bytes)),
        <MysqlTime as FromSql<Date, Mysql>>::from_nullable_sql(value_of(tpe, bytes)),
    ]
    .map(|time| time.map(|time| numbers_of(&time)).map_err(refusal));
    assert!(four.iter().all(|time| *time == four[0]), "the four times differ");
    four[0]
}

fn numbers_of(time: &MysqlTime) -> [i128; 9] {
    assert!(!time.neg);
    // The kind's number is private; the type is that number alone.
    let kind: i32 = unsafe { std::mem::transmute::<MysqlTimestampType, i32>(time.time_type) };
    [
        time.year.into(),
        time.month.into(),
        time.day.into(),
        time.hour.into(),
        time.minute.into(),
        time.second.into(),
        time.second_part.into(),
        kind.into(),
        time.time_zone_displacement.into(),
    ]
}

/// The number of a refused reading, by the kind of its error or by its words (docs/readings.md).
fn refusal(error: Box<dyn std::error::Error + Send + Sync>) -> u8 {
    if error.is::<UnexpectedNullError>() {
        return 13;
    }
    if error.is::<std::str::Utf8Error>() {
        return 19;
    }
    if error.is::<std::num::ParseIntError>() {
        return 21;
    }
    if error.downcast_ref::<Error>().is_some_and(is_overflow) {
        return 18;
    }
    let beginnings = [
        ("Invalid representation received for ", 14),
        ("Received a buffer with an invalid size ", 15),
        ("Received invalid value for `neg` ", 16),
        ("Negative dates/times are not yet supported", 17),
        ("Invalid decimal format: ", 20),
    ];
    let words = error.to_string();
    let of = beginnings.iter().find(|(beginning, _)| words.starts_with(beginning));
    of.unwrap_or_else(|| panic!("a reading is refused with {words:?}")).1
}
