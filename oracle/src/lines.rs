//! One case, asked of the original, as a line (docs/oracle.md).

use mysqlclient_sys::guard;
use mysqlclient_sys::recording::{Field, Recording};
use oracle::drive::{self, Fetched, Habits, Opened, Shown, Unopened, Wanted};
use std::fmt::{Display, Write};

/// Bytes in hexadecimal, `-` for none.
pub fn hex(bytes: &[u8]) -> String {
    if bytes.is_empty() {
        return "-".to_string();
    }
    bytes.iter().fold(String::new(), |mut text, byte| {
        let _ = write!(text, "{byte:02x}");
        text
    })
}

fn or_dash<T: Display>(value: Option<T>) -> String {
    value.map_or("-".to_string(), |value| value.to_string())
}

fn or_refusal<T: Display>(value: Result<T, u8>) -> String {
    match value {
        Ok(value) => value.to_string(),
        Err(number) => format!("!{number}"),
    }
}

pub fn asks(tpe: u8) -> String {
    let (code, flags) = drive::asks(tpe);
    format!("asks {tpe} {code} {flags}")
}

pub fn tpe(code: u8, flags: u32) -> String {
    format!("type {code} {flags} {}", or_dash(drive::type_of(code, flags).ok()))
}

pub fn size(code: u8) -> String {
    format!("size {code} {}", or_dash(drive::size_of_code(code)))
}

pub fn kept(tpe: u8, code: u8) -> String {
    format!("kept {tpe} {code} {}", u8::from(drive::keeps(tpe, code)))
}

pub fn keeps(tpe: u8) -> String {
    let mut map = [0; 32];
    for code in 0..=255 {
        map[usize::from(code) / 8] |= u8::from(drive::keeps(tpe, code)) << (code % 8);
    }
    format!("keeps {tpe} {}", hex(&map))
}

pub fn flags(flags: u32) -> String {
    let answer = if drive::takes_flags(flags) { "ok" } else { "no" };
    format!("flags {flags} {answer}")
}

pub fn kind(number: u16) -> String {
    format!("kind {number} {}", drive::kind_of(number.into()))
}

fn bytes_or_null(bytes: Option<&[u8]>) -> String {
    bytes.map_or("null".to_string(), hex)
}

pub fn int(tpe: u8, bytes: Option<&[u8]>) -> String {
    let answer = or_refusal(drive::read_integer(tpe, bytes));
    format!("int {tpe} {} {answer}", bytes_or_null(bytes))
}

pub fn big(tpe: u8, bytes: Option<&[u8]>) -> String {
    let answer = or_refusal(drive::read_big_integer(tpe, bytes));
    format!("big {tpe} {} {answer}", bytes_or_null(bytes))
}

pub fn time(tpe: u8, bytes: Option<&[u8]>) -> String {
    let time = drive::read_time(tpe, bytes).map(|numbers| numbers.map(|n| n.to_string()).join(" "));
    format!("time {tpe} {} {}", bytes_or_null(bytes), or_refusal(time))
}

pub fn wanted_list(wanted: &[Wanted]) -> String {
    if wanted.is_empty() {
        return "-".to_string();
    }
    let word = |tpe: &Wanted| tpe.map_or("_".to_string(), |tpe| tpe.to_string());
    wanted.iter().map(word).collect::<Vec<_>>().join(",")
}

fn refused(unopened: Unopened) -> String {
    match unopened {
        Unopened::Flags => "refused:7".to_string(),
        Unopened::Host { number, kind } => format!("refused:9:{number}:{kind}"),
    }
}

/// A result, opened with wanted types and fetched to its end or to its first lost figure.
pub fn tape(wanted: &[Wanted], recording: &Recording, habits: Habits) -> String {
    let line = format!("tape {} {}", wanted_list(wanted), hex(&recording.tape()));
    guard::watch();
    let answer = match drive::open(recording.clone(), habits, wanted) {
        Err(unopened) => refused(unopened),
        Ok(opened) => events(opened, recording.columns.len(), &line),
    };
    guard::rest();
    format!("{line} {answer}")
}

fn events(mut opened: Opened, columns: usize, line: &str) -> String {
    let mut words = Vec::new();
    loop {
        let fetched = opened.fetch();
        let dead = mysqlclient_sys::writes().dead;
        assert!(dead.is_empty(), "a write into freed memory before any lost figure: {line}");
        match fetched {
            Fetched::Row => {
                words.push("row".to_string());
                words.extend((0..columns).map(|column| shown(opened.show(column))));
            }
            Fetched::Failed { number, kind } => words.push(format!("fail:{number}:{kind}")),
            Fetched::End => {
                words.push("end".to_string());
                return words.join(" ");
            }
            Fetched::Lost => {
                words.push("stop".to_string());
                return words.join(" ");
            }
            Fetched::Panicked(why) => panic!("a fetch panics before any lost figure: {line}: {why}"),
        }
    }
}

fn shown(shown: Shown) -> String {
    match shown {
        Shown::Null => "null".to_string(),
        Shown::Value { tpe, bytes } => format!("{tpe}:{}", hex(&bytes)),
        Shown::Panicked(why) => {
            assert!(is_of_types(&why), "a column panics otherwise than for its type: {why}");
            "?".to_string()
        }
    }
}

/// Whether the original panicked since a pair has no type.
pub fn is_of_types(why: &str) -> bool {
    why.starts_with("internal error: entered unreachable code") || why.starts_with("not implemented")
}

/// A tray, fetched to its end.
pub fn tray(rows: usize, wanted: &[Wanted]) -> String {
    let line = format!("tray {rows} {}", wanted_list(wanted));
    let mut opened = match drive::open(Recording::tray(rows), Habits::default(), wanted) {
        Err(unopened) => return format!("{line} {}", refused(unopened)),
        Ok(opened) => opened,
    };
    let (mut nulls, mut count, mut sum) = (0, 0, u32::MAX);
    while opened.fetch() == Fetched::Row {
        match opened.show(0) {
            Shown::Null => nulls += 1,
            Shown::Value { bytes, .. } => {
                count += bytes.len();
                sum = bytes.iter().fold(sum, |sum, byte| crc_step(sum, *byte));
            }
            Shown::Panicked(why) => panic!("a tray's column panics: {why}"),
        }
    }
    format!("{line} {nulls} {count} {}", !sum)
}

/// CRC-32 of IEEE 802.3, a byte further.
fn crc_step(sum: u32, byte: u8) -> u32 {
    (0..8).fold(sum ^ u32::from(byte), |sum, _| match sum & 1 {
        1 => sum >> 1 ^ 0xEDB8_8320,
        _ => sum >> 1,
    })
}

/// Whether a recording is one that its tape may hold, and no row of it needs more than the arena has.
pub fn is_sound(recording: &Recording, sizes: &[Option<usize>]) -> bool {
    use mysqlclient_sys::recording::Event;
    let size = |code: u8| sizes[usize::from(code)];
    let fits = |(field, code): (&Field, u8)| match field {
        Field::Null => true,
        Field::Bytes { bytes, lost } => size(code).map_or(!lost, |size| bytes.len() == size),
    };
    let need = |(field, code): (&Field, u8)| match field {
        Field::Null => size(code).unwrap_or(1),
        Field::Bytes { bytes, .. } => bytes.len().max(1),
    };
    let codes = || recording.columns.iter().map(|(code, _)| *code);
    let pairs = |fields: &[Field]| fields.iter().cloned().zip(codes()).collect::<Vec<_>>();
    recording.columns.len() <= 64
        && recording.columns.iter().all(|(_, flags)| drive::takes_flags(*flags))
        && recording.events.iter().all(|event| match event {
            Event::Failure(number) => (1..=65_535).contains(number),
            Event::Row(fields) => {
                let pairs = pairs(fields);
                pairs.iter().all(|(field, code)| fits((field, *code)))
                    && pairs.iter().map(|(field, code)| need((field, *code))).sum::<usize>() <= 65_536
            }
        })
}
