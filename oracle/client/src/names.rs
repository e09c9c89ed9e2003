//! The records, numbers and connection calls of MySQL's C interface that the original names.

use std::ffi::{c_char, c_int, c_uint, c_ulong, c_void};

pub type my_bool = bool;

pub const MYSQL_NO_DATA: c_uint = 100;
pub const MYSQL_DATA_TRUNCATED: c_uint = 101;

/// The code of a field. The C headers have an enum; here any number can be asked for.
#[repr(transparent)]
#[derive(Clone, Copy, Debug, PartialEq, Eq, Hash)]
pub struct enum_field_types(pub c_uint);

macro_rules! codes {
    ($($name:ident = $number:literal,)*) => {
        impl enum_field_types {
            $(pub const $name: Self = Self($number);)*
        }
    };
}

codes! {
    MYSQL_TYPE_DECIMAL = 0,
    MYSQL_TYPE_TINY = 1,
    MYSQL_TYPE_SHORT = 2,
    MYSQL_TYPE_LONG = 3,
    MYSQL_TYPE_FLOAT = 4,
    MYSQL_TYPE_DOUBLE = 5,
    MYSQL_TYPE_NULL = 6,
    MYSQL_TYPE_TIMESTAMP = 7,
    MYSQL_TYPE_LONGLONG = 8,
    MYSQL_TYPE_INT24 = 9,
    MYSQL_TYPE_DATE = 10,
    MYSQL_TYPE_TIME = 11,
    MYSQL_TYPE_DATETIME = 12,
    MYSQL_TYPE_YEAR = 13,
    MYSQL_TYPE_NEWDATE = 14,
    MYSQL_TYPE_VARCHAR = 15,
    MYSQL_TYPE_BIT = 16,
    MYSQL_TYPE_TIMESTAMP2 = 17,
    MYSQL_TYPE_DATETIME2 = 18,
    MYSQL_TYPE_TIME2 = 19,
    MYSQL_TYPE_JSON = 245,
    MYSQL_TYPE_NEWDECIMAL = 246,
    MYSQL_TYPE_ENUM = 247,
    MYSQL_TYPE_SET = 248,
    MYSQL_TYPE_TINY_BLOB = 249,
    MYSQL_TYPE_MEDIUM_BLOB = 250,
    MYSQL_TYPE_LONG_BLOB = 251,
    MYSQL_TYPE_BLOB = 252,
    MYSQL_TYPE_VAR_STRING = 253,
    MYSQL_TYPE_STRING = 254,
    MYSQL_TYPE_GEOMETRY = 255,
}

#[repr(C)]
#[derive(Clone, Copy)]
pub struct MYSQL_FIELD {
    pub name: *mut c_char,
    pub other_names: [*mut c_char; 6],
    pub lengths: [c_ulong; 2],
    pub name_lengths: [c_uint; 7],
    pub flags: c_uint,
    pub decimals: c_uint,
    pub charsetnr: c_uint,
    pub type_: enum_field_types,
    pub extension: *mut c_void,
}

#[repr(C)]
#[derive(Clone, Copy)]
pub struct MYSQL_BIND {
    pub length: *mut c_ulong,
    pub is_null: *mut my_bool,
    pub buffer: *mut c_void,
    pub error: *mut my_bool,
    pub row_ptr: *mut c_void,
    pub functions: [*mut c_void; 3],
    pub buffer_length: c_ulong,
    pub offset: c_ulong,
    pub length_value: c_ulong,
    pub param_number: c_uint,
    pub pack_length: c_uint,
    pub buffer_type: enum_field_types,
    pub error_value: my_bool,
    pub is_unsigned: my_bool,
    pub long_data_used: my_bool,
    pub is_null_value: my_bool,
    pub extension: *mut c_void,
}

#[repr(C)]
pub struct MYSQL_TIME {
    pub year: c_uint,
    pub month: c_uint,
    pub day: c_uint,
    pub hour: c_uint,
    pub minute: c_uint,
    pub second: c_uint,
    pub second_part: c_ulong,
    pub neg: my_bool,
    pub time_type: c_int,
    #[cfg(not(feature = "short_times"))]
    pub time_zone_displacement: c_int,
}

pub struct MYSQL;

pub struct MYSQL_RES {
    pub fields: Vec<MYSQL_FIELD>,
}

#[repr(C)]
pub enum mysql_option {
    MYSQL_SET_CHARSET_NAME = 7,
    MYSQL_OPT_SSL_KEY = 25,
    MYSQL_OPT_SSL_CERT = 26,
    MYSQL_OPT_SSL_CA = 27,
    MYSQL_OPT_SSL_MODE = 42,
}

#[repr(C)]
pub enum mysql_ssl_mode {
    SSL_MODE_DISABLED = 1,
}

#[repr(C)]
pub enum enum_mysql_set_option {
    MYSQL_OPTION_MULTI_STATEMENTS_ON,
    MYSQL_OPTION_MULTI_STATEMENTS_OFF,
}
