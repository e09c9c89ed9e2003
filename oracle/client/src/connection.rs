//! A connection to nothing.

use crate::names::*;
use std::ffi::{c_char, c_int, c_uint, c_ulong, c_void};

pub unsafe fn mysql_server_init(_: c_int, _: *mut *mut c_char, _: *mut *mut c_char) -> c_int {
    0
}

pub unsafe fn mysql_init(_: *mut MYSQL) -> *mut MYSQL {
    Box::into_raw(Box::new(MYSQL))
}

pub unsafe fn mysql_options(_: *mut MYSQL, _: mysql_option, _: *const c_void) -> c_int {
    0
}

pub unsafe fn mysql_close(connection: *mut MYSQL) {
    drop(unsafe { Box::from_raw(connection) });
}

pub unsafe fn mysql_error(_: *mut MYSQL) -> *const c_char {
    c"".as_ptr()
}

#[allow(clippy::too_many_arguments)]
pub unsafe fn mysql_real_connect(
    _: *mut MYSQL,
    _: *const c_char,
    _: *const c_char,
    _: *const c_char,
    _: *const c_char,
    _: c_uint,
    _: *const c_char,
    _: c_ulong,
) -> *mut MYSQL {
    unimplemented!("nothing is connected to")
}

pub unsafe fn mysql_real_query(_: *mut MYSQL, _: *const c_char, _: c_ulong) -> c_int {
    unimplemented!("nothing is asked")
}

pub unsafe fn mysql_set_server_option(_: *mut MYSQL, _: enum_mysql_set_option) -> c_int {
    unimplemented!("there is no server")
}

pub unsafe fn mysql_store_result(_: *mut MYSQL) -> *mut MYSQL_RES {
    unimplemented!("nothing is asked")
}

pub unsafe fn mysql_more_results(_: *mut MYSQL) -> my_bool {
    false
}

pub unsafe fn mysql_next_result(_: *mut MYSQL) -> c_int {
    -1
}

