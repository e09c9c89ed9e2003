//! The same names, as a real client library has them.

#![allow(improper_ctypes)]

use crate::names::*;
use std::ffi::{c_char, c_int, c_uint, c_ulong, c_void};

/// A statement of the library's own.
pub struct MYSQL_STMT {
    _held: [u8; 0],
}

extern "C" {
    pub fn mysql_server_init(count: c_int, words: *mut *mut c_char, groups: *mut *mut c_char) -> c_int;
    pub fn mysql_init(connection: *mut MYSQL) -> *mut MYSQL;
    pub fn mysql_options(connection: *mut MYSQL, option: mysql_option, value: *const c_void) -> c_int;
    pub fn mysql_close(connection: *mut MYSQL);
    pub fn mysql_error(connection: *mut MYSQL) -> *const c_char;
    pub fn mysql_real_connect(
        connection: *mut MYSQL,
        host: *const c_char,
        user: *const c_char,
        password: *const c_char,
        database: *const c_char,
        port: c_uint,
        socket: *const c_char,
        flags: c_ulong,
    ) -> *mut MYSQL;
    pub fn mysql_real_query(connection: *mut MYSQL, query: *const c_char, length: c_ulong) -> c_int;
    pub fn mysql_set_server_option(connection: *mut MYSQL, option: enum_mysql_set_option) -> c_int;
    pub fn mysql_store_result(connection: *mut MYSQL) -> *mut MYSQL_RES;
    pub fn mysql_more_results(connection: *mut MYSQL) -> my_bool;
    pub fn mysql_next_result(connection: *mut MYSQL) -> c_int;
    pub fn mysql_num_fields(result: *mut MYSQL_RES) -> c_uint;
    pub fn mysql_fetch_fields(result: *mut MYSQL_RES) -> *mut MYSQL_FIELD;
    pub fn mysql_free_result(result: *mut MYSQL_RES);
    pub fn mysql_get_client_info() -> *const c_char;
    pub fn mysql_stmt_init(connection: *mut MYSQL) -> *mut MYSQL_STMT;
    pub fn mysql_stmt_prepare(statement: *mut MYSQL_STMT, query: *const c_char, length: c_ulong) -> c_int;
    pub fn mysql_stmt_bind_param(statement: *mut MYSQL_STMT, records: *mut MYSQL_BIND) -> my_bool;
    pub fn mysql_stmt_result_metadata(statement: *mut MYSQL_STMT) -> *mut MYSQL_RES;
    pub fn mysql_stmt_bind_result(statement: *mut MYSQL_STMT, records: *mut MYSQL_BIND) -> my_bool;
    pub fn mysql_stmt_execute(statement: *mut MYSQL_STMT) -> c_int;
    pub fn mysql_stmt_store_result(statement: *mut MYSQL_STMT) -> c_int;
    pub fn mysql_stmt_fetch(statement: *mut MYSQL_STMT) -> c_int;
    pub fn mysql_stmt_fetch_column(statement: *mut MYSQL_STMT, bind: *mut MYSQL_BIND, column: c_uint, offset: c_ulong) -> c_int;
    pub fn mysql_stmt_error(statement: *mut MYSQL_STMT) -> *const c_char;
    pub fn mysql_stmt_errno(statement: *mut MYSQL_STMT) -> c_uint;
    pub fn mysql_stmt_num_rows(statement: *mut MYSQL_STMT) -> u64;
    pub fn mysql_stmt_affected_rows(statement: *mut MYSQL_STMT) -> u64;
    pub fn mysql_stmt_free_result(statement: *mut MYSQL_STMT) -> my_bool;
    pub fn mysql_stmt_close(statement: *mut MYSQL_STMT) -> my_bool;
}
