// The marker types that only MySQL has.

use crate::sql_types::SqlType;

#[derive(Debug, Clone, Copy, Default, SqlType)]
#[diesel(mysql_type(name = "DateTime"))]
pub struct Datetime;

#[derive(Debug, Clone, Copy, Default)]
pub struct Unsigned<T: 'static>(T);
