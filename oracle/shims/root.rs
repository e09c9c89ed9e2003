// The crate's root: the original's modules, and ours for what they name beside each other.

pub mod backend;
pub mod connection;
pub mod deserialize;
pub mod expression;
pub mod internal;
pub mod mysql;
pub mod query_builder;
pub mod result;
pub mod row;
pub mod serialize;
pub mod sql_types;
pub mod util;

pub use crate::deserialize::Queryable;
pub use crate::expression::Selectable;

/// Where the original's own tests look for the kind of a time.
pub mod data_types {
    pub use crate::mysql::types::date_and_time::{MysqlTime, MysqlTimestampType};
}

#[cfg(not(feature = "real"))]
pub use crate::mysql::drive;
#[cfg(feature = "real")]
pub use crate::mysql::{measure, over_library};
