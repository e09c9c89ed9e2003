// The MySQL part of the crate.

pub mod backend;
mod connection;
pub mod query_builder;
pub mod sql_types;
pub mod types;
pub mod value;

pub use self::backend::{Mysql, MysqlType};
#[cfg(not(feature = "real"))]
pub use self::connection::drive;
#[cfg(feature = "real")]
pub use self::connection::{measure, over_library};
pub use self::value::{MysqlValue, NumericRepresentation};
