// A connection: the original's statement, binds and connection record, and what drives them.

use crate::connection::statement_cache;

mod bind;
#[cfg(not(feature = "real"))]
pub mod drive;
#[cfg(feature = "real")]
pub mod measure;
#[cfg(feature = "real")]
pub mod over_library;
mod raw;
mod stmt;
mod url;
