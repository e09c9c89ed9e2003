// What is measured of the original (docs/bench.md): a result is opened, fetched to its end and read by its own calls, and counted. Nothing is
// caught and nothing is copied, so that these calls are what takes the time.

use super::bind::OutputBinds;
use super::raw::RawConnection;
use super::statement_cache::{MaybeCached, PrepareForCache};
use crate::deserialize::FromSql;
use crate::mysql::Mysql;
use crate::result::Error::DatabaseError;
use crate::sql_types::Integer;

/// How many rows were shown, how many were refused, and how many failures came.
#[derive(Clone, Copy, Debug, Default, PartialEq)]
pub struct Counts {
    pub shown: u64,
    pub refused: u64,
    pub failures: u64,
}

/// Counts the rows of the statement that the client library hands out next.
pub fn count() -> Counts {
    to_the_end(|_| ())
}

/// The same, and how many rows have this number in column 0.
pub fn count_class(class: i32) -> (Counts, u64) {
    let mut found = 0;
    let counts = to_the_end(|binds| {
        let number = <i32 as FromSql<Integer, Mysql>>::from_nullable_sql(binds[0].value());
        found += u64::from(number.is_ok_and(|number| number == class));
    });
    (counts, found)
}

fn to_the_end(mut each: impl FnMut(&OutputBinds)) -> Counts {
    let connection = RawConnection::new();
    let statement = connection.prepare("", PrepareForCache::No, &[]).expect("a statement");
    let metadata = statement.metadata().expect("metadata");
    let mut binds = OutputBinds::from_output_types(&[], &metadata).expect("known flags");
    let statement = MaybeCached::CannotCache(statement).execute_statement(&mut binds).expect("an opening");
    let mut counts = Counts::default();
    loop {
        match statement.populate_row_buffers(&mut binds) {
            Ok(Some(())) => {
                counts.shown += 1;
                each(&binds);
            }
            Ok(None) => return counts,
            Err(DatabaseError(..)) => counts.failures += 1,
            Err(_) => counts.refused += 1,
        }
    }
}
