// Writing of values, as far as the times name it. Nothing is written here.

use std::error::Error;
use std::io::{self, Write};
use std::marker::PhantomData;

pub type Result = std::result::Result<IsNull, Box<dyn Error + Send + Sync>>;

pub enum IsNull {
    Yes,
    No,
}

pub struct Output<'a, 'b, DB> {
    out: &'b mut Vec<u8>,
    lookup: PhantomData<(&'a (), DB)>,
}

impl<DB> Write for Output<'_, '_, DB> {
    fn write(&mut self, bytes: &[u8]) -> io::Result<usize> {
        self.out.write(bytes)
    }

    fn flush(&mut self) -> io::Result<()> {
        Ok(())
    }
}

pub trait ToSql<A, DB> {
    fn to_sql<'b>(&'b self, out: &mut Output<'b, '_, DB>) -> Result;
}
