// A row and its fields, as the typed readings of a row ask for them.

use crate::backend::Backend;

pub trait Field<'a, DB: Backend> {
    fn field_name(&self) -> Option<&str>;

    fn value(&self) -> Option<DB::RawValue<'_>>;
}

pub trait Row<'a, DB: Backend> {
    type Field<'f>: Field<'f, DB>
    where
        'a: 'f,
        Self: 'f;

    fn get<'f>(&'f self, index: usize) -> Option<Self::Field<'f>>
    where
        'a: 'f;
}

pub trait NamedRow<'a, DB: Backend>: Row<'a, DB> {}

impl<'a, DB: Backend, R: Row<'a, DB>> NamedRow<'a, DB> for R {}
