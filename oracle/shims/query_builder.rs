// Building of queries, as far as a backend names it. No query is built here.

pub use diesel_derives::QueryId;

pub trait QueryId {}

pub trait QueryBuilder<DB> {}

pub mod bind_collector {
    use std::marker::PhantomData;

    pub trait BindCollector<'a, DB> {}

    pub struct RawBytesBindCollector<DB>(PhantomData<DB>);

    impl<DB> BindCollector<'_, DB> for RawBytesBindCollector<DB> {}
}
