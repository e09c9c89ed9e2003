// Expressions, as far as the types of a result name them.

use crate::backend::Backend;
use crate::sql_types::SingleValue;

pub use diesel_derives::AsExpression;

pub trait AsExpression<T> {}

pub trait TypedExpressionType {}

impl<T: SingleValue> TypedExpressionType for T {}

pub trait Selectable<DB: Backend> {}

pub mod select_by {
    pub struct SelectBy<T, DB>(std::marker::PhantomData<(T, DB)>);
}

pub mod expression_types {
    pub struct Untyped;
}
