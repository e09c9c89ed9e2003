// Order between types, which no reading asks for.

pub trait SqlOrd {}
