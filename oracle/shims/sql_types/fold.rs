// Sums and averages, which no reading asks for.

pub trait Foldable {}
