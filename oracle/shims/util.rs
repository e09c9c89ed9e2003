// The size of a tuple of types.

pub trait TupleSize {
    const SIZE: usize;
}
