// The two functions that names are made with. Names are not ported, so neither is reached.
pub(crate) fn format_float(_: f32) -> String {
    unreachable!("the oracle never changes a name")
}

pub(crate) fn format_integer_slice<T>(_: &[T]) -> String {
    unreachable!("the oracle never changes a name")
}
