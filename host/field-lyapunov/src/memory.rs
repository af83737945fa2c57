//! Memory for outputs, asked for so that a size that can't be had is an answer and no abort.

/// `length` floats, all 0; `None` where there is no memory for them.
pub fn floats(length: usize) -> Option<Vec<f64>> {
    let mut floats = Vec::new();
    floats.try_reserve_exact(length).ok()?;
    floats.resize(length, 0.0);
    Some(floats)
}

/// An empty list with room for `length` entries.
pub fn list<T>(length: usize) -> Option<Vec<T>> {
    let mut list = Vec::new();
    list.try_reserve_exact(length).ok()?;
    Some(list)
}

#[cfg(test)]
mod tests {
    #[test]
    fn sizes_that_cannot_be_had() {
        assert_eq!(super::floats(usize::MAX), None);
        assert_eq!(super::list::<u64>(usize::MAX / 8), None);
        assert_eq!(super::floats(2), Some(vec![0.0, 0.0]));
    }
}
