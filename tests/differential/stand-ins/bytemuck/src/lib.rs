//! Casts between plain numbers, as the cursor, the writer and the column reader use them.

/// A number without padding whose every bit pattern is a value.
///
/// # Safety
/// Only for such types.
pub unsafe trait Pod: Copy + 'static {}

unsafe impl Pod for u8 {}
unsafe impl Pod for u32 {}
unsafe impl Pod for u64 {}
unsafe impl Pod for i64 {}
unsafe impl Pod for u128 {}

fn count_after<A: Pod, B: Pod>(values: &[A]) -> usize {
    let bytes = size_of_val(values);
    assert!(bytes.is_multiple_of(size_of::<B>()) && align_of::<A>() >= align_of::<B>());
    bytes / size_of::<B>()
}

pub fn cast_slice<A: Pod, B: Pod>(values: &[A]) -> &[B] {
    let count = count_after::<A, B>(values);
    unsafe { std::slice::from_raw_parts(values.as_ptr().cast(), count) }
}

pub fn cast_slice_mut<A: Pod, B: Pod>(values: &mut [A]) -> &mut [B] {
    let count = count_after::<A, B>(values);
    unsafe { std::slice::from_raw_parts_mut(values.as_mut_ptr().cast(), count) }
}

/// The same allocation under another type of the same size and alignment.
pub fn cast_vec<A: Pod, B: Pod>(values: Vec<A>) -> Vec<B> {
    assert!(size_of::<A>() == size_of::<B>() && align_of::<A>() == align_of::<B>());
    let mut values = std::mem::ManuallyDrop::new(values);
    unsafe { Vec::from_raw_parts(values.as_mut_ptr().cast(), values.len(), values.capacity()) }
}
