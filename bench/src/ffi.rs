//! The library's walks and searches, as the static library of `crates/bench_ffi` exports them.

/// A function of a slice for reading, as C has it.
pub type Read = unsafe extern "C" fn(*const u32, usize) -> usize;

/// A function of a text's bytes.
pub type Text = unsafe extern "C" fn(*const u8, usize) -> usize;

/// A function of a slice for writing.
pub type Write = unsafe extern "C" fn(*mut u32, usize) -> usize;

/// A function of a slice and keys that are sought there, or of the two sides of a join.
pub type Join = unsafe extern "C" fn(*const u32, usize, *const u32, usize) -> usize;

macro_rules! reading {
    ($($name:ident)*) => { extern "C" { $(pub fn $name(xs: *const u32, len: usize) -> usize;)* } };
}

macro_rules! writing {
    ($($name:ident)*) => { extern "C" { $(pub fn $name(xs: *mut u32, len: usize) -> usize;)* } };
}

reading! {
    linear_front linear_back linear_by_front linear_by_back linear_by_key_front linear_by_key_back
    binary_front binary_back binary_by_front binary_by_back binary_by_key_front binary_by_key_back
    exponential_front exponential_back exponential_by_front exponential_by_back exponential_by_key_front exponential_by_key_back
    linear_both_ends linear_questions binary_questions exponential_questions
}

writing! {
    linear_mut_front linear_mut_back linear_by_mut_front linear_by_mut_back linear_by_key_mut_front linear_by_key_mut_back
    binary_mut_front binary_mut_back binary_by_mut_front binary_by_mut_back binary_by_key_mut_front binary_by_key_mut_back
    exponential_mut_front exponential_mut_back exponential_by_mut_front exponential_by_mut_back
    exponential_by_key_mut_front exponential_by_key_mut_back
}

/// A walk over numbers of this type, as C has it.
pub type Walk<T> = unsafe extern "C" fn(*const T, usize) -> usize;

macro_rules! numbers {
    ($($type:ident $front:ident $back:ident;)*) => { extern "C" {
        $(pub fn $front(xs: *const $type, len: usize) -> usize; pub fn $back(xs: *const $type, len: usize) -> usize;)*
    } };
}

numbers! {
    u8 number_u8_front number_u8_back;
    u32 number_u32_front number_u32_back;
    u64 number_u64_front number_u64_back;
    f64 number_f64_front number_f64_back;
}

extern "C" {
    pub fn class_front(bytes: *const u8, len: usize) -> usize;
    pub fn class_back(bytes: *const u8, len: usize) -> usize;
    pub fn class_counts(bytes: *const u8, len: usize) -> usize;
    pub fn text_front(bytes: *const u8, len: usize) -> usize;
    pub fn text_back(bytes: *const u8, len: usize) -> usize;
    pub fn text_both_ends(bytes: *const u8, len: usize) -> usize;
    pub fn text_mut_front(bytes: *mut u8, len: usize) -> usize;
    pub fn text_mut_back(bytes: *mut u8, len: usize) -> usize;
    pub fn searches(xs: *const u32, len: usize, keys: *const u32, count: usize) -> usize;
    pub fn partition_points(xs: *const u32, len: usize, keys: *const u32, count: usize) -> usize;
    pub fn equal_places(xs: *const u32, len: usize, keys: *const u32, count: usize) -> usize;
    pub fn merge_join(left: *const u32, left_len: usize, right: *const u32, right_len: usize) -> usize;
    pub fn merge_join_by(left: *const u32, left_len: usize, right: *const u32, right_len: usize) -> usize;
}
