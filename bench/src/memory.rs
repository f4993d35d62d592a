//! Where new memory comes from.

unsafe extern "C" {
    /// A setting of the C library's allocator, which both the crate and this program allocate from.
    fn mallopt(parameter: i32, value: i32) -> i32;
}

/// Memory that was let go stays with the program up to this length.
const M_TRIM_THRESHOLD: i32 = -1;
/// From this length on, memory is asked of the system.
const M_MMAP_THRESHOLD: i32 = -3;
/// So many lists at most.
const M_MMAP_MAX: i32 = -4;

/// From here on a plane, and every list as long, is made of memory that no one has touched. It has to come before any
/// such list is let go to be used again.
pub fn always_fresh() {
    set(M_MMAP_THRESHOLD, 1 << 20);
}

/// From here on a plane is made of memory that a plane before it had, once there was one.
pub fn used_again() {
    set(M_MMAP_MAX, 0);
    set(M_TRIM_THRESHOLD, i32::MAX);
}

fn set(parameter: i32, value: i32) {
    // It changes a setting and touches nothing of this program's.
    let done = unsafe { mallopt(parameter, value) };
    assert_eq!(done, 1, "the allocator has no setting {parameter}");
}
