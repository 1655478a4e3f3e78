//! Zeros over memory that is not looked at again.
use core::mem::size_of;
use core::ptr::write_volatile;
use core::sync::atomic::{compiler_fence, Ordering};

/// Records of plain numbers.
///
/// # Safety
///
/// All zeros have to be a value of the type, and there has to be nothing to drop in it.
pub(crate) unsafe trait Plain {}
unsafe impl Plain for [u8; 16] {}
unsafe impl Plain for crate::raw::Session {}
unsafe impl Plain for crate::raw::Keys {}

/// The compiler drops a plain write to memory that nothing reads afterwards; a volatile one it has to make.
pub(crate) fn wipe<T: Plain>(x: &mut T) {
    let at = (x as *mut T).cast::<u8>();
    for i in 0..size_of::<T>() {
        // inside x, and T may be all zeros
        unsafe { write_volatile(at.add(i), 0) };
    }
    compiler_fence(Ordering::SeqCst);
}
