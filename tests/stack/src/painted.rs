//! A thread on a stack that was painted before: what is no longer paint was used.

use std::ffi::c_void;
use std::hint::black_box;
use std::ptr;

mod pthread {
    use std::ffi::{c_int, c_void};

    /// At least as large and as aligned as a `pthread_attr_t`.
    #[repr(C, align(16))]
    pub struct Attributes([u8; 256]);

    impl Attributes {
        pub const fn zeroed() -> Self {
            Attributes([0; 256])
        }
    }

    extern "C" {
        pub fn pthread_attr_init(attributes: *mut Attributes) -> c_int;
        pub fn pthread_attr_setstack(attributes: *mut Attributes, lowest: *mut c_void, bytes: usize) -> c_int;
        pub fn pthread_attr_destroy(attributes: *mut Attributes) -> c_int;
        pub fn pthread_create(
            thread: *mut usize,
            attributes: *const Attributes,
            start: extern "C" fn(*mut c_void) -> *mut c_void,
            argument: *mut c_void,
        ) -> c_int;
        pub fn pthread_join(thread: usize, result: *mut *mut c_void) -> c_int;
    }
}

/// More than any call here uses.
const BYTES: usize = 8 << 20;
const PAINT: u64 = 0xA5C3_96F0_5A3C_690F;

/// A page, so that the stack starts at one.
#[derive(Clone)]
#[repr(C, align(4096))]
struct Page([u64; 512]);

/// Bytes of stack that a call uses, from where it is made to the lowest that is no longer paint.
pub fn bytes_used(mut call: impl FnMut()) -> usize {
    let mut stack = vec![Page([PAINT; 512]); BYTES / size_of::<Page>()];
    let mut top = 0;
    run_on(&mut stack, &mut || {
        let here = 0u8;
        top = ptr::from_ref(black_box(&here)).addr();
        call();
    });
    let untouched = stack.iter().flat_map(|page| page.0).take_while(|&word| word == PAINT).count();
    assert!(untouched > 0, "the stack was too small");
    top - (stack.as_ptr().addr() + untouched * size_of::<u64>())
}

/// Makes a call on a thread with this stack, and waits for its end.
fn run_on(stack: &mut [Page], mut call: &mut dyn FnMut()) {
    let mut attributes = pthread::Attributes::zeroed();
    let mut thread = 0;
    let argument: *mut &mut dyn FnMut() = &mut call;
    // SAFETY: the attributes are large enough; stack and call live until the thread has ended, and only it uses them.
    unsafe {
        assert_eq!(pthread::pthread_attr_init(&mut attributes), 0);
        assert_eq!(pthread::pthread_attr_setstack(&mut attributes, stack.as_mut_ptr().cast(), size_of_val(stack)), 0);
        assert_eq!(pthread::pthread_create(&mut thread, &attributes, start, argument.cast()), 0);
        assert_eq!(pthread::pthread_join(thread, ptr::null_mut()), 0);
        assert_eq!(pthread::pthread_attr_destroy(&mut attributes), 0);
    }
}

/// What the thread does. A panic can't leave it, and ends the program.
extern "C" fn start(argument: *mut c_void) -> *mut c_void {
    // SAFETY: `run_on` hands over a pointer to a call, and waits.
    let call = unsafe { &mut *argument.cast::<&mut dyn FnMut()>() };
    call();
    ptr::null_mut()
}

#[cfg(test)]
mod tests {
    use super::*;

    #[inline(never)]
    fn uses<const N: usize>() {
        let frame = [black_box(1u8); N];
        black_box(&frame);
    }

    #[test]
    fn bytes_of_a_frame_are_counted() {
        for (used, least) in [(bytes_used(uses::<100_000>), 100_000), (bytes_used(uses::<3_000_000>), 3_000_000)] {
            assert!((least..least + 8_192).contains(&used), "{used}");
        }
    }
}
