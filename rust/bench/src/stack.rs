//! How much stack a task takes: it runs on a thread whose stack was painted before (x86-64 Linux).

use std::ffi::c_void;
use std::ptr::null_mut;

/// A stack of 8 MiB, in cells that are aligned as a stack must be.
const CELLS: usize = (8 << 20) / 16;
const PAINT: u128 = 0xa5c3_96e1_5a3c_691e_a5c3_96e1_5a3c_691e;

/// More than the 56 bytes of glibc's pthread_attr_t.
type Attributes = [u64; 16];
type Begin = extern "C" fn(*mut c_void) -> *mut c_void;

extern "C" {
    fn pthread_attr_init(own: *mut Attributes) -> i32;
    fn pthread_attr_setstack(own: *mut Attributes, low: *mut c_void, size: usize) -> i32;
    fn pthread_attr_destroy(own: *mut Attributes) -> i32;
    fn pthread_create(thread: *mut usize, own: *const Attributes, begin: Begin, given: *mut c_void) -> i32;
    fn pthread_join(thread: usize, result: *mut *mut c_void) -> i32;
}

type Task<'a> = &'a mut dyn FnMut();

extern "C" fn begin(task: *mut c_void) -> *mut c_void {
    // Sound: `touched` hands over a task that outlives the thread.
    unsafe { (*task.cast::<Task>())() };
    null_mut()
}

/// The bytes from the top of a painted stack down to the lowest cell that changed.
fn touched(mut task: Task) -> usize {
    let mut stack = vec![PAINT; CELLS];
    let (mut own, mut thread): (Attributes, usize) = ([0; 16], 0);
    let low = stack.as_mut_ptr().cast();
    // Sound: the stack, the own and the task live until the thread is joined.
    unsafe {
        assert_eq!(pthread_attr_init(&mut own), 0);
        assert_eq!(pthread_attr_setstack(&mut own, low, 16 * CELLS), 0);
        assert_eq!(pthread_create(&mut thread, &own, begin, (&raw mut task).cast()), 0);
        assert_eq!(pthread_join(thread, null_mut()), 0);
        pthread_attr_destroy(&mut own);
    }
    let kept = std::hint::black_box(&stack).iter().take_while(|&&cell| cell == PAINT).count();
    16 * (CELLS - kept)
}

/// The stack of a task beyond that of a thread that does nothing.
pub fn used(mut task: impl FnMut()) -> usize {
    touched(&mut task).saturating_sub(touched(&mut || {}))
}
