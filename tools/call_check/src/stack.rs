//! How much stack a function uses: it runs on a thread whose stack is memory of our own, painted
//! before; the deepest byte that is no longer as painted tells how far it came. What lies below that
//! byte and was set aside but never written is not seen.

use std::ffi::c_void;
use std::sync::Mutex;

type Start = extern "C" fn(*mut c_void) -> *mut c_void;

extern "C" {
    fn pthread_attr_init(attr: *mut [u64; 16]) -> i32;
    fn pthread_attr_setstack(attr: *mut [u64; 16], low: *mut c_void, size: usize) -> i32;
    fn pthread_create(thread: *mut u64, attr: *const [u64; 16], start: Start, arg: *mut c_void) -> i32;
    fn pthread_join(thread: u64, result: *mut *mut c_void) -> i32;
}

const PAGE: usize = 4_096;
const SIZE: usize = 16 << 20;
const PAINT: u8 = 0xA7;

extern "C" fn start(work: *mut c_void) -> *mut c_void {
    let work = unsafe { &*(work as *const Mutex<Box<dyn FnMut() + Send>>) };
    (work.lock().unwrap())();
    std::ptr::null_mut()
}

fn touched(work: Box<dyn FnMut() + Send>) -> usize {
    let work = Mutex::new(work);
    let mut memory = vec![PAINT; SIZE + PAGE];
    let from = memory.as_ptr().align_offset(PAGE);
    let stack = memory[from..from + SIZE].as_mut_ptr();
    let (mut attr, mut thread, mut result) = ([0; 16], 0, std::ptr::null_mut());
    unsafe {
        assert_eq!(pthread_attr_init(&mut attr), 0);
        assert_eq!(pthread_attr_setstack(&mut attr, stack.cast(), SIZE), 0);
        let arg = &work as *const _ as *mut c_void;
        assert_eq!(pthread_create(&mut thread, &attr, start, arg), 0);
        assert_eq!(pthread_join(thread, &mut result), 0);
        (0..SIZE).find(|&i| stack.add(i).read_volatile() != PAINT).map_or(0, |i| SIZE - i)
    }
}

/// The bytes of stack that `work` uses, beyond those of a thread that does nothing.
pub fn used(work: impl FnMut() + Send + 'static) -> usize {
    touched(Box::new(work)).saturating_sub(touched(Box::new(|| ())))
}
