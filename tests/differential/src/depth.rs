//! Measures the stack that a piece of code takes: it runs on a thread whose stack is painted
//! memory, and the paint that is gone afterwards is what it took.

use std::ffi::c_void;
use std::ptr::null_mut;

/// The numbers of the painted stack: 1 MiB, more than a call on any table takes.
const ROOM: usize = (1 << 20) / 8;

/// What untouched stack holds: nothing that a call writes by chance at its deepest place.
const PAINT: u64 = 0x5eed_5eed_5eed_5eed;

/// The memory of a `pthread_attr_t`, which is smaller.
type Attributes = [u64; 16];

extern "C" {
    fn pthread_attr_init(attributes: *mut Attributes) -> i32;
    fn pthread_attr_setstack(attributes: *mut Attributes, low: *mut c_void, bytes: usize) -> i32;
    fn pthread_attr_destroy(attributes: *mut Attributes) -> i32;
    fn pthread_create(
        thread: *mut usize,
        attributes: *const Attributes,
        start: extern "C" fn(*mut c_void) -> *mut c_void,
        argument: *mut c_void,
    ) -> i32;
    fn pthread_join(thread: usize, result: *mut *mut c_void) -> i32;
}

/// What runs on the painted stack, and the address at which it starts.
struct Work<'a> {
    code: &'a mut (dyn FnMut() + 'a),
    top: usize,
}

/// Notes where the stack stands and runs the code.
extern "C" fn start(argument: *mut c_void) -> *mut c_void {
    let here = 0u8;
    // SAFETY: the argument is the work that `of` waits for.
    let work = unsafe { &mut *argument.cast::<Work>() };
    work.top = std::hint::black_box(&here) as *const u8 as usize;
    (work.code)();
    null_mut()
}

/// Runs code and gives the bytes of stack that it takes, those of its own first frame included.
pub fn of(code: &mut dyn FnMut()) -> usize {
    let mut stack = vec![PAINT; ROOM];
    let mut work = Work { code, top: 0 };
    let (mut attributes, mut thread): (Attributes, usize) = ([0; 16], 0);
    let low: *mut u64 = stack.as_mut_ptr();
    // SAFETY: the stack and the work outlive the thread, and nothing else uses them meanwhile.
    let ran = unsafe {
        let argument: *mut Work = &mut work;
        pthread_attr_init(&mut attributes) == 0
            && pthread_attr_setstack(&mut attributes, low.cast(), ROOM * 8) == 0
            && pthread_create(&mut thread, &attributes, start, argument.cast()) == 0
            && pthread_join(thread, null_mut()) == 0
            && pthread_attr_destroy(&mut attributes) == 0
    };
    assert!(ran, "a thread runs on the painted stack");
    let untouched = stack.iter().take_while(|&&number| number == PAINT).count();
    work.top - (low as usize + 8 * untouched)
}
