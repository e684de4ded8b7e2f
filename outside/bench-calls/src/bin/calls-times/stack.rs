//! The stack of a call: it runs on a thread whose stack is memory that was
//! painted before, and the lowest byte that lost its paint tells how deep it
//! went.

use crate::cases::{Call, Case};
use crate::sides::{nothing, ByValue, Plain, Proved, Run, Side, Work};
use std::ffi::c_void;
use std::ptr::null_mut;

const SIZE: usize = 1 << 18;
const PAINT: u8 = 0xa5;

/// A thread's stack begins on a page.
#[repr(C, align(4096))]
struct Stack([u8; SIZE]);

/// Room for the attributes of a thread; Linux on 64-bit machines needs 56 bytes.
#[repr(C)]
struct Attributes([u64; 16]);

type Entry = extern "C" fn(*mut c_void) -> *mut c_void;

extern "C" {
    fn pthread_attr_init(attributes: *mut Attributes) -> i32;
    fn pthread_attr_setstack(attributes: *mut Attributes, low: *mut c_void, size: usize) -> i32;
    fn pthread_attr_destroy(attributes: *mut Attributes) -> i32;
    fn pthread_create(
        thread: *mut u64,
        attributes: *const Attributes,
        entry: Entry,
        given: *mut c_void,
    ) -> i32;
    fn pthread_join(thread: u64, result: *mut *mut c_void) -> i32;
}

/// A call to be made on the thread.
struct Job<'a, S> {
    run: Run<S>,
    case: &'a Case,
    work: Work<S>,
}

extern "C" fn make<S>(given: *mut c_void) -> *mut c_void {
    // SAFETY: `depth` gives the address of a job that lives until the join.
    let job = unsafe { &mut *given.cast::<Job<S>>() };
    std::hint::black_box((job.run)(job.case, &mut job.work));
    null_mut()
}

/// How far from its upper end the stack of a thread was used.
fn depth<S>(mut job: Job<S>) -> Result<usize, String> {
    let mut stack = vec![Stack([PAINT; SIZE])];
    let mut attributes = Attributes([0; 16]);
    let mut thread = 0;
    let low = stack.as_mut_ptr().cast();
    // SAFETY: the stack and the job live until the thread has ended, and
    // nothing else looks at them before.
    let failed = unsafe {
        pthread_attr_init(&mut attributes) != 0
            || pthread_attr_setstack(&mut attributes, low, SIZE) != 0
            || pthread_create(&mut thread, &attributes, make::<S>, (&raw mut job).cast()) != 0
            || pthread_join(thread, null_mut()) != 0
            || pthread_attr_destroy(&mut attributes) != 0
    };
    if failed {
        return Err(String::from("no thread on a stack of its own"));
    }
    let untouched = stack[0].0.iter().take_while(|&&b| b == PAINT).count();
    Ok(SIZE - untouched)
}

/// The most bytes of stack that a call takes on one side, without the thread's.
fn most<C: Side>(call: Call, cases: &[Case]) -> Result<usize, String> {
    let mut most = 0;
    for case in cases {
        let on = |run| {
            depth(Job {
                run,
                case,
                work: C::work(case),
            })
        };
        most = most.max(on(C::run(call))?.saturating_sub(on(nothing)?));
    }
    Ok(most)
}

/// Bytes of stack of a call: the proved one, the plain one, and that by value.
pub fn stacks(call: Call, cases: &[Case]) -> Result<[usize; 3], String> {
    Ok([
        most::<Proved>(call, cases)?,
        most::<Plain>(call, cases)?,
        most::<ByValue>(call, cases)?,
    ])
}
