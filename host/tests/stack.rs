//! How much stack each call uses: it runs on a thread whose stack is painted, and what is no longer painted was used. Linux on x86-64.
#![cfg(all(target_os = "linux", target_arch = "x86_64"))]

mod support;

use owed_ledger::{LONGEST_REPORTS, LONGEST_SNAPSHOT, STACK, slices};
use std::ffi::c_void;
use std::ptr::null_mut;
use support::plain::Part;
use support::random::Random;

const PAINT: u8 = 0xc3;

#[repr(C, align(16))]
struct Attributes([u8; 64]);

unsafe extern "C" {
    fn pthread_attr_init(attributes: *mut Attributes) -> i32;
    fn pthread_attr_setstack(attributes: *mut Attributes, at: *mut c_void, size: usize) -> i32;
    fn pthread_create(
        thread: *mut usize,
        attributes: *const Attributes,
        run: extern "C" fn(*mut c_void) -> *mut c_void,
        given: *mut c_void,
    ) -> i32;
    fn pthread_join(thread: usize, gave: *mut *mut c_void) -> i32;
}

type Job<'a> = &'a mut dyn FnMut();

extern "C" fn run(given: *mut c_void) -> *mut c_void {
    // SAFETY: `used` hands over a pointer to its job, which outlives the thread.
    unsafe { (*given.cast::<Job>())() };
    null_mut()
}

/// The bytes of stack that a job uses, with those of the thread itself. The thread has twice `STACK`, so that one that needs more is seen.
fn used(mut job: impl FnMut()) -> usize {
    const SIZE: usize = 2 * STACK;
    let mut memory = vec![PAINT; SIZE + 4096];
    let from = memory.as_ptr().align_offset(4096);
    let mut job: Job = &mut job;
    let mut attributes = Attributes([0; 64]);
    let mut thread = 0;
    // SAFETY: the stack and the job outlive the thread, which is joined; nothing else touches them meanwhile.
    unsafe {
        assert_eq!(pthread_attr_init(&raw mut attributes), 0);
        assert_eq!(
            pthread_attr_setstack(
                &raw mut attributes,
                memory.as_mut_ptr().add(from).cast(),
                SIZE
            ),
            0
        );
        assert_eq!(
            pthread_create(
                &raw mut thread,
                &raw const attributes,
                run,
                (&raw mut job).cast()
            ),
            0
        );
        assert_eq!(pthread_join(thread, null_mut()), 0);
    }
    let stack = &memory[from..][..SIZE];
    SIZE - stack.iter().take_while(|byte| **byte == PAINT).count()
}

#[test]
fn each_call_stays_within_its_stack() {
    let full = Random::full();
    let mut reported = full.clone();
    for e in &mut reported.entries {
        (e.part, e.decomposed, e.named) = (Part::Whole, 0, 40);
        (e.core, e.edges, e.marks, e.absences, e.returned) = (vec![], vec![], vec![], vec![], 0);
    }
    let (full, reported) = (full.bytes(), reported.bytes());
    let mut out = vec![0; LONGEST_SNAPSHOT];
    let mut reports = vec![0; LONGEST_REPORTS];
    let thread = used(|| {});
    let calls = [
        (
            "make",
            used(|| slices::make(4, 100, 50, 200, &mut out).expect("a ledger is made")),
        ),
        (
            "read of the fullest ledger",
            used(|| slices::read(&full, &mut out).expect("it is accepted")),
        ),
        (
            "prune of it, where all stand",
            used(|| slices::prune(&full, 0, &mut out, &mut reports).expect("it is pruned")),
        ),
        (
            "prune with 48 reports",
            used(|| slices::prune(&reported, 0, &mut out, &mut reports).expect("it is pruned")),
        ),
    ];
    for (name, size) in calls {
        println!("stack of {name}: {} bytes", size - thread);
        assert!(size < STACK / 2, "{name} uses {size} bytes");
    }
}
