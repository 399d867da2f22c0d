//! The heavy fence of freezes: a process whose filter refuses it has biased tags all the same, and a process that was forked has it too.
#![cfg(all(target_os = "linux", any(target_arch = "x86_64", target_arch = "aarch64"), not(miri)))]
#![allow(unsafe_code)]

use freeze_queue::Queue;
use std::env;
use std::ffi::{c_int, c_long, c_ulong};
use std::mem;
use std::panic::{AssertUnwindSafe, catch_unwind};
use std::process::Command;
use std::sync::atomic::{AtomicU64, Ordering::Relaxed};
use std::thread;

mod shared;
use shared::{LIMITS, number_of, queue, until};

unsafe extern "C" {
    fn prctl(option: c_int, ...) -> c_int;
    fn fork() -> c_int;
    fn waitpid(process: c_int, status: *mut c_int, options: c_int) -> c_int;
    fn _exit(status: c_int) -> !;
}

/// An instruction of a filter (linux/filter.h).
#[repr(C)]
struct Instruction(u16, u8, u8, u32);

#[repr(C)]
struct Program {
    length: u16,
    instructions: *const Instruction,
}

/// The commands of `membarrier` by which a freeze makes its fence, and by which a process asks for it.
const FENCE: u32 = 8;
const REGISTER: u32 = 16;

/// Refuses a command of `membarrier` from now on, on this thread and those that it starts.
fn refuse(command: u32) {
    let number = if cfg!(target_arch = "x86_64") { 324 } else { 283 };
    let filter = [
        Instruction(0x20, 0, 0, 0), // loads the number of the system call
        Instruction(0x15, 0, 3, number),
        Instruction(0x20, 0, 0, 16), // loads its first argument
        Instruction(0x15, 0, 1, command),
        Instruction(0x06, 0, 0, 0x0005_0001), // EPERM
        Instruction(0x06, 0, 0, 0x7fff_0000), // allowed
    ];
    let program = Program { length: 6, instructions: filter.as_ptr() };
    let (no_new_privileges, seccomp, by_filter) = (38, 22, 2 as c_ulong);
    let none = 0 as c_long;
    // SAFETY: the call reads no memory.
    let is_bound = unsafe { prctl(no_new_privileges, 1 as c_long, none, none, none) } == 0;
    // SAFETY: the kernel copies the filter during the call.
    let is_filtered = unsafe { prctl(seccomp, by_filter, &raw const program) } == 0;
    assert!(is_bound && is_filtered, "the kernel takes a filter");
}

/// Requests beside changes of two numbers that each request has to see equal; and each tag was biased.
fn storm(queue: &Queue) {
    let (one, other) = (AtomicU64::new(0), AtomicU64::new(0));
    let changes = number_of("FREEZE_QUEUE_ROUNDS", 2_000);
    thread::scope(|threads| {
        for _ in 0..2 {
            threads.spawn(|| {
                let (mut tag, mut was_biased) = (queue.tag().unwrap(), false);
                while one.load(Relaxed) < changes || !was_biased {
                    let request = queue.enter(&mut tag).unwrap();
                    assert_eq!(one.load(Relaxed), other.load(Relaxed), "a change beside a request");
                    drop(request);
                    was_biased |= queue.stats().biased > 0;
                }
            });
        }
        for change in 1..=changes {
            let frozen = queue.freeze().unwrap();
            one.store(change, Relaxed);
            frozen.set(LIMITS.with_max(1 + u32::try_from(change).unwrap() % 64)).unwrap();
            other.store(change, Relaxed);
        }
    });
}

/// Runs a test of this file in a process of its own, whose lines are shown only if it fails. Whether this is that process.
fn is_own_process(test: &str) -> bool {
    if env::var_os("FREEZE_QUEUE_ALONE").is_some() {
        return true;
    }
    let mut alone = Command::new(env::current_exe().unwrap());
    alone.args([test, "--exact", "--nocapture"]).env("FREEZE_QUEUE_ALONE", "1");
    let answer = alone.output().unwrap();
    assert!(answer.status.success(), "{test} in a process of its own: {answer:?}");
    false
}

#[test]
fn a_filter_refuses_the_fence() {
    if is_own_process("a_filter_refuses_the_fence") {
        refuse(FENCE);
        refuse(REGISTER);
        let queue = queue(2, 2);
        assert!(!queue.stats().membarrier);
        storm(&queue);
    }
}

/// A filter that allows the registration, and refuses each fence after it.
#[test]
fn a_filter_refuses_the_fence_alone() {
    if is_own_process("a_filter_refuses_the_fence_alone") {
        refuse(FENCE);
        let queue = queue(2, 2);
        assert!(!queue.stats().membarrier);
        storm(&queue);
    }
}

#[test]
fn this_system_has_the_fence() {
    if is_own_process("this_system_has_the_fence") {
        let queue = queue(2, 2);
        assert!(queue.stats().membarrier);
        storm(&queue);
    }
}

#[test]
fn a_forked_process_has_the_fence() {
    if is_own_process("a_forked_process_has_the_fence") {
        let queue = queue(2, 2);
        drop(queue.enter_any().unwrap());
        // SAFETY: this thread alone runs in the child, and no lock was taken: the test's other thread only waits.
        let child = unsafe { fork() };
        if child == 0 {
            storm(&queue);
            let is_as_before = queue.stats().membarrier;
            // SAFETY: it ends the process.
            unsafe { _exit(c_int::from(!is_as_before)) };
        }
        let mut status = -1;
        // SAFETY: the status is this function's.
        let ended = unsafe { waitpid(child, &raw mut status, 0) };
        assert_eq!((ended, status), (child, 0), "the child ran to its end");
        storm(&queue);
    }
}

/// The fence is refused that was allowed when the first queue was made: a freeze of a queue with a biased tag panics, as its page says. (A
/// filter binds its thread alone.)
#[test]
fn a_fence_that_is_refused_later_panics() {
    for refused in [&[FENCE][..], &[FENCE, REGISTER][..]] {
        let freezes = move || {
            let queue = queue(1, 1);
            until("a tag is biased", || {
                drop(queue.enter_any().unwrap());
                queue.stats().biased == 1
            });
            for command in refused {
                refuse(*command);
            }
            assert!(catch_unwind(AssertUnwindSafe(|| drop(queue.freeze()))).is_err());
            mem::forget(queue);
        };
        thread::spawn(freezes).join().unwrap();
    }
}
