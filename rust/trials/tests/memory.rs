//! The stand-ins for calls that may be refused, and for pointers: what they do while memory lasts, and each refusal.
//! (This program's allocator is its own, which refuses and counts on one thread, so it has `unsafe`.)
#![allow(unsafe_code)]

use blkq::erased::atomic_table::Table;
use blkq::erased::blk_script::parse;
use blkq::erased::crossbeam_queue::RuledArrayQueue;
use blkq::erased::fallible::{AllocError, TryClone, TryCollect, TryRoom, TryToVec, TryVec};
use blkq::erased::line_text::ScriptFault;
use blkq::erased::pointers::{Arc, Rc, TryBox};
use blkq::erased::script_meaning::Pattern;
use std::cell::Cell;
use std::collections::VecDeque;
use std::thread;

#[path = "shared/refused_thread.rs"]
mod refused_thread;
use refused_thread::{ALLOWED, BLOCKS};

/// Makes a call with its first allocation refused, then anew with the second, until none is: each refusal is an error, and frees
/// what was taken. How many allocations the call makes.
fn each_refused<T>(call: impl Fn() -> Result<T, AllocError>) -> u64 {
    for allowed in 0.. {
        let blocks = BLOCKS.get();
        ALLOWED.set(Some(allowed));
        let answer = call();
        ALLOWED.set(None);
        let ended = answer.is_ok();
        drop(answer);
        assert_eq!(BLOCKS.get(), blocks, "a block is left");
        if ended {
            return allowed;
        }
    }
    unreachable!()
}

#[test]
fn each_call_is_refused() {
    assert_eq!(each_refused(|| Vec::<u64>::try_with_room(9)), 1);
    assert_eq!(each_refused(|| Vec::<u64>::try_with_room(0)), 0);
    assert_eq!(each_refused(|| Vec::try_from_elem(7u8, 1000)), 1);
    assert_eq!(each_refused(|| Vec::try_from_array([1, 2, 3])), 1);
    assert_eq!(each_refused(|| Vec::try_from_slice(&[1, 2, 3])), 1);
    assert_eq!(each_refused(|| [1, 2, 3].try_to_vec()), 1);
    assert_eq!(each_refused(|| (0..3).try_collected()), 1);
    assert_eq!(each_refused(|| Box::try_from_value([1u64; 9])), 1);
    assert_eq!(each_refused(|| Box::try_from_value(())), 0);
    assert_eq!(each_refused(|| Rc::try_new(1)), 1);
    assert_eq!(each_refused(|| Arc::try_new(Arc::try_new(1)?)), 2);
    assert_eq!(each_refused(|| Table::of_words(&[1, 2])), 1);
    assert_eq!(each_refused(|| RuledArrayQueue::<u32>::ruled(3)), 1);
    assert_eq!(each_refused(|| Pattern::new(&[7; 8])), 0);
    assert_eq!(each_refused(|| Pattern::new(&[7; 9])), 1);
}

/// A script takes memory for its lines, and for a pattern of more than 8 bytes: a refusal of either is want of memory, not a fault of
/// the script.
#[test]
fn each_script_is_refused() {
    let parsed = |pattern: &str| {
        let script = format!("blkq 1\ndisk 8 hw 8\nwrite 0 1 {pattern}\n");
        each_refused(|| {
            parse(script.as_bytes()).map_err(|fault| assert_eq!(fault, ScriptFault::Memory)).map_err(|()| AllocError)
        })
    };
    assert_eq!(parsed(&"ab".repeat(8)), 1);
    assert_eq!(parsed(&"ab".repeat(9)), 2);
}

/// If a growth is refused, the value stays as it was.
#[test]
fn a_refused_growth_changes_nothing() {
    let mut list = Vec::try_from_array([1, 2]).unwrap();
    let mut queue = VecDeque::from([1, 2]);
    ALLOWED.set(Some(0));
    let refusals = [
        list.try_push(3),
        list.try_resize(9, 3),
        list.try_extend_from_slice(&[3; 9]),
        list.try_make_room(9),
        queue.try_make_room(9),
    ];
    let is_kept = (list == [1, 2], queue == [1, 2]);
    ALLOWED.set(None);
    assert_eq!(refusals, [Err(AllocError); 5]);
    assert_eq!(is_kept, (true, true));
}

#[test]
fn calls_by_hand() {
    let mut list = Vec::try_with_room(4).unwrap();
    assert!(list.capacity() >= 4);
    list.try_push(1).unwrap();
    list.try_extend_from_slice(&[2, 3]).unwrap();
    list.try_resize(5, 9).unwrap();
    assert_eq!(list, [1, 2, 3, 9, 9]);
    list.try_resize(2, 9).unwrap();
    assert_eq!(list, [1, 2]);
    list.try_make_room(10).unwrap();
    assert!(list.capacity() >= 12);
    assert_eq!(Vec::try_from_elem('x', 3).unwrap(), ['x'; 3]);
    assert_eq!(Vec::try_from_elem('x', 0).unwrap(), []);
    assert_eq!((1..4).filter(|k| *k != 2).try_collected().unwrap(), [1, 3]);
    assert_eq!([1, 2].try_to_vec().unwrap(), [1, 2]);
    assert_eq!(String::from("abc").try_clone().unwrap(), "abc");
}

struct Dropped<'a>(&'a Cell<u32>);

impl Drop for Dropped<'_> {
    fn drop(&mut self) {
        self.0.set(self.0.get() + 1);
    }
}

#[test]
fn the_last_pointer_drops_the_value() {
    let drops = Cell::new(0);
    let blocks = BLOCKS.get();
    let mut first = Rc::try_new(Dropped(&drops)).unwrap();
    assert!(Rc::get_mut(&mut first).is_some());
    let second = first.clone();
    assert!(Rc::get_mut(&mut first).is_none());
    drop(second);
    assert!(Rc::get_mut(&mut first).is_some());
    assert_eq!(drops.get(), 0);
    drop(first);
    assert_eq!(drops.get(), 1);
    drop(Box::try_from_value(Dropped(&drops)).unwrap());
    assert_eq!(drops.get(), 2);
    assert_eq!(BLOCKS.get(), blocks);
}

/// Each thread clones, reads and drops; the last pointer alone may write.
#[test]
fn threads_share_a_value() {
    let mut first = Arc::try_new([5u64; 4]).unwrap();
    thread::scope(|scope| {
        for _ in 0..4 {
            let mut mine = first.clone();
            scope.spawn(move || {
                for _ in 0..10_000 {
                    let other = mine.clone();
                    assert_eq!(other[3], 5);
                    mine = other;
                }
            });
        }
    });
    Arc::get_mut(&mut first).unwrap()[0] = 6;
    assert_eq!(*first, [6, 5, 5, 5]);
}

/// A value that its drop writes to.
struct Written(u64);

impl Drop for Written {
    fn drop(&mut self) {
        self.0 += 1;
    }
}

/// Each thread reads the values and drops its pointers. The last pointer drops the value, after each read; under the thread
/// sanitizer this fails if a drop doesn't release, or the last one doesn't acquire.
#[test]
fn the_last_thread_drops_the_value() {
    let mut all: Vec<Vec<Arc<Written>>> = (0..4).map(|_| Vec::new()).collect();
    for _ in 0..10_000 {
        let first = Arc::try_new(Written(5)).unwrap();
        all.iter_mut().for_each(|mine| mine.push(first.clone()));
    }
    thread::scope(|scope| {
        for mine in all {
            scope.spawn(move || mine.into_iter().for_each(|it| assert_eq!(it.0, 5)));
        }
    });
}
