//! The ring: a push or a pop is a step under a lock, and one that finds nothing has only read a number, as in blkq.

use crate::erased::fallible::AllocError;
use orders::turns::{AtomicUsize, Mutex};
use real::collections::VecDeque;
use real::marker::PhantomData;
use real::sync::atomic::Ordering::SeqCst;

pub struct Pass<T>(PhantomData<fn() -> T>);

pub struct RuledArrayQueue<T> {
    room: usize,
    count: AtomicUsize,
    items: Mutex<VecDeque<T>>,
}

impl<T> RuledArrayQueue<T> {
    pub fn ruled(room: usize) -> Result<(Self, Pass<T>), AllocError> {
        let queue = RuledArrayQueue { room, count: AtomicUsize::new(0), items: Mutex::default() };
        Ok((queue, Pass(PhantomData)))
    }

    pub fn capacity(&self) -> usize {
        self.room
    }

    #[track_caller]
    pub fn push_as(&self, _pass: &mut Pass<T>, item: T) -> Result<(), T> {
        let mut items = self.items.lock().expect("a lock of no actor that panicked");
        if items.len() == self.room {
            return Err(item);
        }
        items.push_back(item);
        self.count.fetch_add(1, SeqCst);
        Ok(())
    }

    #[track_caller]
    pub fn pop_as(&self, _pass: &mut Pass<T>) -> Option<T> {
        if self.count.load(SeqCst) == 0 {
            return None;
        }
        let mut items = self.items.lock().expect("a lock of no actor that panicked");
        let item = items.pop_front()?;
        self.count.fetch_sub(1, SeqCst);
        Some(item)
    }

    #[track_caller]
    pub fn is_empty_as(&self, _pass: &mut Pass<T>) -> bool {
        self.count.load(SeqCst) == 0
    }

    #[track_caller]
    pub fn len_as(&self, _pass: &mut Pass<T>) -> usize {
        self.count.load(SeqCst)
    }

    pub fn another(&self, _pass: &mut Pass<T>) -> Pass<T> {
        Pass(PhantomData)
    }

    pub fn absorb(&self, _pass: &mut Pass<T>, _other: Pass<T>) {}

    pub fn learn_as(&self, _pass: &mut Pass<T>) {}

    pub fn pass(&self) -> Pass<T> {
        Pass(PhantomData)
    }
}
