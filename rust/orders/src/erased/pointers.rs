//! A pointer that several have, which makes no step.

use crate::erased::fallible::AllocError;
use std::ops::Deref;
use std::rc::Rc;

#[derive(Debug)]
pub struct Arc<T>(Rc<T>);

impl<T> Arc<T> {
    pub fn try_new(value: T) -> Result<Arc<T>, AllocError> {
        Ok(Arc(Rc::new(value)))
    }
}

impl<T> Clone for Arc<T> {
    fn clone(&self) -> Arc<T> {
        Arc(self.0.clone())
    }
}

impl<T> Deref for Arc<T> {
    type Target = T;

    fn deref(&self) -> &T {
        &self.0
    }
}
