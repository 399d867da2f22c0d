//! `Debug` for types around a value that may have none.

/// Each type by a name and some fields.
macro_rules! shows {
    ($($of:ty: |$it:ident| $name:literal { $($field:ident: $get:expr),+ };)+) => {$(
        impl<T> std::fmt::Debug for $of {
            fn fmt(&self, f: &mut std::fmt::Formatter<'_>) -> std::fmt::Result {
                let $it = self;
                f.debug_struct($name)$(.field(stringify!($field), &$get))+.finish_non_exhaustive()
            }
        }
    )+};
}

shows! {
    crate::Queue<T>: |queue| "Queue" { id: queue.id() };
    crate::Tag<T>: |tag| "Tag" { queue: tag.queue_id(), number: tag.number() };
    crate::Request<'_, T>: |request| "Request" { queue: request.queue().id, tag: request.tag_number() };
    crate::OwnedRequest<T>: |request| "OwnedRequest" { queue: request.queue().id, tag: request.tag_number() };
    crate::Freezing<'_, T>: |freezing| "Freezing" { queue: freezing.queue().id };
    crate::OwnedFreezing<T>: |freezing| "Freezing" { queue: freezing.queue().id };
    crate::Frozen<'_, T>: |frozen| "Frozen" { queue: frozen.queue().id };
    crate::OwnedFrozen<T>: |frozen| "Frozen" { queue: frozen.queue().id };
}
