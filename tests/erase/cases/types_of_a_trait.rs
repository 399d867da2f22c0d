//! A trait with a type of its own.

/// What has places.
pub trait Placed {
    /// Where something is.
    type Place;
    type Step: Copy;

    /// The number of the place.
    fn number(place: &Self::Place) -> u64;
}
