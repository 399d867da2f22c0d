//! Which steps of an order meet: those of different actors that touch a place, which one of them changes.
//!
//! An actor that could go on is switched away from after a step. If no step meets that one until the actor goes on, then it might as well have
//! come after them all, as in an order that has the switch before it and no more switches than this one. So the actor goes on only after
//! its last step has met another.

/// A place that a step touches: an address, or a small number that stands for what has none.
pub(crate) type Touched = usize;

/// The buffer of an actor, which a heavy fence empties.
pub(crate) fn buffer_of(actor: usize) -> Touched {
    2 * actor
}

/// The token by which an actor's park ends.
pub(crate) fn token_of(actor: usize) -> Touched {
    2 * actor + 1
}

/// A step with all that its actor does until its next one.
#[derive(Debug)]
struct Step {
    actor: usize,
    /// The places, and whether each was changed.
    touched: Vec<(Touched, bool)>,
}

impl Step {
    fn meets(&self, other: &Step) -> bool {
        let by =
            |(place, changed): &(Touched, bool)| other.touched.iter().any(|it| it.0 == *place && (it.1 || *changed));
        self.actor != other.actor && self.touched.iter().any(by)
    }
}

/// The steps of an order.
#[derive(Debug, Default)]
pub(crate) struct Meetings(Vec<Step>);

impl Meetings {
    pub(crate) fn clear(&mut self) {
        self.0.clear();
    }

    /// A step begins.
    pub(crate) fn begin(&mut self, actor: usize) {
        self.0.push(Step { actor, touched: Vec::new() });
    }

    /// The step that began last touches a place.
    pub(crate) fn touch(&mut self, place: Touched, changes: bool) {
        if let Some(step) = self.0.last_mut() {
            step.touched.push((place, changes));
        }
    }

    /// Whether the last step of an actor has met another.
    pub(crate) fn has_met(&self, actor: usize) -> bool {
        let last = self.0.iter().rposition(|it| it.actor == actor);
        last.is_none_or(|last| self.0[last + 1..].iter().any(|it| it.meets(&self.0[last])))
    }
}
