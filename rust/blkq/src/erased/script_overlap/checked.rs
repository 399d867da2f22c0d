// Erased from crates/script_overlap/src/checked.rt by tools/erase: edit that file.
//! Which requests of a script overlap, which are ordered, and a script with these decisions.

use crate::erased::fallible::{AllocError, TryVec};
use crate::erased::line_text::{Overlap, ScriptFault};
use crate::erased::script_meaning::{Outcome, QueueState, Request, Script};
use crate::erased::script_overlap::span::Span;

fn end(request: &Request) -> u64 {
    u64::from(request.start) + u64::from(request.count)
}

/// Returns whether the two requests share a sector and at least one of them writes.
fn clashes(one: &Request, other: &Request) -> bool {
    if !one.writes && !other.writes {
        return false;
    }
    let first = u64::from(one.start.max(other.start));
    first < end(one) && first < end(other)
}

/// A checked script: no two of its requests overlap without a drain between them.
///
/// [`Checked::of`] makes it. It keeps which requests the queue accepts, how many they are, and which are ordered, so that a run of
/// the script decides none of these again. The other lines are taken anew, for their replies.
pub struct Checked<'s> {
    script: &'s Script,
    // for each line, the request that the queue accepts, if there is one
    requests: Vec<Option<Request>>,
    // the positions of the ordered requests, ascending
    ordered: Vec<usize>,
    accepted: usize,
}

impl<'s> Checked<'s> {
    /// Checks a script as [`check`](crate::erased::script_overlap::check) does, with the same errors, and keeps the decisions.
    pub fn of(script: &'s Script) -> Result<Checked<'s>, ScriptFault> {
        decide(script)
    }

    /// # Preconditions
    ///
    /// - `IsDecided(script, requests, ordered, accepted)`: the request at each position is recorded; no two requests
    ///   overlap, `ordered` has the positions of the ordered requests, of which version 1 has none, and `accepted` is
    ///   how many requests are accepted.
    fn new(script: &'s Script, requests: Vec<Option<Request>>, ordered: Vec<usize>, accepted: usize) -> Checked<'s> {
        Checked { script, requests, ordered, accepted }
    }

    /// Returns the script.
    pub fn script(&self) -> &'s Script {
        self.script
    }

    /// Returns the request that the queue accepts at a position, counted from 0, if there is one.
    pub fn request(&self, position: usize) -> Option<Request> {
        match self.requests.get(position) {
            Some(request) => *request,
            None => None,
        }
    }

    /// Returns how many of its requests the queue accepts.
    pub fn accepted(&self) -> usize {
        self.accepted
    }

    /// Returns whether the request at a position, counted from 0, is ordered: the queue has to drain before it. Any other request
    /// joins the span that reaches to it. In version 1 none is ordered.
    pub fn is_ordered(&self, position: usize) -> bool {
        self.ordered.binary_search(&position).is_ok()
    }

    /// Returns the numbers of the lines before which the queue has to drain, in the script's order: in version 2 those of the
    /// ordered requests, in version 1 none. Fails only if memory is refused.
    pub fn drains(&self) -> Result<Vec<u32>, AllocError> {
        let mut lines = Vec::try_with_room(self.ordered.len())?;
        for position in &self.ordered {
            lines.try_push(self.script.lines()[*position].number)?;
        }
        Ok(lines)
    }
}

// Returns the number of the first line before a position whose request is in the span that reaches there and clashes with the
// request. It goes through the lines again, once, for a script that is refused.
//
// # Preconditions
//
// - `position` is at most `script.lines.len()`.
fn earliest(script: &Script, position: usize, request: &Request) -> Option<u32> {
    let mut queue = QueueState::new(script);
    let mut found = None;
    for line in &script.lines()[..position] {
        match queue.take(&line.what) {
            Outcome::Accepted(other) => {
                if found.is_none() && clashes(&other, request) {
                    found = Some(line.number);
                }
            }
            Outcome::Drained(_) => found = None,
            Outcome::Replied(_) => {}
        }
    }
    found
}

// Adds the next line's request, if it was accepted, to how many were accepted.
//
// # Preconditions
//
// - `accepted + 1` is less than `2^64`.
fn counted(accepted: usize, request: Option<Request>) -> usize {
    match request {
        Some(_) => accepted + 1,
        None => accepted,
    }
}

// Decides for each request of a script whether it overlaps another, and whether it is ordered.
fn decide<'s>(script: &'s Script) -> Result<Checked<'s>, ScriptFault> {
    let mut queue = QueueState::new(script);
    let mut span = Span::new(script.disk())?;
    let mut requests = Vec::try_with_room(script.lines().len())?;
    let mut ordered = Vec::new();
    let mut accepted = 0;
    for (position, line) in script.lines().iter().enumerate() {
        let came = queue.take(&line.what);
        let request = came.accepted();
        accepted = counted(accepted, request);
        requests.try_push(request)?;
        if let Some(request) = span.take(&came) {
            if !script.orders_overlaps() {
                let earlier = earliest(script, position, &request).unwrap();
                return Err(ScriptFault::Overlap(Overlap { line: line.number, earlier }));
            }
            ordered.try_push(position)?;
        }
    }
    Ok(Checked::new(script, requests, ordered, accepted))
}

/// Checks that no two requests of a script overlap. In version 2 none do, since the queue orders them: it drains before a request
/// that overlaps a request of the span that it would join.
///
/// Returns `Overlap` exactly if two requests of version 1 overlap. Of all overlapping pairs it reports the one with the least later
/// line, and of these the one with the least earlier line. Returns `Memory` only if memory is refused. [`Checked::of`] keeps the
/// decisions, for a run of the script.
pub fn check(script: &Script) -> Result<(), ScriptFault> {
    match decide(script) {
        Ok(_) => Ok(()),
        Err(fault) => Err(fault),
    }
}

/// Returns the numbers of the lines before which the queue has to drain, in the script's order: the lines of the ordered requests
/// in version 2, and none in version 1, even if its requests overlap. `Memory` is the only error.
pub fn drains(script: &Script) -> Result<Vec<u32>, ScriptFault> {
    if !script.orders_overlaps() {
        return Ok(Vec::new());
    }
    match decide(script) {
        Ok(checked) => Ok(checked.drains()?),
        Err(ScriptFault::Memory) => Err(ScriptFault::Memory),
        // No requests of version 2 overlap, and a script has no fault of its text.
        Err(_) => unreachable!(),
    }
}
