// Erased from crates/blk_workers/src/lib.rt by tools/erase: edit that file.
//! Runs a script's requests on several threads, with the replies and the disk of a single thread.
//!
//! [`run`] starts workers and then submits: it takes the script's lines in order. For each request that the queue accepts, a tag
//! enters the queue and reads the limits in force, and the request goes to the workers with the tag and the sectors that a read
//! finds. A worker reads the limits under the tag, cuts the pieces, makes the line of the reply and the sectors that a write
//! leaves, reports both as the request's completion, leaves, and gives the tag back. When a line drains, the queue is frozen until
//! every tag has left, and all completions are collected. The same happens at the end, and before each ordered request, which
//! overlaps a request since the last drain, as the script's check found (`script_overlap::Checked`).
//!
//! Answers come back in any order. Only the thread that submits and collects, the submitter, has the disk and the replies
//! (`in_flight::InFlightTable`): for each answer that is owed it installs the sectors and keeps the line. `in_flight` states and
//! proves, without threads and without a gate, why that gives a single thread's disk and replies: `reads_stand_in_a_span` and
//! `answers_come_in_any_order`.
//!
//! A thread knows what it is handed by its type alone, so the types of requests, completions and free tags have the invariants on
//! which [`run`]'s contract rests; `specs/Jobs.antt` has the invariant of a request. Requests, completions and free tags are passed
//! through queues under a rule (`run_queues`), which have a fixed room. Their memory, and the memory for the lists of what each
//! worker draws, is taken before the first thread starts. Types name their run and its queues (src/naming.rt): `J` is the run, with
//! its script `J.script` and the queue that requests enter, `J.queue`. `C` is its queue of completions, and `L` its queues of
//! requests and of free tags; `C.id`, `L.requests` and `L.free_tags` identify them. A run takes each name once it has made the
//! thing.
//!
//! Words of this crate:
//! - *context*: what the threads share, which is the runtime, the allocator, the checked script, the run's points, the queue that
//!   requests enter, and the three queues for requests, completions and free tags.
//! - *in-flight table*: the disk and the replies so far, which only the submitter has (`in_flight`). A reply is *owed* from when
//!   its request is handed over until its completion is collected with an answer; a completion without an answer ends the run. A
//!   reply is owed for longer than its tag is entered, so more may be owed than there are tags.
//! - *stall*: holds a run at its points, for a test; it changes neither the replies nor the disk. Only the run's points call it.
//! - *drained*: a consumer or the right to push is drained once an end mark was taken; the queue is drained once every tag has left
//!   and none can enter.
//! - *ends*: the submitter's rights to push requests, to collect completions and to take free tags. A *consumer* is a worker's
//!   right to draw requests, and a *completion token* the right to report one completion, which goes with its request.
//! - *part*: the right to push has all parts of the right to draw at first (`all_parts`); each consumer takes one, and brings it
//!   back. Once all are back, no worker's list is missing.
//! - *position*: a line's place in the script, from 0. *number*: a request's place among the accepted ones, from 0.
//! - *slot*: a place over which the queue's gate (`freeze_queue`) spreads its count of entered tags, so that threads which name
//!   different slots share no word while it counts on slots. A tag may leave on another slot than it entered on.
//! - *job*: an accepted request on its way to a worker, with its tag. Its *answer* is the line of its reply and the sectors that a
//!   write leaves; its *completion* brings the answer back. Once the completion is reported, the token becomes an
//!   *acknowledgement*: a worker returns with as many acknowledgements as it drew requests.
//! - `R` is the runtime's type, `S` the stall's.

mod config;
mod context;
mod fault;
mod following;
mod handing;
mod job;
mod points;
mod running;
mod submitter;
mod team;

pub use config::{Config, MOST_SLOTS, MOST_TAGS, MOST_WORKERS};
pub use fault::RunFault;
pub use points::{NoStall, Point, Stall};
pub use running::{Ran, run, run_checked};
