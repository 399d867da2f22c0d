// Erased from crates/in_flight/src/lib.rt by tools/erase: edit that file.
//! What a run on several threads makes of a script's requests, apart from its threads and the queue that they enter.
//!
//! [`answer_to`] makes the answer to a request: the line of its reply, and the sectors that a write leaves. The [`InFlightTable`]
//! has the disk and the replies of a run, of which some are owed to requests in flight. Requests are submitted in the script's
//! order, and their answers are taken in any order. So while requests are in flight, the disk is behind the disk of a single
//! thread. But no two requests in flight overlap, so each reads what a single thread reads, whichever writes of its span were
//! installed before (`reads_stand_in_a_span`), and once no answer is owed the disk is the single thread's
//! (`answers_come_in_any_order`).
//!
//! `specs/Requests.antt` has what is due to a request and what its answer is, `specs/Span.antt` what the disk is while requests are
//! in flight, and `specs/Table.antt` how far the disk and the replies have come. `blk_workers` has the threads.

mod answer;
mod replies;
mod table;

pub use answer::{Answer, Workbench, answer_to};
pub use replies::{Replies, Text};
pub use table::InFlightTable;
