//! Requests of the callers in `uses`, cut into commands.

use crate::draw;
use crate::gates::limits;
use blkq::erased::freeze_queue::BlockQueue;
use blkq::erased::percpu_gate::SLOT_LIMIT;
use trials::erased::uses::{Command, Request, commands, submit, submit_next};

/// Whether each sector of the range is moved once, in order.
fn are_whole(commands: &[Command], start: u64, count: u64) -> bool {
    let mut next = start;
    commands.iter().all(|command| {
        let is_next = command.first == next && command.sectors > 0;
        next += u64::from(command.sectors);
        is_next
    }) && next == start + count
}

/// A request of any device, start and length, on any slot, has its commands: by a plain tag, and by one that is biased. They take memory for
/// what they are, however many sectors they move.
#[test]
fn requests_have_their_commands() {
    draw(4_000, |sizes| {
        let (limits, slots) = (limits(sizes), sizes.small(1, SLOT_LIMIT));
        let (queue, _freezer, mut tags) = BlockQueue::new(limits, slots, 2).unwrap();
        let slot = sizes.small(0, slots - 1);
        // A chunk ends a command early, so this many sectors need some 100,000 commands at most.
        let shortest = if limits.chunk() == 0 { limits.max() } else { limits.max().min(limits.chunk()) };
        let most = (50_000 * u64::from(shortest)).min(u32::MAX.into());
        let (first, count) = (sizes.size(0, u32::MAX.into()) as u32, sizes.size(0, most) as u32);
        let (start, mut biased) = (u64::from(first), tags.pop().expect("a tag").into_biased(limits));
        let entered = submit(&queue, &mut tags[0], slot, start, count).unwrap().expect("a live queue");
        let next = submit_next(&queue, &mut biased, slot, Request { first, sectors: count }).unwrap();
        assert!(are_whole(&entered, start, count.into()), "{limits:?}, {count} sectors from {start}");
        assert!(
            entered.capacity().max(next.capacity()) <= 8 + 2 * entered.len(),
            "{limits:?}, {count} sectors from {start}"
        );
        assert_eq!((&next, &commands(&limits, start, count).unwrap()), (&entered, &entered));
    });
}
