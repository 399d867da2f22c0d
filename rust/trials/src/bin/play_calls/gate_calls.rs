// Erased from crates/play_calls/src/gate_calls.rt by tools/erase: edit that file.
//! The calls of a gate, as a line spells them.

/// A call of a pass.
#[derive(Clone, Copy)]
pub(crate) enum PassCall {
    TryGet { slot: u32 },
    TryGetLive { slot: u32 },
    Get { slot: u32, n: u32 },
    Put { slot: u32, n: u32 },
    Word(u32),
    Front,
    SeenFront,
    Held,
    IsDying,
    IsZero,
    Retire,
    Lose,
}

/// A call of the control, or the end of the gate.
#[derive(Clone, Copy)]
pub(crate) enum ControlCall {
    Kill,
    KillAndConfirm,
    MarkDead,
    CloseNext,
    Collect,
    Confirm,
    DropBase,
    Reinit,
    Resurrect,
    StoreWord { k: u32, v: u64 },
    WordAt(u32),
    SwitchToAtomic,
    SwitchToSlots,
    Wants,
    IsZero,
    InPhase,
    Kills,
    Releases,
    Exit,
}

/// Returns a number of 32 bits. A greater one becomes the greatest, which names nothing.
pub(crate) fn short(number: u64) -> u32 {
    u32::try_from(number).unwrap_or(u32::MAX)
}

/// Returns the call of a pass that a line spells, if it spells one.
pub(crate) fn of_pass(name: &[u8], numbers: &[u64]) -> Option<PassCall> {
    Some(match (name, numbers) {
        (b"try", [slot]) => PassCall::TryGet { slot: short(*slot) },
        (b"live", [slot]) => PassCall::TryGetLive { slot: short(*slot) },
        (b"get", [slot, n]) => PassCall::Get { slot: short(*slot), n: short(*n) },
        (b"put", [slot, n]) => PassCall::Put { slot: short(*slot), n: short(*n) },
        (b"word", [k]) => PassCall::Word(short(*k)),
        (b"front", []) => PassCall::Front,
        (b"seen", []) => PassCall::SeenFront,
        (b"held", []) => PassCall::Held,
        (b"dying", []) => PassCall::IsDying,
        (b"zero", []) => PassCall::IsZero,
        (b"retire", []) => PassCall::Retire,
        (b"lose", []) => PassCall::Lose,
        _ => return None,
    })
}

/// Returns the call of the control that a line spells, if it spells one.
pub(crate) fn of_control(name: &[u8], numbers: &[u64]) -> Option<ControlCall> {
    Some(match (name, numbers) {
        (b"kill", []) => ControlCall::Kill,
        (b"kill_and_confirm", []) => ControlCall::KillAndConfirm,
        (b"mark_dead", []) => ControlCall::MarkDead,
        (b"close_next", []) => ControlCall::CloseNext,
        (b"collect", []) => ControlCall::Collect,
        (b"confirm", []) => ControlCall::Confirm,
        (b"drop_base", []) => ControlCall::DropBase,
        (b"reinit", []) => ControlCall::Reinit,
        (b"resurrect", []) => ControlCall::Resurrect,
        (b"store", [k, v]) => ControlCall::StoreWord { k: short(*k), v: *v },
        (b"word", [k]) => ControlCall::WordAt(short(*k)),
        (b"atomic", []) => ControlCall::SwitchToAtomic,
        (b"slots", []) => ControlCall::SwitchToSlots,
        (b"wants", []) => ControlCall::Wants,
        (b"zero", []) => ControlCall::IsZero,
        (b"phase", []) => ControlCall::InPhase,
        (b"kills", []) => ControlCall::Kills,
        (b"releases", []) => ControlCall::Releases,
        (b"exit", []) => ControlCall::Exit,
        _ => return None,
    })
}
