"""Lists what the kit's library has and Rust's doesn't, and what replaces it."""

# Of the prover.
PROVER_ATTRIBUTES = {"tactic", "cycle"}
RULE_TRAITS = {"Play", "Split", "Join", "TableRule", "Protocol", "Outcome", "Lesson"}  # types that have one are rules
GHOST_TRAITS = RULE_TRAITS | {"Model"}
# The parameters of these types that are there for rules alone, counted without lifetimes.
# In Rust a box has the one allocator.
RULE_PARAMETERS = {"Box": {1}, "Table": {0, 1, 2, 3, 4}, "Seat": {0, 1}, "Shared": {0, 1, 2, 3, 4}, "Pass": {1}, "RuledArrayQueue": {1, 2}}
# Crates whose table is another stand-in than atomic_table's, and the parameters of it that are there for rules alone: it keeps the type of what
# lies in its cells.
TABLES = {"bias_lanes": "lane_table"}
CELL_PARAMETERS = {"Table": {1, 2, 3, 4}, "Seat": {1}, "Shared": {1, 2, 3, 4}}
# Crates whose atomic numbers are those of the table: rust/orders compiles them over its own.
OWN_ATOMICS = {"queue_core"}
# Steps of owners of lanes, which are ordered by a heavy fence: by their rules, what the stand-in names them.
ORDERED_STEPS = {"SaysBusy": "store_relaxed", "SaysIdle": "store_release", "Confirms": "load_acquire", "Stays": "load_acquire"}
# Traits without a method whose types are values all the same.
VALUE_TRAITS = {"Reference"}
KIT_CRATES = {"atomic_table", "crossbeam_queue", "crossbeam_utils", "hex", "itoa", "memchr"}
# Of the handle of the runtime: in Rust, waiting, threads and streams need none.
HANDLE_TRAITS = {"Threads", "Wait", "Abort", "AllocGlobal", "Env", "Clock", "Print"}
HANDLE_TYPE = "HostRuntime"
ALLOCATOR_TYPE = "Global"
ALLOCATOR_TRAIT = "Allocator"
# Arguments of the kit's calls that only rules read, or that stand for what is borrowed: counted in the source.
GHOST_ARGUMENTS = {("Table", "of_words"): {2}, ("Lanes", "new"): {2}, ("thread", "scope"): {0}}
# Calls that ask for memory and return its refusal, by their names and numbers of arguments, and what stands for them: each is of
# a trait that no other type has, so a call of another type's doesn't compile.
REFUSABLE = {
    ("push", 1): "try_push",
    ("resize", 2): "try_resize",
    ("extend_from_slice", 1): "try_extend_from_slice",
    ("extend", 1): "try_extend",
    ("insert", 2): "try_put",
    ("reserve", 1): "try_make_room",
    ("reserve_exact", 1): "try_make_exact_room",
}
# Calls that are handed the allocator, and those of associated functions by their types.
REFUSABLE_WITH_ALLOCATOR = {
    ("", "to_vec"): "try_to_vec",
    ("", "collect"): "try_collected",
    ("Vec", "with_capacity"): "try_with_room",
    ("Vec", "from_slice"): "try_from_slice",
    ("Box", "new"): "try_from_value",
    ("Rc", "new"): "try_new",
    ("Arc", "new"): "try_new",
    ("Parker", "new"): "try_new",
}
# Calls that ask for no memory, by the names that Rust has for them.
PLAIN = {"push_reserved": "push", "push_back_reserved": "push_back"}
# The trait of each call that stands for one, or None where the type itself has it.
TRAIT_OF = {
    "try_push": ("fallible", "TryVec"),
    "try_resize": ("fallible", "TryVec"),
    "try_extend_from_slice": ("fallible", "TryVec"),
    "try_extend": ("fallible", "TryVec"),
    "try_with_room": ("fallible", "TryVec"),
    "try_from_slice": ("fallible", "TryVec"),
    "try_from_elem": ("fallible", "TryVec"),
    "try_from_array": ("fallible", "TryVec"),
    "try_make_room": ("fallible", "TryRoom"),
    "try_make_exact_room": ("fallible", "TryRoom"),
    "try_to_vec": ("fallible", "TryToVec"),
    "try_clone": ("fallible", "TryClone"),
    "try_collected": ("fallible", "TryCollect"),
    "try_put": ("maps", "TryMap"),
    "try_from_value": ("pointers", "TryBox"),
    "try_spawn": ("thread", "TrySpawn"),
}
# What the kit's standard library has otherwise, and the module that stands for it. None: what needs it is cut.
STAND_INS = {
    ("std", "alloc", "AllocError"): ("fallible", "AllocError"),
    ("std", "alloc", "AllocFailed"): ("fallible", "AllocFailed"),
    ("std", "test", "Fail"): ("fallible", "Fail"),
    ("std", "sync", "Arc"): ("pointers", "Arc"),
    ("std", "rc", "Rc"): ("pointers", "Rc"),
    ("std", "sync", "Mutex"): ("sync", "Mutex"),
    ("std", "sync", "MutexGuard"): ("sync", "MutexGuard"),
    ("std", "thread"): ("thread",),
    ("std", "thread", "Parker"): ("sync", "Parker"),
    ("std", "thread", "JoinHandle"): ("thread", "JoinHandle"),
    ("std", "thread", "Scope"): ("thread", "Scope"),
    ("std", "env"): ("env",),
    ("std", "io", "IsTerminal"): ("streams", "IsTerminal"),
    ("std", "time", "Instant"): ("time", "Instant"),
    ("std", "collections", "HashMap"): ("maps", "HashMap"),
    ("std", "hash", "FoldHasher"): ("maps", "FoldHasher"),
    ("thiserror", "Error"): None,
}
# Traits that a file imports for their methods alone.
FOR_METHODS = {"Hash", "Hasher", "Read", "Write"}
ALLOC_MODULES = {"alloc", "collections", "vec"}
# What Rust's prelude has in std alone, and where else it is.
OF_ALLOC = {
    "Box": ("alloc", "boxed", "Box"),
    "Vec": ("alloc", "vec", "Vec"),
    "format": ("alloc", "format"),
}
# Names that the kit makes up for rules.
BRANDS = {"Brand", "Free"}
# What nothing stands for, wherever it is imported.
NAMELESS = HANDLE_TRAITS | GHOST_TRAITS | BRANDS | {ALLOCATOR_TYPE, ALLOCATOR_TRAIT, HANDLE_TYPE, "Forever"}
# Files in which each call of this name is of a method of the project, so that no trait is imported for it.
OF_THE_PROJECT = {
    ("in_flight", "table", "try_push"),
    ("race_outcomes", "race_account", "try_to_vec"),
}
# Fields that only proofs read: (crate, type, field).
READ_BY_PROOFS = {
    ("bias_lanes", "Fenced", "epoch"),
    ("blk_workers", "FinishedWorker", "acknowledgements"),
    ("blk_workers", "FinishedWorker", "tags"),
    ("blk_workers", "Passed", "point"),
    ("race_outcomes", "Placed", "number"),
    ("run_queues", "Acknowledgement", "seat"),
    ("run_queues", "Acknowledgement", "number"),
    ("script_overlap", "Touched", "sectors"),
}
# Names that are bound to what an accessor reads, for proofs alone: (crate, file, name).
READ_FOR_PROOFS = {("ram_disk", "disk", "_whole"), ("queue_limits", "pieces", "_max")}
