"""The few items that are written by hand, each with its crate, its file and its first words."""

from erasing.shape import functions, impls, item_start

# Rattle's `drop` is handed the value; Rust's borrows it, and the types below can't be taken apart then.
ITEMS = {
    ("race_world", "answers", "Drop", "End"): """impl Drop for End {
    fn drop(&mut self) {
        let mut rest = self.taken();
        while let Some(mut end) = rest {
            rest = end.taken();
        }
    }
}

impl End {
    // The end before this one, unless another list goes on from there.
    fn taken(&mut self) -> Option<End> {
        match self {
            End::Nothing => None,
            End::After(before, _) => Rc::get_mut(before).map(|answers| mem::replace(&mut answers.end, End::Nothing)),
        }
    }
}""",
}
# Functions that do nothing where each step is sequentially consistent, and what they do in Rust: a call of a stand-in.
BODIES = {("bias_lanes", "fence", "heavy_fence"): ("lane_table", "heavy_fence")}
IMPORTS = {("race_world", "answers"): {("std", "mem")}}


def write_by_hand(s):
    for fn in functions(s):
        if (s.crate, s.name, fn.name) in BODIES:
            module, call = BODIES[s.crate, s.name, fn.name]
            s.add(fn.body, f" {module}::{call}(); ", "a call of a stand-in", fn.name)
            s.imports.add((module,))
    for it in impls(s):
        text = ITEMS.get((s.crate, s.name, it.trait, it.name))
        if text is None:
            if it.trait == "Drop":
                raise s.fault(it.keyword, "an impl of Drop, which tools/erasing/by_hand.py doesn't have")
            continue
        s.by_hand[it.name] = s.code(it.keyword, it.end)
        s.cut(it.keyword, it.end)
        s.write(it.keyword, text, "an impl of Drop")
        s.imports |= IMPORTS.get((s.crate, s.name), set())
