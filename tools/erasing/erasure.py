"""Applies all rules to all sources, in order."""

import os

from erasing import allocators, by_hand, clauses, comments, errors, forms, handles, kit, memory
from erasing import parameters, paths, preconditions, runtime, unread
from erasing.layout import LEFT_OUT, PACKAGES, placed
from erasing.source import CannotErase, Source
from sources.crates import lines_of
from sources.rattle import files_in


def crates_of(root):
    """The crates of crates.txt, each of which is erased or left out."""
    names = [line.name for line in lines_of(root)]
    known = {crate for crates in PACKAGES.values() for crate in crates} | LEFT_OUT
    for name in names:
        if name not in known:
            raise CannotErase(f"crates.txt: {name} stands in no package of tools/erasing/layout.py, and isn't left out there")
    return [name for name in names if name not in LEFT_OUT]


def read(root, crates):
    files = {}
    for crate in crates:
        top = os.path.join(root, "crates", crate, "src")
        for path in files_in(top, ".rt"):
            with open(path, encoding="utf-8") as file:
                key = os.path.relpath(path, top)[: -len(".rt")]
                files[crate, key] = Source(crate, key, file.read())
    return files


def erase(root):
    """The text of each file of rust/ that is erased, before its layout."""
    files = read(root, crates_of(root))
    gone, ghosts = set(), set()
    cut_for_the_prover(files, gone, ghosts)
    sources = list(files.values())
    cut_what_is_handed_on(sources, gone, ghosts)
    clauses.cut_types_of_proofs(sources, gone)
    places = paths.Places(PACKAGES)
    definitions = preconditions.Definitions(root, {s.crate for s in sources})
    asserted = preconditions.Asserted(sources)
    for s in sources:
        preconditions.tell(s, definitions, asserted)
        rewrite(s, places, gone)
    clauses.cut_empty_modules(files)
    return {path: text for s in files.values() for path, text in placed(s).items()}


def cut_for_the_prover(files, gone, ghosts):
    for s in files.values():
        s.modelled, s.took, s.handed, s.by_hand = set(), set(), set(), {}
        clauses.cut_clauses(s)
        clauses.cut_ghost_items(s)
        clauses.cut_attributes(s)
        clauses.cut_drop_bounds(s)
        clauses.cut_marker_impls(s, ghosts)
    gone |= ghosts
    clauses.cut_laws(list(files.values()), gone)


def cut_what_is_handed_on(sources, gone, ghosts):
    """Type parameters, allocators, handles, and the calls of laws."""
    empty_traits = clauses.cut_ghost_traits(sources, gone)
    found = parameters.Parameters(sources, empty_traits)
    held = handles.Handles(sources, found)
    for s in sources:
        held.cut(s)
    for s in sources:
        found.cut(s)
        parameters.name_ordered_steps(s)
        parameters.cut_rule_arguments(s, found, ghosts | kit.BRANDS)
        clauses.cut_calls_of_laws(s, gone)
        clauses.cut_reads(s)


def rewrite(s, places, gone):
    by_hand.write_by_hand(s)
    errors.write_errors(s)
    memory.rename_clones(s)
    memory.rename_calls(s)
    memory.rename_macros(s)
    allocators.mend_boxes(s)
    runtime.mend_threads(s)
    runtime.mend_macros(s)
    paths.name_crates(s, places)
    forms.mend_taken_fields(s)
    forms.open_to_above(s)
    unread.mend_unread(s)
    if not places.has_std(s):
        s.imports |= {path for word, path in kit.OF_ALLOC.items() if s.words(word)}
    paths.rewrite_imports(s, places, gone)
    comments.mend_comments(s, places, gone)
