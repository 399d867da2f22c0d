// Meanings of the words in a schedule's steps and replies, from docs/GATE.md and docs/FORMATS.md.

const MEANINGS_OF_STEPS = {
  "add try": "adds 1 to the shared word, as a try for any gate; refused if ZERO was set",
  "add live": "adds 1 to the shared word, as a try for a live gate; refused if DEAD was set",
  "add get": "adds more references to those that the pass holds",
  sub: "drops references from the shared word",
  undo: "takes the addition of a refused try back",
  mark: "sets ZERO if the shared word is DEAD alone; the mark that is won is the release",
  look: "loads a slot's delta; the next exchange expects it",
  take: "takes references by exchanging a slot's delta for a greater one",
  give: "drops references by exchanging a slot's delta for a smaller one",
  shared: "loads the shared word",
  front: "loads the front",
  word: "loads a guarded word",
  "c dead": "sets DEAD: the kill begins",
  "c close": "closes the next slot, and keeps its delta",
  "c collect": "adds the closed deltas to the shared word, less the bias",
  "c confirm": "stores the odd front: the kill is complete",
  "c base": "drops the initial reference",
  "c take": "takes the initial reference back: the revival begins",
  "c front": "stores the next, even front",
  "c clear": "clears DEAD and ZERO: the gate is live",
  "c bias": "adds the bias, 2^48, to the shared word, so that no subtraction there finds zero while slots are open",
  "c open": "opens the next slot, with the delta 0",
  "c store": "stores a guarded word",
  "c join": "takes in a pass that is done",
};
const MEANINGS_OF_REPLIES = {
  given: "the references are taken",
  refused: "the addition is to be undone",
  "not last": "others are left, or the gate isn't killed",
  "to mark": "the shared word is DEAD alone now, and ZERO is to be set",
  last: "the release",
  won: "the slot had the delta that was expected, and has the new one",
  lost: "the word had changed meanwhile, and stays as it is",
  closed: "the slot is closed; beside c close: the delta that was in it",
  open: "the slot is open, with this delta",
  stuck: "the step can't be taken here, and the later ones aren't tried",
};

// A step's word in the legend. Passes and the control share the words for the mark and the load of the shared word.
function wordOfStep({ actor, name }) {
  return actor === "c" && !["mark", "shared"].includes(name) ? `c ${name}` : name;
}

// The words in a schedule's steps and replies with their meanings, in the order of the tables above.
function legendOf({ rows }) {
  const steps = new Set(rows.map(({ step }) => wordOfStep(step)));
  const replies = new Set(rows.flatMap(({ reply }) => reply.split(", ").map((part) => part.replace(/ -?[0-9]+.*$/, ""))));
  const among = (meanings, found) => Object.entries(meanings).filter(([word]) => found.has(word));
  return [...among(MEANINGS_OF_STEPS, steps), ...among(MEANINGS_OF_REPLIES, replies)].flatMap(([word, meaning]) => [
    element("dt", { textContent: word }),
    element("dd", { textContent: meaning }),
  ]);
}
