// What the page shows of a gate between two steps: its words, and what each actor holds and has pending.
// A port of tools/races_pictures/states.py.

// A word: its kind, its number within the kind, its name, its value, the marks set in it, and whether it has nothing to show.
class Word {
  constructor(kind, at, name, text, { marks = [], isIdle = false } = {}) {
    Object.assign(this, { kind, at, name, text, marks, isIdle });
  }

  // Its value and marks.
  get value() {
    return [...this.marks, this.text].filter((it) => it !== "").join(" ");
  }
}

// What an actor holds and has pending, and the text for it.
function standingWith(held, pending) {
  return { holds: held.length > 0, pending: pending.length > 0, words: [...held, ...pending].join(", ") };
}

// The bias by name, and the count without it.
function biasAnd(rest) {
  return rest === 0 ? "bias" : `bias${rest > 0 ? "+" : ""}${rest}`;
}

function slotShown(slot) {
  return slot === null ? "closed" : slot > 0 ? `+${slot}` : String(slot);
}

// The state of a gate between two steps.
class GateState {
  constructor(gate) {
    Object.assign(this, { hasBase: gate.hasBase(), owes: gate.control.owes, passes: gate.passes.map((seat) => ({ ...seat })) });
    this.words = this.wordsOf(gate);
  }

  // The words, in column order.
  wordsOf(gate) {
    const marks = [...(gate.dead ? ["DEAD"] : []), ...(gate.zero ? ["ZERO"] : [])];
    const count = gate.hasBias() ? biasAnd(gate.value - BIAS) : String(gate.value);
    const slots = gate.slots.map((slot, at) => new Word("slot", at, `slot ${at}`, slotShown(slot), { isIdle: slot === null }));
    const guarded = gate.words.map((value, at) => new Word("word", at, `word ${at}`, String(value)));
    const [shared, front] = [new Word("shared", null, "shared word", count, { marks }), new Word("front", null, "front", String(gate.front))];
    return [shared, ...slots, front, ...guarded];
  }

  standing(actor) {
    const seat = actor === "c" ? { held: this.hasBase ? 1 : 0, owes: this.owes, joined: false } : this.passes[actor];
    if (seat.joined) return { holds: false, pending: false, words: "joined" };
    const held = seat.held === 0 ? [] : [actor === "c" ? "the initial reference" : `holds ${seat.held}`];
    return standingWith(held, seat.owes ? [`${seat.owes} pending`] : []);
  }
}
