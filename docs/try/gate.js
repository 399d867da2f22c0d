// The state machine of a gate, as in docs/GATE.md and docs/FORMATS.md; a port of tests/machines/gate.py. The page compares the answer of
// the proved module with it before it draws anything. Guarded words have 64 bits, so they are BigInts.

const BIAS = 2 ** 48;
const DELTA = 2 ** 20;
const ROOM = 65535;
const KILLS = 2 ** 40;

// The control's steps that change its phase, and the phases in which each is enabled.
const PHASES = {
  dead: ["live in slots", "live atomic"],
  close: ["live in slots", "closing"],
  collect: ["closing"],
  confirm: ["collected"],
  base: ["confirmed"],
  take: ["dead"],
  front: ["reviving"],
  clear: ["fronted"],
  bias: ["live atomic"],
  open: ["opening"],
};

// Thrown for a step that isn't enabled, with the reason.
class Stuck extends Error {}

function needs(holds, why) {
  if (!holds) throw new Stuck(why);
}

// Thrown if a schedule can't be drawn.
class Wrong extends Error {}

function wrongUnless(holds, why) {
  if (!holds) throw new Wrong(why);
}

function isOwn(table, name) {
  return Object.prototype.hasOwnProperty.call(table, name);
}

// The state of a gate between two steps.
class Gate {
  constructor({ slots, passes, start, kills, words }) {
    const isDead = start === "dead";
    const inSlots = start === "slots";
    Object.assign(this, { zero: isDead, dead: isDead, kills, words: [...words], releases: 0, collected: 0, at: 0 });
    this.value = isDead ? 0 : 1 + (inSlots ? BIAS : 0);
    this.slots = new Array(slots).fill(inSlots ? 0 : null);
    this.front = 2 * kills + (isDead ? 1 : 0);
    this.phase = inSlots ? "live in slots" : isDead ? "dead" : "live atomic";
    this.passes = Array.from({ length: passes }, () => ({ held: 0, owes: null, joined: false }));
    this.control = { held: 0, owes: null, joined: false };
  }

  // Whether the initial reference is held.
  hasBase() {
    return this.phase !== "dead";
  }

  hasBias() {
    return ["live in slots", "closing", "opening"].includes(this.phase);
  }

  // The shared word, as a step that loads it replies.
  shown() {
    return `${this.zero ? "zero" : this.dead ? "dead" : "live"} ${this.value}`;
  }

  end() {
    const held = this.passes.reduce((sum, seat) => sum + seat.held, 0);
    return `end ${this.shown()} front ${this.front} kills ${this.kills} releases ${this.releases} held ${held}`;
  }

  // Takes a step and returns its reply. Throws Stuck if the step isn't enabled; the state is unchanged then.
  take({ actor, name, numbers }) {
    return actor === "c" ? this.takeOfControl(name, numbers) : this.takeOfPass(actor, name, numbers);
  }

  seat(index) {
    needs(index < this.passes.length && !this.passes[index].joined, "no such actor");
    return this.passes[index];
  }

  takeOfPass(actor, name, numbers) {
    const seat = this.seat(actor);
    if (["look", "take", "give"].includes(name)) needs(numbers[0] < this.slots.length, "no such slot");
    if (name === "word") needs(numbers[0] < this.words.length, "no such word");
    needs(seat.owes === null || seat.owes === name, "mid call");
    return PASS_CALLS[name](this, seat, ...numbers);
  }

  add(seat, count, isRefused) {
    this.value += count;
    if (isRefused) seat.owes = "undo";
    else seat.held += count;
    return isRefused ? "refused" : "given";
  }

  subtract(seat, count) {
    this.value -= count;
    seat.owes = this.dead && !this.zero && this.value === 0 ? "mark" : null;
    return seat.owes ? "to mark" : "not last";
  }

  mark(seat) {
    needs(seat.owes === "mark", "wrong phase");
    seat.owes = null;
    if (!this.dead || this.zero || this.value !== 0) return "lost";
    this.zero = true;
    this.releases += 1;
    return "last";
  }

  // Whether a compare-and-exchange on a slot succeeds, from the value that was seen.
  wins(slot, seen, next) {
    needs(Math.abs(seen) <= DELTA && Math.abs(next) <= DELTA, "bad amount");
    return this.slots[slot] === seen;
  }

  takeOfControl(name, numbers) {
    if (name === "join") return this.join(...numbers);
    if (name === "store") needs(numbers[0] < this.words.length, "no such word");
    needs(this.control.owes === null || this.control.owes === name, "mid call");
    if (name === "shared") return this.shown();
    if (name === "mark") return this.mark(this.control);
    if (name === "store") return this.store(...numbers);
    needs(PHASES[name].includes(this.phase), "wrong phase");
    return CONTROL_CALLS[name](this);
  }

  store(index, value) {
    needs(this.phase === "dead" && this.zero, "wrong phase");
    this.words[index] = value;
    return "ok";
  }

  join(index) {
    const seat = this.seat(index);
    needs(this.control.owes === null && seat.owes === null, "mid call");
    needs(seat.held === 0, "still held");
    seat.joined = true;
    return "ok";
  }

  move(phase, at = 0) {
    Object.assign(this, { phase, at });
    return "ok";
  }
}

const PASS_CALLS = {
  "add try": (gate, seat) => {
    needs(seat.held < ROOM, "held full");
    return gate.add(seat, 1, gate.zero);
  },
  "add live": (gate, seat) => {
    needs(seat.held < ROOM, "held full");
    return gate.add(seat, 1, gate.dead);
  },
  "add get": (gate, seat, count) => {
    needs(seat.held >= 1, "nothing held");
    needs(count >= 1, "bad amount");
    needs(seat.held + count <= ROOM, "held full");
    return gate.add(seat, count, false);
  },
  sub: (gate, seat, count) => {
    needs(seat.held >= count, "nothing held");
    needs(count >= 1, "bad amount");
    seat.held -= count;
    return gate.subtract(seat, count);
  },
  undo: (gate, seat) => {
    needs(seat.owes === "undo", "wrong phase");
    return gate.subtract(seat, 1);
  },
  mark: (gate, seat) => gate.mark(seat),
  look: (gate, _seat, slot) => (gate.slots[slot] === null ? "closed" : `open ${gate.slots[slot]}`),
  take: (gate, seat, slot, seen, count) => {
    needs(count === 1 || seat.held >= 1, "nothing held");
    needs(count >= 1, "bad amount");
    const isWon = gate.wins(slot, seen, seen + count);
    needs(seat.held + count <= ROOM, "held full");
    if (!isWon) return "lost";
    gate.slots[slot] += count;
    seat.held += count;
    return "won";
  },
  give: (gate, seat, slot, seen, count) => {
    needs(seat.held >= count, "nothing held");
    needs(count >= 1, "bad amount");
    if (!gate.wins(slot, seen, seen - count)) return "lost";
    gate.slots[slot] -= count;
    seat.held -= count;
    return "won";
  },
  shared: (gate) => gate.shown(),
  front: (gate) => String(gate.front),
  word: (gate, seat, index) => {
    needs(seat.held >= 1, "nothing held");
    return String(gate.words[index]);
  },
};

const CONTROL_CALLS = {
  dead: (gate) => {
    needs(gate.kills < KILLS, "worn out");
    gate.dead = true;
    gate.kills += 1;
    return gate.move(gate.phase === "live in slots" ? "closing" : "collected");
  },
  close: (gate) => {
    needs(gate.phase !== "closing" || gate.at < gate.slots.length, "wrong phase");
    const delta = gate.slots[gate.at];
    gate.slots[gate.at] = null;
    gate.collected += delta;
    gate.move("closing", gate.at + 1);
    return `closed ${delta}`;
  },
  collect: (gate) => {
    needs(gate.at === gate.slots.length, "wrong phase");
    gate.value += gate.collected - BIAS;
    gate.collected = 0;
    return gate.move(gate.dead ? "collected" : "live atomic");
  },
  confirm: (gate) => {
    gate.front += 1;
    return gate.move("confirmed");
  },
  base: (gate) => {
    gate.move("dead");
    return gate.subtract(gate.control, 1);
  },
  take: (gate) => {
    gate.value += 1;
    return gate.move("reviving");
  },
  front: (gate) => {
    gate.front += 1;
    return gate.move("fronted");
  },
  clear: (gate) => {
    gate.dead = gate.zero = false;
    return gate.move("live atomic");
  },
  bias: (gate) => {
    gate.value += BIAS;
    return gate.move("opening");
  },
  open: (gate) => {
    gate.slots[gate.at] = 0;
    return gate.at + 1 === gate.slots.length ? gate.move("live in slots") : gate.move("opening", gate.at + 1);
  },
};
