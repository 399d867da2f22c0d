// Compares a schedule with its answer, by the state machine of gate.js.
// A port of tools/races_pictures/schedule.py.

// How many numbers follow the words of each step, and the word that the step loads or changes.
const PASS_STEPS = {
  "add try": [0, "shared"],
  "add live": [0, "shared"],
  "add get": [1, "shared"],
  sub: [1, "shared"],
  undo: [0, "shared"],
  mark: [0, "shared"],
  look: [1, "slot"],
  take: [3, "slot"],
  give: [3, "slot"],
  shared: [0, "shared"],
  front: [0, "front"],
  word: [1, "word"],
};
const CONTROL_STEPS = {
  dead: [0, "shared"],
  close: [0, "slot"],
  collect: [0, "shared"],
  confirm: [0, "front"],
  base: [0, "shared"],
  mark: [0, "shared"],
  take: [0, "shared"],
  front: [0, "front"],
  clear: [0, "shared"],
  bias: [0, "shared"],
  open: [0, "slot"],
  store: [2, "word"],
  join: [1, null],
  shared: [0, "shared"],
};
// A step, parsed from its line.
class Step {
  constructor(line, words) {
    Object.assign(this, { line, text: words.slice(1).join(" ") });
    wrongUnless(words[0] === "c" || /^[0-9]+$/.test(words[0]), `line ${line}: no actor`);
    this.actor = words[0] === "c" ? "c" : Number(words[0]);
    const known = this.actor === "c" ? CONTROL_STEPS : PASS_STEPS;
    this.name = words.slice(1, words[1] === "add" ? 3 : 2).join(" ");
    const numbers = words.slice(1 + this.name.split(" ").length);
    wrongUnless(isOwn(known, this.name) && numbers.length === known[this.name][0], `line ${line}: no step`);
    wrongUnless(numbers.every((word) => /^-?[0-9]{1,20}$/.test(word)), `line ${line}: bad number`);
    this.numbers = numbers.map(Number);
    if (this.name === "store") this.numbers[1] = BigInt(numbers[1]);
    this.target = known[this.name][1];
  }

  // The index of the slot or guarded word that a step accesses, in the state before the step.
  on(gate) {
    if (this.target !== "slot" && this.target !== "word") return null;
    return this.actor === "c" && this.target === "slot" ? gate.at : this.numbers[0];
  }
}

// The gate that a world's line describes.
function gateOf(words) {
  const isWorld = words.length >= 5 && ["slots", "atomic", "dead"].includes(words[3]);
  wrongUnless(isWorld && [words[1], words[2], ...words.slice(4)].every((word) => /^[0-9]+$/.test(word)), "no world");
  const [slots, passes, kills] = [words[1], words[2], words[4]].map(Number);
  return new Gate({ slots, passes, start: words[3], kills, words: words.slice(5).map(BigInt) });
}

// The gate of a schedule, and the lines of its steps.
function gateIn([first, world, ...lines]) {
  const isSchedule = first?.words.join(" ") === "gate 1" && world?.words[0] === "world";
  wrongUnless(isSchedule, "no schedule: its first two lines are 'gate 1' and 'world ..'");
  return [gateOf(world.words), lines];
}

// A schedule with the reply to each step, and the state after each of the first `most` steps. The last row may be a step that isn't
// enabled.
class Schedule {
  constructor(text, answer, most = Infinity) {
    const [gate, lines] = gateIn(saidIn(text));
    Object.assign(this, { most, gate, passes: gate.passes.length, start: new GateState(gate), rows: [] });
    this.actors = ["c", ...gate.passes.keys()];
    this.steps = lines.map(({ number, words }) => new Step(number, words));
    this.run(linesOf(answer));
  }

  run(answer) {
    for (const step of this.steps) {
      if (this.rows.length && this.rows[this.rows.length - 1].isStuck) break;
      this.take(step);
    }
    const made = this.rows.map((row) => row.reply);
    const isStuck = this.rows.length > 0 && this.rows[this.rows.length - 1].isStuck;
    this.end = isStuck ? made.pop() : this.gate.end();
    made.push(this.end);
    made.forEach((mine, index) => {
      wrongUnless(mine === answer[index], `the answer's line ${index + 1} says '${answer[index]}', and the machine '${mine}'`);
    });
    wrongUnless(answer.length === made.length, `the answer has ${answer.length} lines, and the machine gives ${made.length}`);
  }

  take(step) {
    const target = step.target ? { kind: step.target, at: step.on(this.gate) } : undefined;
    let [reply, isStuck] = ["", false];
    try {
      reply = this.gate.take(step);
    } catch (why) {
      if (!(why instanceof Stuck)) throw why;
      [reply, isStuck] = [`stuck ${step.line} ${why.message}`, true];
    }
    this.rows.push({ step, target, reply, isStuck, moment: this.rows.length < this.most ? new GateState(this.gate) : undefined });
  }

  // The state of the gate after this many steps.
  momentAfter(count) {
    return count === 0 ? this.start : this.rows[count - 1].moment;
  }
}
