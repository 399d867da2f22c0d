// Draws a schedule as lanes; a port of tools/races_pictures/lanes.py that draws the same elements: a lane per actor with its steps in order
// and their replies, shaded while the actor holds references or has a step pending, and the words of the gate next to the lanes.

const [SIZE, SMALL] = [13, 12];
const [ROW, BOX] = [44, 26];
const [TOP, EDGE, GAP, INNER] = [64, 16, 10, 12];

// A column of the picture, starting at x: a lane or a word.
function column(name, x, wide) {
  return { name, x, wide, middle: x + wide / 2, end: x + wide };
}

// A reply or a final state, with the bias of the shared word written by name.
function withBias(text) {
  return text.replace(/\b(zero|dead|live) (\d{15,})\b/, (_, mark, value) => `${mark} ${biasAnd(Number(value) - BIAS)}`);
}

// A reply as shown in its box; the bias of the shared word is written by name.
function replyOf(row) {
  return row.isStuck ? row.reply.split(" ").slice(2).join(" ") : withBias(row.reply);
}

function actorName(actor) {
  return actor === "c" ? "control" : `pass ${actor}`;
}

class Lanes {
  constructor(title, name, schedule) {
    Object.assign(this, { title, name, schedule });
    this.moments = [schedule.start, ...schedule.rows.map((row) => row.moment)];
    this.picture = new Picture(title, this.inWords());
    this.place();
  }

  inWords() {
    const steps = this.schedule.rows.map(({ step, reply }) => {
      return `${step.actor === "c" ? "the control" : actorName(step.actor)}: ${step.text}, ${reply}`;
    });
    return `${steps.join("; ")}; ${this.schedule.end}`;
  }

  // The columns, each as wide as its longest text.
  place() {
    let x = EDGE;
    this.lanes = new Map();
    for (const actor of this.schedule.actors) {
      const wide = this.wideOf(actor) + 2 * INNER;
      this.lanes.set(actor, column(actorName(actor), x, wide));
      x += wide + GAP;
    }
    x += GAP;
    this.words = this.shownWords().map((held) => {
      const [{ kind, at, name }] = held;
      const wide = Math.max(...[...this.textsOf(held), name].map((text) => widthOf(text, SMALL))) + 14;
      const placed = { kind, at, held, ...column(name, x, wide) };
      x = placed.end + GAP;
      return placed;
    });
    const [head, end] = [widthOf(this.title, 15) + 14 + widthOf(this.name, SMALL), widthOf(withBias(this.schedule.end), SIZE)];
    this.wide = Math.max(x - GAP, EDGE + head, EDGE + end) + EDGE;
  }

  // The width of the longest text in a lane.
  wideOf(actor) {
    const rows = this.schedule.rows.filter((row) => this.laneOf(row.step) === actor);
    const steps = rows.map((row) => widthOf(`${row.step.text}   ${replyOf(row)}`, SIZE));
    const small = this.moments.map((moment) => widthOf(moment.standing(actor).words, SMALL));
    return Math.max(...steps, ...small, 90);
  }

  // The lane of a step's actor, or the control's lane if the actor doesn't exist.
  laneOf(step) {
    return this.schedule.actors.includes(step.actor) ? step.actor : "c";
  }

  // The words to draw, each with the values that it holds over time. Kinds whose words never show anything, such as slots that
  // were never open, are left out.
  shownWords() {
    const words = this.moments[0].words.map((_, index) => this.moments.map((moment) => moment.words[index]));
    const seen = new Set(words.flat().flatMap(({ kind, isIdle }) => (isIdle ? [] : [kind])));
    return words.filter(([{ kind }]) => seen.has(kind));
  }

  // The texts of a word, with room for its marks.
  textsOf(held) {
    const [texts, room] = [held.map(({ text }) => text), " ".repeat(Math.max(...held.map(({ marks }) => marks.join(" ").length)) + 3)];
    return held[0].kind === "shared" ? texts.map((text) => room + text) : texts;
  }

  // The vertical middle of a step's row. The initial state is between rows -1 and 0.
  yOf(row) {
    return TOP + ROW * (row + 1);
  }

  drawn() {
    const last = this.yOf(this.schedule.rows.length) + 6;
    this.drawHeads(last);
    this.lanes.forEach((_, actor) => this.drawShades(actor));
    this.words.forEach((word) => this.drawWord(word, last));
    this.schedule.rows.forEach((row, index) => this.drawStep(index, row));
    this.lanes.forEach((_, actor) => this.drawStanding(actor));
    this.picture.text(EDGE, last + 14, withBias(this.schedule.end), { size: SIZE, isBold: true });
    this.drawLegend(last + 34);
    return this.picture.made(this.wide, last + 58);
  }

  drawHeads(last) {
    this.picture.text(EDGE, 24, this.title, { size: 15, isBold: true });
    this.picture.text(EDGE + widthOf(this.title, 15) + 14, 24, this.name, { kind: "dim", size: SMALL });
    for (const { x, wide, middle, name } of this.lanes.values()) {
      this.picture.box(x, TOP - 22, wide, last - TOP + 8, "panel", { roundBy: 6 });
      this.picture.text(middle, TOP - 6, name, { size: SIZE, anchor: "middle", isBold: true });
    }
    this.words.forEach(({ middle, name }) => {
      this.picture.text(middle, TOP - 6, name, { kind: "dim", size: SMALL, anchor: "middle" });
    });
  }

  // What an actor holds and has pending, from one step that changes it to the next.
  drawShades(actor) {
    const [{ x, wide, end }, parts] = [this.lanes.get(actor), this.moments.map((moment) => moment.standing(actor))];
    let since = 0;
    for (let index = 1; index <= parts.length; index += 1) {
      if (index < parts.length && parts[index].words === parts[since].words) continue;
      const above = since ? this.yOf(since - 1) : TOP;
      const below = this.yOf(index - 1) - (index < parts.length ? 0 : 14);
      const { holds, pending } = parts[since];
      if (holds || pending) this.picture.box(x, above, wide, below - above, holds ? "hold" : "owe");
      if (holds && pending) this.picture.box(end - INNER, above, INNER, below - above, "owe");
      since = index;
    }
  }

  // Text for what an actor holds and has pending, below the step that changed it.
  drawStanding(actor) {
    let before;
    this.moments.forEach((moment, index) => {
      const { words } = moment.standing(actor);
      const y = index ? this.yOf(index - 1) + ROW / 2 + 4 : TOP + ROW / 2 - 2;
      if (words !== before) this.picture.text(this.lanes.get(actor).middle, y, words, { size: SMALL, anchor: "middle" });
      before = words;
    });
  }

  // A step's box with its reply, and the line to the word that it accesses.
  drawStep(index, row) {
    const [lane, y] = [this.lanes.get(this.laneOf(row.step)), this.yOf(index)];
    const [kind, x, wide] = [this.kindOf(row), lane.x + 4, lane.wide - 8];
    this.drawReach(index, row, lane, y);
    const line = { done: "done", warn: "warn", plain: "dim" }[kind];
    const isDashed = row.isStuck && kind !== "done";
    this.picture.box(x, y - BOX / 2, wide, BOX, kind === "done" ? "done" : "ground", { line, roundBy: 5, isDashed });
    this.picture.text(x + 8, y + 4.5, row.step.text, { kind: kind === "done" ? "on" : "ink", size: SIZE });
    const reply = { kind: { done: "on", warn: "warn", plain: "dim" }[kind], size: SIZE, anchor: "end", isBold: kind === "done" };
    this.picture.text(x + wide - 8, y + 4.5, replyOf(row), reply);
  }

  kindOf(row) {
    const answer = row.reply.split(", ").pop();
    if (row.isStuck || ["refused", "lost", "to mark", "not zero"].includes(answer)) return "warn";
    return answer === "last" ? "done" : "plain";
  }

  // The line to the word that a step accesses, with a dot on it.
  drawReach(index, row, lane, y) {
    const word = this.words.find(({ kind, at }) => kind === row.target?.kind && at === row.target.at);
    if (word === undefined || row.isStuck) return;
    const isChanged = word.held[index].value !== word.held[index + 1].value;
    const kind = this.kindOf(row) === "done" ? "done" : "dim";
    this.picture.line([[lane.end - 4, y], [word.middle, y]], kind, !isChanged);
    this.picture.dot(word.middle, y, kind, !isChanged);
  }

  // The value of a word after each step that changes it.
  drawWord(word, last) {
    this.picture.line([[word.middle, TOP + ROW / 2 - 6], [word.middle, last - 14]], "rule");
    let before;
    word.held.forEach((now, index) => {
      if (now.value !== before) this.drawChip(word, now, index ? this.yOf(index - 1) + ROW / 2 : TOP + ROW / 2 - 6);
      before = now.value;
    });
  }

  drawChip(word, now, y) {
    this.picture.box(word.x, y - 10, word.wide, 20, "ground", { line: "rule", roundBy: 4 });
    if (word.kind !== "shared") {
      this.picture.text(word.middle, y + 4, now.text, { size: SMALL, anchor: "middle" });
      return;
    }
    let x = word.x + 3;
    for (const mark of now.marks) {
      const wide = widthOf(mark, SMALL) + 8;
      this.picture.box(x, y - 8, wide, 16, mark === "ZERO" ? "done" : "mark", { roundBy: 3 });
      this.picture.text(x + 4, y + 4, mark, { kind: "on", size: SMALL, isBold: true });
      x += wide + 3;
    }
    this.picture.text(word.end - 7, y + 4, now.text, { size: SMALL, anchor: "end" });
  }

  drawLegend(y) {
    let x = EDGE;
    for (const [fill, words] of [["hold", "holds"], ["owe", "a step is pending"], ["done", "the release"]]) {
      this.picture.box(x, y - 9, 14, 12, fill, { roundBy: 2 });
      this.picture.text(x + 20, y + 1, words, { kind: "dim", size: SMALL });
      x += 20 + widthOf(words, SMALL) + 18;
    }
    for (const [isHollow, words] of [[false, "changes the word"], [true, "only looks, or has lost"]]) {
      this.picture.dot(x + 6, y - 3, "dim", isHollow);
      this.picture.text(x + 16, y + 1, words, { kind: "dim", size: SMALL });
      x += 16 + widthOf(words, SMALL) + 18;
    }
    this.wide = Math.max(this.wide, x);
  }
}

function lanesOf(title, name, schedule) {
  return new Lanes(title, name, schedule).drawn();
}
