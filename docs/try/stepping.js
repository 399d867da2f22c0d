// Shows a schedule step by step: the lanes, the state at a step, and what the step does.

const MOST_STEPS = 600;
const MOST_PASSES = 16;

// Creates an element with properties and children.
function element(tag, properties = {}, children = []) {
  const made = Object.assign(document.createElement(tag), properties);
  made.append(...children);
  return made;
}

// The rows of the table of a gate's state: each word's name and value, single words first, and what each actor holds.
function gateShown(state, actors) {
  const words = [...state.words.filter(({ at }) => at === null), ...state.words.filter(({ at }) => at !== null)];
  const standing = actors.map((actor) => [actorName(actor), state.standing(actor).words || "holds nothing"]);
  return [...words.map(({ name, value }) => [name, value]), ...standing];
}

// A row of that table, with the previous value.
function rowOfGate([name, now], old) {
  const isChanged = old !== now;
  const cells = [element("th", { scope: "row", textContent: name }), element("td", { textContent: now })];
  return element("tr", { className: isChanged ? "changed" : "" }, [...cells, element("td", { textContent: isChanged ? old : "" })]);
}

class Stepping {
  constructor(find, onStep) {
    Object.assign(this, { find, onStep, count: 0, step: 0 });
    find("first").onclick = () => this.goTo(0);
    find("back").onclick = () => this.goTo(this.step - 1);
    find("next").onclick = () => this.goTo(this.step + 1);
    find("last").onclick = () => this.goTo(this.count);
    find("step").oninput = () => this.goTo(Number(find("step").value));
  }

  hide() {
    this.schedule = undefined;
    this.find("steps").hidden = true;
  }

  // Shows the schedule of a text with this name, at a step or at its end.
  show(title, name, schedule, step = -1) {
    const { find } = this;
    this.schedule = schedule;
    this.count = Math.min(schedule.rows.length, MOST_STEPS);
    find("steps").hidden = false;
    const some = this.count < schedule.rows.length ? `, the first ${this.count} of ${counted(schedule.rows.length, "step")}` : "";
    find("steps-head").textContent = `Step by step: ${title}${some}`;
    find("step").max = this.count;
    find("legend").replaceChildren(...legendOf(schedule));
    this.draw(title, name, schedule);
    this.goTo(step >= 0 ? step : this.count);
  }

  draw(title, name, schedule) {
    const lanes = this.find("lanes");
    const isDrawn = schedule.rows.length <= MOST_STEPS && schedule.passes <= MOST_PASSES;
    if (!isDrawn) {
      this.drawing = undefined;
      lanes.textContent = `Lanes are drawn up to ${MOST_STEPS} steps and ${MOST_PASSES} passes; this schedule has ${schedule.rows.length} and ${schedule.passes}.`;
      return;
    }
    this.drawing = new Lanes(title, name, schedule);
    lanes.innerHTML = this.drawing.drawn();
    const [now, later] = ["now-line", "veil"].map((kind) => {
      const box = document.createElementNS("http://www.w3.org/2000/svg", "rect");
      box.setAttribute("class", kind);
      return box;
    });
    // The veil lies above the shapes and below the texts.
    this.texts = [...lanes.querySelectorAll("text")];
    lanes.firstElementChild.append(later, ...this.texts, now);
    Object.assign(this, { now, later });
  }

  // Scrolls to the picture and its heading.
  comeIntoView() {
    const isCalm = matchMedia("(prefers-reduced-motion: reduce)").matches;
    this.find("steps").scrollIntoView({ block: "start", behavior: isCalm ? "instant" : "smooth" });
  }

  // Whether the left and right keys step when this element has the focus: in the part with the steps, or with no focus, but not where they
  // scroll or move a cursor.
  stepsFrom(place) {
    const frame = place.closest("[tabindex='0']");
    if (frame && frame.scrollWidth > frame.clientWidth) return false;
    return !["TEXTAREA", "INPUT", "SELECT"].includes(place.tagName) && (place === document.body || this.find("steps").contains(place));
  }

  // Handles the left and right keys.
  onKey(event) {
    const isStep = ["ArrowLeft", "ArrowRight"].includes(event.key) && !event.altKey && !event.ctrlKey && !event.metaKey;
    if (!isStep || !this.schedule || !this.stepsFrom(event.target)) return;
    event.preventDefault();
    this.goTo(this.step + (event.key === "ArrowLeft" ? -1 : 1));
  }

  // Shows the state after this many steps.
  goTo(step) {
    if (!this.schedule) return;
    this.step = Math.max(0, Math.min(step, this.count));
    const { find } = this;
    find("step").value = this.step;
    find("step").setAttribute("aria-valuetext", `step ${this.step} of ${this.count}`);
    find("first").disabled = find("back").disabled = this.step === 0;
    find("next").disabled = find("last").disabled = this.step === this.count;
    find("caption").textContent = this.caption();
    find("caption").className = this.step > 0 && this.schedule.rows[this.step - 1].isStuck ? "fault" : "";
    this.showGate();
    if (this.drawing) this.markRow();
    this.onStep(this.step);
  }

  caption() {
    if (this.step === 0) return `Before the first of ${counted(this.count, "step")}`;
    const { step, reply } = this.schedule.rows[this.step - 1];
    return `Step ${this.step} of ${this.count}: ${step.actor === "c" ? "the control" : actorName(step.actor)}: ${step.text} → ${withBias(reply)}`;
  }

  // The table of the gate.
  showGate() {
    const [{ schedule, step }, table] = [this, this.find("state")];
    const [before, now] = [schedule.momentAfter(Math.max(0, step - 1)), schedule.momentAfter(step)];
    const old = gateShown(before, schedule.actors);
    const rows = gateShown(now, schedule.actors).map((row, index) => rowOfGate(row, old[index][1]));
    [...table.tBodies].forEach((body) => body.remove());
    table.append(element("tbody", {}, rows));
  }

  // Frames the step's row in the lanes and fades later rows.
  markRow() {
    const [lanes, wide] = [this.find("lanes"), this.drawing.wide];
    const place = (box, y, high) => {
      Object.entries({ x: 3, y, width: wide - 6, height: Math.max(0, high), rx: 6 }).forEach(([name, value]) => box.setAttribute(name, value));
    };
    const middle = this.drawing.yOf(this.step - 1);
    const end = this.drawing.yOf(this.drawing.schedule.rows.length) - 14;
    place(this.now, middle - 16, this.step ? 32 : 0);
    place(this.later, middle + 31, end - middle - 31);
    this.texts.forEach((text) => {
      const y = Number(text.getAttribute("y"));
      text.classList.toggle("later", y > middle + 31 && y < end);
    });
    const lane = this.step ? this.drawing.lanes.get(this.drawing.laneOf(this.schedule.rows[this.step - 1].step)) : undefined;
    lanes.scrollTo(lane ? lane.middle - lanes.clientWidth / 2 : 0, middle - lanes.clientHeight / 2);
  }
}
