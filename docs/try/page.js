// The page's controls and what they show.

const MOST_SHOWN = 1 << 20;
const PAUSE = 500;
const LINE_HEIGHT = 21;
// More lines than the input ever shows at once.
const SEEN = 80;
// The same as in the style sheet.
const BESIDE_EACH_OTHER = "(min-width: 60rem)";
const NAMES = { script: "a script", schedule: "a schedule", race: "a race" };
const find = (id) => document.getElementById(id);

// `turn` counts the runs; the last one is shown. While `isStale`, the answer on display belongs to an older text.
const page = { isStale: false, asked: {}, began: 0, runner: undefined, stepping: undefined, kind: undefined, outcomes: [], outcome: 0, timer: 0, wait: 0, turn: 0, marked: 0, count: 0, most: undefined, answer: "" };

// Runs a text and returns the answer. The first word gives the kind unless one is passed. The bytes need not be UTF-8.
function answered(input, kind, most, room) {
  const bytes = typeof input === "string" ? new TextEncoder().encode(input) : input;
  return page.runner.run(kind ?? kindOf(new TextDecoder().decode(bytes)) ?? "script", bytes, most, room);
}

function decoded(answer) {
  return new TextDecoder().decode(new Uint8Array(answer ?? new ArrayBuffer(0)));
}

function say(words) {
  find("status").textContent = words;
}

function secondsRun() {
  return `${((performance.now() - page.began) / 1000).toFixed(1)} s`;
}

// Shows the elapsed time until the run ends.
function startClock() {
  page.began = performance.now();
  const tell = () => say(`running: ${secondsRun()}`);
  tell();
  clearInterval(page.timer);
  page.timer = setInterval(tell, 100);
  find("stop").disabled = false;
}

function stopClock() {
  clearInterval(page.timer);
  find("stop").disabled = true;
}

// Dims and disables the answer if it belongs to an older text, or enables it again.
function markStale(isStale) {
  page.isStale = isStale;
  ["answer-part", "steps", "whole"].forEach((id) => {
    find(id).inert = isStale;
    find(id).classList.toggle("stale", isStale);
  });
}

// Shows the kind of a text and the help for that kind, or the help for each kind if the text is of none.
function tellKind(kind) {
  find("kind").textContent = kind ? NAMES[kind] : "neither a script nor a schedule nor a race";
  Object.keys(NAMES).forEach((it) => (find(`help-${it}`).hidden = kind !== undefined && it !== kind));
}

function clear() {
  markStale(false);
  page.stepping.hide();
  Object.assign(page, { outcomes: [], outcome: 0, answer: "" });
  find("rows").replaceChildren();
  find("outcomes").replaceChildren();
  find("glossary").hidden = true;
  find("answer").textContent = "";
  find("whole").hidden = true;
  Object.assign(find("reason"), { textContent: "", className: "fault" });
  find("notice").textContent = "";
  markLine(0);
}

// Runs the input and shows the answer, then selects the outcome and step that a link asks for.
async function runInput(chosen = {}) {
  clearTimeout(page.wait);
  const text = find("input").value;
  page.kind = kindOf(text) ?? "script";
  tellKind(kindOf(text));
  const { outcome, step } = chosen;
  page.asked = Object.fromEntries(Object.entries({ outcome, step }).filter(([, it]) => Number.isInteger(it)));
  page.turn += 1;
  const { turn } = page;
  markStale(true);
  keepLink();
  startClock();
  const result = await answered(text, page.kind, page.most);
  if (turn !== page.turn) return undefined;
  stopClock();
  clear();
  showAnswer(text, result, chosen);
  const isRight = typeof result.status === "number" && result.status >= 0 && result.status !== 4;
  find("notice").textContent = chosen.notice ?? (isRight ? missing(chosen) : undefined) ?? "";
  keepLink();
  return undefined;
}

// The message for a run without an answer, or undefined if it has one.
function unanswered({ status, fault }) {
  const smaller = page.kind === "race" ? ": a race with fewer passes, slots or calls has fewer states" : "";
  if (status === STOPPED) return `stopped after ${secondsRun()}${smaller}`;
  if (status === -1) return `this browser gave up: ${fault}`;
  return status === 4 ? `memory: this input needs more memory than the page has${smaller}` : undefined;
}

function showAnswer(text, result, chosen) {
  const answer = decoded(result.answer);
  find("outcomes").hidden = true;
  find("rows").hidden = false;
  if (unanswered(result)) return say(unanswered(result));
  const took = `in ${result.milliseconds.toFixed(1)} ms`;
  if (result.line) return showRefusal(text, result.line, answer, took);
  say(`answered ${took}`);
  page.answer = answer;
  find("whole").hidden = false;
  find("answer").textContent = answer.length <= MOST_SHOWN ? answer : `${answer.slice(0, MOST_SHOWN)}\n.. ${answer.length} bytes in all`;
  if (page.kind === "race") return showOutcomes(text, answer, chosen);
  find("rows").replaceChildren(...rowElements(rowsBeside(page.kind, text, answer)));
  if (page.kind !== "schedule") return undefined;
  const end = linesOf(answer).at(-1);
  if (isStuck(end)) say(`answered ${took}, stuck at line ${end.replace(/^stuck (\d+) /, "$1: ")}`);
  showSchedule(page.name ?? "schedule", "", text, answer, chosen.step);
  if (chosen.step !== undefined) page.stepping.comeIntoView();
  return undefined;
}

function showRefusal(text, line, reason, took) {
  say(`refused ${took}`);
  find("reason").textContent = reason;
  const rows = linesOf(text).map((it, index) => ({ number: index + 1, line: it }));
  if (line > rows.length) rows.push({ number: line, line: "" });
  find("rows").replaceChildren(...rowElements(rows, { line, reason: reason.replace(/^line \d+: /, "") }));
  markLine(line);
}

function showOutcomes(text, answer, chosen) {
  const outcomes = outcomesOf(answer);
  page.outcomes = outcomes;
  find("rows").hidden = true;
  find("outcomes").hidden = false;
  find("outcomes").replaceChildren(outcomeTable(outcomes, callsOf(text), chooseHere));
  find("glossary").replaceChildren(...glossaryOf(outcomes.slice(0, MOST_OUTCOMES), chooseHere));
  find("glossary").hidden = false;
  const first = outcomes.find(({ number }) => number === chosen.outcome);
  if (first) choose(first, chosen.step);
}

// Selects an outcome for the reader and moves the focus to its steps.
function chooseHere(outcome) {
  choose(outcome);
  find("steps-head").focus({ preventScroll: true });
}

// Selects an outcome, draws its schedule and scrolls to it.
function choose(outcome, step) {
  if (page.isStale) return;
  page.outcome = outcome.number;
  markChoice(find("outcomes"), page.outcomes, outcome);
  showSchedule(`outcome ${outcome.number}`, page.name ?? "", outcome.schedule, repliesIn(outcome.schedule), step);
  page.stepping.comeIntoView();
}

// Draws a schedule if the page's own state machine gives the same answer.
function showSchedule(title, name, text, answer, step) {
  page.drawn = text;
  find("open").hidden = page.kind === "schedule";
  try {
    page.stepping.show(title, name, new Schedule(text, answer, MOST_STEPS), step);
  } catch (why) {
    if (!(why instanceof Wrong)) throw why;
    page.stepping.hide();
    say(`not drawn: ${why.message}`);
  }
}

// Marks a line of the input, or none.
function markLine(line) {
  Object.assign(page, { marked: line, count: find("input").value.split("\n").length });
  find("input").setAttribute("aria-invalid", String(line > 0));
  layOut();
}

// The numbers of a range, one per line.
function numbered(from, to) {
  return Array.from({ length: Math.max(0, to - from + 1) }, (_, index) => `${from + index}\n`).join("");
}

// The numbers of the visible lines, after the given number of lines, with a refused line marked.
function showNumbers(hidden) {
  const numbers = find("numbers");
  const count = Math.max(page.count, page.marked);
  const [first, last] = [hidden + 1, Math.min(count, hidden + SEEN)];
  const isMarked = first <= page.marked && page.marked <= last;
  const refused = element("b", { className: "refused", textContent: String(page.marked) });
  const parts = isMarked ? [numbered(first, page.marked - 1), refused, "\n", numbered(page.marked + 1, last)] : [numbered(first, last)];
  numbers.replaceChildren(...parts, "\n".repeat(SEEN));
  numbers.style.minWidth = `calc(${String(count).length}ch + 1.5rem)`;
}

// Updates the line numbers and the mark of the refused line to the scroll position.
function layOut() {
  const [scrolled, mark] = [find("input").scrollTop, find("refused-line")];
  const hidden = Math.floor(scrolled / LINE_HEIGHT);
  showNumbers(hidden);
  find("numbers").scrollTop = scrolled - hidden * LINE_HEIGHT;
  mark.hidden = !page.marked;
  mark.style.top = `${8 + (page.marked - 1) * LINE_HEIGHT - scrolled}px`;
}

// Puts a text into the input and runs it.
function open(text, chosen) {
  find("input").value = text;
  find("input").scrollTop = 0;
  clear();
  return runInput(chosen);
}

// Shows which example is in the input, if any.
function named(name, shows = "") {
  const example = EXAMPLES.find((it) => it.name === name);
  page.name = example?.name;
  find("example").value = example?.name ?? "";
  find("shows").textContent = example?.shows ?? shows;
}

function openExample(name, chosen) {
  named(name);
  return open(EXAMPLES.find((it) => it.name === name).text, chosen);
}

function fillMenu() {
  const menu = find("example");
  menu.append(new Option("your own", ""));
  for (const [kind, label] of [["race", "Races"], ["schedule", "Schedules"], ["script", "Scripts"]]) {
    const group = element("optgroup", { label });
    EXAMPLES.filter((it) => kindOf(it.text) === kind).forEach((it) => group.append(new Option(it.name, it.name)));
    menu.append(group);
  }
}

// Opens an example. The reader's own text stays in the history.
function onExample() {
  const { value } = find("example");
  if (!value) return;
  if (!page.name) leaveEntry();
  openExample(value);
}

function onEdit() {
  named(undefined);
  page.asked = {};
  markStale(true);
  markLine(0);
  page.turn += 1;
  page.runner.stop();
  stopClock();
  say("");
  clearTimeout(page.wait);
  page.wait = setTimeout(() => runInput(), PAUSE);
}

function onKey(event) {
  if (event.key === "Enter" && (event.ctrlKey || event.metaKey)) runInput();
  if (!page.isStale) page.stepping.onKey(event);
}

function connect() {
  find("run").onclick = () => runInput();
  find("stop").onclick = () => page.runner.stop();
  find("copy").onclick = copyLink;
  find("open").onclick = () => {
    const { step } = page.stepping;
    leaveEntry();
    named(undefined);
    open(page.drawn, { step });
  };
  find("example").onchange = onExample;
  find("input").oninput = onEdit;
  find("input").onscroll = () => {
    layOut();
    if (matchMedia(BESIDE_EACH_OTHER).matches) find("rows").scrollTop = find("input").scrollTop;
  };
  document.addEventListener("keydown", onKey);
  addEventListener("popstate", ({ state }) => openEntry(state) || openFragment());
}

// Reports that this browser can't run the module.
function giveUp() {
  find("no-memory64").hidden = false;
  document.querySelectorAll(".controls button, .controls select, #input").forEach((it) => (it.disabled = true));
}

async function begin() {
  page.stepping = new Stepping(find, keepLink);
  fillMenu();
  if (typeof DecompressionStream === "undefined") return giveUp();
  const module = await moduleBytes();
  if (!WebAssembly.validate(module)) return giveUp();
  page.runner = new Runner(module);
  connect();
  if (!openEntry(history.state) && !openFragment()) openExample(EXAMPLES[0].name);
  return undefined;
}

const begun = begin();
