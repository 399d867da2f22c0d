// Renders the answer: line by line next to the input, or the outcomes of a race as a table.

const MOST_ROWS = 5000;
const MOST_OUTCOMES = 500;
const MOST_LETTERS = 10000;

// Meanings of a race's results: the words, and the calls that return them.
const MEANINGS = {
  given: "the try took its reference",
  refused: "the try took none: its addition was taken back, and that wasn't the last reference",
  "refused last": "the try was refused, and taking its addition back was the release: it was the last",
  "not last": "the reference was dropped, and others were left",
  last: "this call dropped the last reference: it is the release, and its caller frees what the gate guards",
  ok: "done",
  yes: "it is so",
  no: "it isn't so",
  held: "the gate was revived before it reached zero",
  "at zero": "the gate had reached zero, and was revived",
  "already dead": "refused: the gate was killed before",
  "not dead": "refused: the gate isn't killed",
  "not zero": "refused: the gate hasn't reached zero",
  "mid switch": "refused: a switch of the mode is under way",
  "worn out": "refused: the gate was killed 2^40 times",
  "passed over": "the call couldn't be made at its place",
  "waits for zero": "a deadlock: this call waits until the gate reaches zero, and no step is left that could lead there",
  "waits for dead": "a deadlock: this call waits until the gate is killed, and no call is left that kills it",
};

function clipped(text) {
  return text.length <= MOST_LETTERS ? text : `${text.slice(0, MOST_LETTERS)} .. (${text.length} letters)`;
}

// Whether a reply says that the step can't be taken.
function isStuck(reply) {
  return /^stuck \d/.test(reply);
}

// The rows of a script's or a schedule's answer, as elements. A refused line shows the reason.
function rowElements(rows, refused) {
  return rows.slice(0, MOST_ROWS).map(({ number, line, reply }) => {
    const isRefused = refused && number === refused.line;
    const shown = isRefused ? refused.reason : (reply ?? "");
    const parts = [element("span", { className: "line", textContent: line })];
    if (shown && number) parts.push(element("span", { className: "at", textContent: `${number}`.padStart(4) }), "  ");
    const isFault = isRefused || isStuck(shown);
    if (shown) parts.push(element("span", { className: isFault ? "reply refused" : "reply", textContent: clipped(shown) }));
    if (withBias(shown) !== shown) parts.push(element("span", { className: "at", textContent: `  (${/bias[-+0-9]*/.exec(withBias(shown))[0]})` }));
    return element("div", { className: "row" }, parts);
  });
}

// The calls of each actor of a race, as written in its lines.
function callsOf(text) {
  const calls = new Map();
  for (const { words } of saidIn(text).slice(2)) {
    const actor = words[0] === "c" ? "c" : String(Number(words[0]));
    calls.set(actor, [...(calls.get(actor) ?? []), words.slice(1).join(" ")]);
  }
  return calls;
}

// The final state of the gate: its line, without the leading words.
function endOf({ schedule, isDeadlock }) {
  const end = withBias(linesOf(schedule).find((line) => line.startsWith("# end ")).slice(6));
  return isDeadlock ? `deadlock: ${end}` : end;
}

function outcomeHead(actors, calls) {
  const of = (actor) => [actorName(actor), element("code", { textContent: (calls.get(actor) ?? []).join(" / ") })];
  const head = (parts, className = "") => element("th", { scope: "col", className }, parts);
  const heads = [head(["outcome"]), ...actors.map((actor) => head(of(actor))), head(["steps"], "number"), head(["how it ends"])];
  return element("thead", {}, [element("tr", {}, heads)]);
}

function outcomeRow(outcome, actors, onChoice) {
  const choice = element("button", { type: "button", textContent: String(outcome.number), ariaPressed: "false" });
  choice.setAttribute("aria-label", `outcome ${outcome.number}: draw its schedule`);
  const answers = actors.map((actor) => {
    const found = outcome.actors.find((it) => it.actor === actor);
    return element("td", { className: "said", textContent: found ? found.answers : "" });
  });
  const steps = element("td", { className: "number", textContent: String(outcome.steps) });
  const cells = [element("th", { scope: "row" }, [choice]), ...answers, steps];
  const row = element("tr", {}, [...cells, element("td", { className: "end", textContent: endOf(outcome) })]);
  row.onclick = () => onChoice(outcome);
  return row;
}

// The table of a race's outcomes. Clicking a row or its button selects the outcome.
function outcomeTable(outcomes, calls, onChoice) {
  const shown = outcomes.slice(0, MOST_OUTCOMES);
  const actors = (outcomes[0]?.actors ?? []).map(({ actor }) => actor).filter((actor) => calls.has(actor));
  const some = shown.length < outcomes.length ? `, the first ${shown.length} of them here` : "";
  const caption = `${counted(outcomes.length, "outcome")}${some}. Choose one to draw its schedule.`;
  const body = element("tbody", {}, shown.map((outcome) => outcomeRow(outcome, actors, onChoice)));
  return element("table", {}, [element("caption", { textContent: caption }), outcomeHead(actors, calls), body]);
}

// Marks the row of the selected outcome in a table of these outcomes.
function markChoice(table, outcomes, chosen) {
  [...table.querySelector("tbody").rows].forEach((row, index) => {
    const isChosen = outcomes[index].number === chosen.number;
    row.className = isChosen ? "chosen" : "";
    row.querySelector("button").setAttribute("aria-pressed", String(isChosen));
  });
}

function hasWord({ actors }, word) {
  return actors.some(({ answers }) => answers.split(" / ").includes(word));
}

// The meanings of the words in these outcomes, each with a button that selects the first outcome with that word.
function glossaryOf(outcomes, onChoice) {
  return Object.entries(MEANINGS).flatMap(([word, meaning]) => {
    const having = outcomes.filter((outcome) => hasWord(outcome, word));
    if (having.length === 0) return [];
    const first = element("button", { type: "button", textContent: `outcome ${having[0].number}` });
    first.setAttribute("aria-label", `${word}: draw outcome ${having[0].number}`);
    first.onclick = () => onChoice(having[0]);
    const count = `${meaning} (in ${having.length} of ${counted(outcomes.length, "outcome")}) `;
    return [element("dt", { textContent: word }), element("dd", {}, [count, first])];
  });
}
