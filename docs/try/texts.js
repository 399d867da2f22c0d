// Parses texts: lines, the kind of an input, replies per line, the outcomes of a race, and the fragment of a link.

const HEADS = { __proto__: null, blkq: "script", gate: "schedule", races: "race" };
const BESIDE = 28;

function linesOf(text) {
  const lines = text.split("\n");
  if (lines[lines.length - 1] === "") lines.pop();
  return lines.map((line) => line.replace(/\r$/, ""));
}

function wordsOf(line) {
  return line.split(/[ \t]+/).filter((word) => word !== "");
}

// The lines that aren't empty or comments, with their numbers, from 1, and their words.
function saidIn(text) {
  return linesOf(text)
    .map((line, index) => ({ number: index + 1, words: wordsOf(line) }))
    .filter(({ words }) => words.length > 0 && !words[0].startsWith("#"));
}

// The kind of an input by its first word, or undefined if it is none of the three.
function kindOf(text) {
  return HEADS[saidIn(text)[0]?.words[0]];
}

// A script's replies by line number, and the disk's line.
function repliesOfScript(answer) {
  const replies = new Map();
  let last = "";
  for (const line of linesOf(answer)) {
    const [number, rest] = [line.split(" ", 1)[0], line.slice(line.indexOf(" ") + 1)];
    if (number === "disk") last = line;
    else replies.set(Number(number), rest);
  }
  return { replies, last };
}

// A schedule's replies by line number, and the final line.
function repliesOfSchedule(text, answer) {
  const replies = new Map();
  const lines = linesOf(answer);
  const steps = saidIn(text).slice(2);
  steps.slice(0, lines.length).forEach(({ number }, index) => replies.set(number, lines[index]));
  return { replies, last: lines[steps.length] ?? "" };
}

// A row per line of a script or a schedule with its reply, and one for the end, as printed by examples/beside.
function rowsBeside(kind, text, answer) {
  const { replies, last } = kind === "script" ? repliesOfScript(answer) : repliesOfSchedule(text, answer);
  const rows = linesOf(text).map((line, index) => ({ number: index + 1, line, reply: replies.get(index + 1) }));
  if (last) rows.push({ number: 0, line: "", reply: last });
  return rows;
}

// The rows of a race's answer: each step with the reply below it.
function rowsOfRace(answer) {
  const rows = [];
  for (const line of linesOf(answer)) {
    if (line.startsWith("# ")) {
      const before = rows[rows.length - 1];
      if (before && before.reply === undefined && before.line !== "") before.reply = line.slice(2);
      else rows.push({ line: "", reply: line.slice(2) });
    } else rows.push({ line });
  }
  return rows;
}

function printed(rows) {
  return rows.map(({ line, reply }) => (reply === undefined ? line : `${line.padEnd(BESIDE)} ${reply}`) + "\n").join("");
}

// The outcomes of a race, each with its actors' results, whether an actor waits forever, and its schedule as printed.
function outcomesOf(answer) {
  const outcomes = [];
  for (const line of linesOf(answer)) {
    const now = outcomes[outcomes.length - 1];
    const [, number, steps, deadlock] = /^outcome (\d+) steps (\d+)( deadlock)?$/.exec(line) ?? [];
    if (number) outcomes.push({ number: Number(number), steps: Number(steps), isDeadlock: deadlock !== undefined, actors: [], schedule: "" });
    else if (!now || /^outcomes \d+$/.test(line)) continue;
    else if (now.schedule || line === "gate 1") now.schedule += `${line}\n`;
    else now.actors.push({ actor: line.split(" ", 1)[0], answers: line.split(" ").slice(1).join(" ") });
  }
  return outcomes;
}

// The replies in the printed schedule of a race.
function repliesIn(schedule) {
  return linesOf(schedule)
    .filter((line) => line.startsWith("# "))
    .map((line) => line.slice(2) + "\n")
    .join("");
}

// Encodes and decodes the fragment of a link to an input. Letters, digits, spaces and slashes stay readable. A lone surrogate becomes the
// replacement character, as in the bytes that run.
function fragmentOf(kind, text, chosen = {}) {
  const spelled = encodeURIComponent(text.toWellFormed()).replace(/%20/g, "+").replace(/%2F/g, "/");
  const more = Object.entries(chosen).map(([name, value]) => `&${name}=${value}`);
  return `#${kind}=${spelled}${more.join("")}`;
}

// A number in a link: NaN if it isn't a number, undefined if it is missing.
function numberIn(word) {
  if (word === null) return undefined;
  return /^[0-9]{1,9}$/.test(word) ? Number(word) : NaN;
}

// Whether the percent-encoding of a fragment is valid.
function isSpelled(fragment) {
  try {
    return typeof decodeURIComponent(fragment) === "string";
  } catch {
    return false;
  }
}

function readFragment(fragment) {
  const found = new URLSearchParams(fragment.replace(/^#/, ""));
  const kind = Object.values(HEADS).find((name) => found.has(name));
  if (!kind) return undefined;
  const [outcome, step] = ["outcome", "step"].map((name) => numberIn(found.get(name)));
  return { kind, text: found.get(kind), outcome, step, isDamaged: !isSpelled(fragment) };
}

// A count with its noun.
function counted(count, noun) {
  return `${count} ${noun}${count === 1 ? "" : "s"}`;
}
