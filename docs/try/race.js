// A page for one race: lists its outcomes and draws one. The address holds the outcome and the step.

const find = (id) => document.getElementById(id);
const race = { ...JSON.parse(find("data").textContent), stepping: undefined, outcome: 0 };
race.outcomes = outcomesOf(race.answer);

function keepAddress(step) {
  history.replaceState(null, "", `#outcome=${race.outcome}&step=${step}`);
}

// Selects an outcome and draws its schedule at a step, or at its end.
function choose(outcome, step) {
  race.outcome = outcome.number;
  if (outcome.number <= MOST_OUTCOMES) markChoice(find("outcomes"), race.outcomes, outcome);
  const schedule = new Schedule(outcome.schedule, repliesIn(outcome.schedule), MOST_STEPS);
  race.stepping.show(`outcome ${outcome.number}`, race.name, schedule, step);
}

// Selects an outcome for the reader and moves the focus to its steps.
function chooseHere(outcome) {
  choose(outcome);
  find("steps-head").focus({ preventScroll: true });
  race.stepping.comeIntoView();
}

// Selects the outcome and step in the address, or the first outcome before its first step.
function chooseAsked() {
  const asked = new URLSearchParams(location.hash.replace(/^#/, ""));
  const [number, step] = ["outcome", "step"].map((name) => numberIn(asked.get(name)));
  const found = race.outcomes.find((it) => it.number === number);
  find("notice").textContent = number === undefined || found ? "" : "The address names an outcome that isn't there.";
  choose(found ?? race.outcomes[0], found ? step : 0);
}

function begin() {
  race.stepping = new Stepping(find, keepAddress);
  find("open").hidden = true;
  find("race").textContent = race.text;
  find("outcomes").append(outcomeTable(race.outcomes, callsOf(race.text), chooseHere));
  find("glossary").append(...glossaryOf(race.outcomes.slice(0, MOST_OUTCOMES), chooseHere));
  document.addEventListener("keydown", (event) => race.stepping.onKey(event));
  addEventListener("hashchange", chooseAsked);
  chooseAsked();
}

begin();
