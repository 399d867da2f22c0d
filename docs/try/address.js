// The address of the page, and its history: a link to what is shown, and the way back.

const MOST_LINK = 8000;
const MOST_KEPT = 100_000;
const NOTICES = {
  damaged: "The link is damaged, so its input can't be read.",
  outcome: "The link names an outcome that isn't there.",
  step: "The link names a step that isn't there.",
};

// The outcome and step on display, if the answer belongs to the current text. While the text runs: those that the link asked for.
function chosenNow() {
  if (page.isStale) return page.asked;
  const step = page.stepping.schedule ? { step: page.stepping.step } : {};
  return page.outcome ? { outcome: page.outcome, ...step } : step;
}

// Writes the link to what is shown into the address bar, and saves the text in the history entry.
function keepLink() {
  const [text, chosen] = [find("input").value, chosenNow()];
  const fragment = text.length <= MOST_LINK ? fragmentOf(kindOf(text) ?? "script", text, chosen) : "";
  page.link = fragment.length <= MOST_LINK ? fragment : "";
  const entry = text.length <= MOST_KEPT ? { text, chosen, name: page.name } : null;
  history.replaceState(entry, "", page.link || location.pathname);
}

async function copyLink() {
  keepLink();
  if (!page.link) return say("this input is too long for a link");
  find("link-field").hidden = false;
  find("link").value = location.href;
  find("link").select();
  try {
    await navigator.clipboard.writeText(location.href);
    say("the link is copied");
  } catch {
    find("link").focus();
    say("copy the link from its field");
  }
  return undefined;
}

// Describes what a link names that doesn't exist, or returns undefined if everything exists.
function missing({ outcome, step }) {
  if (outcome !== undefined && outcome !== page.outcome) return NOTICES.outcome;
  return step !== undefined && step !== page.stepping.step ? NOTICES.step : undefined;
}

// Pushes a new history entry, so that Back returns to what is shown now.
function leaveEntry() {
  keepLink();
  history.pushState(null, "", location.href);
}

// Opens the text of a history entry. Returns whether the entry had one.
function openEntry(entry) {
  if (typeof entry?.text !== "string") return false;
  named(entry.name);
  open(entry.text, entry.chosen);
  return true;
}

// Opens the text in the fragment of the address. Returns whether there was one.
function openFragment() {
  const asked = readFragment(location.hash);
  if (!asked) return false;
  if (asked.isDamaged) {
    openExample(EXAMPLES[0].name, { notice: `${NOTICES.damaged} This is an example.` });
    return true;
  }
  named(undefined, "from the link");
  open(asked.text, asked);
  return true;
}
