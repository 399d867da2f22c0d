"""Tests what surrounds an answer: the table of outcomes, its glossary, the gate and the lanes with several slots, and what is cut off."""

import pathlib
import re

import shown

ROOT = pathlib.Path(__file__).resolve().parents[2]
# The cells of the table of outcomes, row by row, and the words of its glossary.
ROWS = "[...find('outcomes').querySelectorAll('tbody tr')].map((row) => [...row.cells].map((cell) => cell.textContent))"
WORDS = "[...find('glossary').querySelectorAll('dt')].map((it) => it.textContent)"
ANSWERED = "!page.isStale && find('status').textContent.startsWith('answered')"
# Two passes on the slots 1 and 2 of three, a kill, and the words of the gate.
SLOTS = """gate 1
world 3 2 slots 4 7 8
0 look 2
0 take 2 0 1
1 look 1
1 take 1 0 1
0 word 1
1 take 1 1 2
0 give 1 3 1
c dead
c close
c close
c close
1 look 2
c collect
c confirm
c base
1 sub 3
0 sub 1
0 mark
c store 1 18446744073709551615
c store 0 5
c take
c front
c clear
c bias
c open
c open
c open
1 look 0
1 take 0 0 1
1 word 1
"""
# A race of 1,254 outcomes.
MANY = "races 1\nworld 1 2 atomic 0\n0 dying / zero / dying / try 0 / put 0 1 / dying\n1 zero / dying / try 0 / put 0 1 / zero\nc kill / resurrect / kill\n"
WIDE = "'gate 1\\nworld 1 17 atomic 0\\n16 add try\\n'"
LONG = "'gate 1\\nworld 1 1 slots 0\\n' + '0 look 0\\n'.repeat(601)"


def outcomes_in(answer):
    """The cells of the table: for each outcome its number, the answers of each actor, the steps and the end."""
    for part in re.split(r"^(?=outcome )", answer, flags=re.MULTILINE)[1:]:
        number, steps, deadlock = re.match(r"outcome (\d+) steps (\d+)( deadlock)?\n", part).groups()
        said = [line.partition(" ")[2] for line in part[: part.index("\ngate 1\n")].splitlines()[1:]]
        end = re.search(r"^# end (.*)$", part, re.MULTILINE)[1]
        yield [number, *said, steps, f"deadlock: {end}" if deadlock else end]


def outcomes(page, counts):
    """The table has the outcomes of the answer, and a click on a row, on its button or in the glossary draws the outcome."""
    page.js("openExample('removal.races')")
    page.until(f"page.outcomes.length === 4 && {ANSWERED}")
    answer = (ROOT / "examples/races/removal.answer").read_text(encoding="utf-8")
    counts.equal("the table of the outcomes", page.js(ROWS), list(outcomes_in(answer)))
    heads = page.js("[...find('outcomes').querySelectorAll('thead th')].map((cell) => cell.textContent)")
    counts.equal("its heads", heads[:3], ["outcome", "pass 0live 0 / put 0 1", "controlkill"])
    counts.equal("its caption", page.js("find('outcomes').querySelector('caption').textContent"), "4 outcomes. Choose one to draw its schedule.")
    pressed = "[...find('outcomes').querySelectorAll('tbody button')].map((it) => it.getAttribute('aria-pressed'))"
    shows = f"[page.outcome, {pressed}, find('outcomes').querySelector('tr.chosen').rowIndex, find('steps-head').textContent, document.activeElement.id]"
    for number in (3, 1):
        page.js(f"find('outcomes').querySelectorAll('tbody tr')[{number - 1}].cells[1].click()")
        wanted = [number, ["true" if it == number else "false" for it in range(1, 5)], number, f"Step by step: outcome {number}", "steps-head"]
        counts.equal(f"a click on the row of outcome {number}", page.js(shows), wanted)
    glossary(page, counts, answer)


def deadlock(page, counts):
    """The table marks a deadlock, and the glossary says what its actor waits for."""
    page.js("openExample('freeze.races')")
    page.until(f"page.outcomes.length === 12 && {ANSWERED}")
    answer = (ROOT / "examples/races/freeze.answer").read_text(encoding="utf-8")
    wanted = [row[:-1] for row in outcomes_in(answer)]
    counts.equal("the table of a race with a deadlock", page.js(f"{ROWS}.map((row) => row.slice(0, -1))"), wanted)
    ends = page.js(f"{ROWS}.map((row) => row.at(-1).startsWith('deadlock: '))")
    counts.equal("the first outcome alone is a deadlock", ends, [True, *[False] * 11])
    words = page.js(WORDS)
    counts.check("the glossary has a call that waits for ever", "waits for zero" in words, words)


def glossary(page, counts, answer):
    said = [(row[0], {word for cell in row[1:3] for word in cell.split(" / ")}) for row in outcomes_in(answer)]
    words = page.js(WORDS)
    counts.equal("the glossary has each word that is answered", sorted(words), sorted(set().union(*(of for _, of in said))))
    for index, word in enumerate(words):
        having = [number for number, of in said if word in of]
        told = page.js(f"find('glossary').querySelectorAll('dd')[{index}].textContent")
        wanted = f"(in {len(having)} of 4 outcomes) outcome {having[0]}"
        counts.check(f"the glossary counts {word}", told.endswith(wanted), told)
        page.js(f"find('glossary').querySelectorAll('button')[{index}].click()")
        found = page.js("[page.outcome, find('steps').hidden, document.activeElement.id]")
        counts.equal(f"the glossary's button of {word}", found, [int(having[0]), False, "steps-head"])


def slots(page, counts, answer):
    """The gate, its lanes and the captions of a schedule on several slots and words."""
    page.js(f"named(undefined); open({SLOTS!r}, {{ step: 0 }})")
    page.until(f"page.kind === 'schedule' && {ANSWERED}")
    counts.equal("a schedule on three slots", page.js("page.answer"), answer)
    drawn = page.js(f"lanesOf('Slots', 'slots', new Schedule({SLOTS!r}, {answer!r}))")
    counts.equal("the lanes with three slots", drawn, shown.drawn("Slots", "slots", SLOTS, answer))
    walked(page, counts, "three slots", SLOTS, answer)


def walked(page, counts, name, text, answer):
    """A schedule step by step: its gate and the previous values, the marked rows, the captions, the frame and the buttons."""
    wanted, captions = shown.gates(text, answer), shown.captions(text, answer)
    table = f"{shown.TABLE}.map((row) => [row.className, ...[...row.cells].map((cell) => cell.textContent)])"
    for step, now in enumerate(wanted):
        before = wanted[step - 1] if step else now
        counts.equal(f"{name} after step {step}", page.js(table), [marked(*both) for both in zip(now, before)])
        if step:
            counts.equal(f"the caption of step {step} of {name}", page.js("find('caption').textContent"), captions[step - 1])
        frame(page, counts, step, len(captions))
        page.js("find('next').click()")
    by_buttons(page, counts, len(captions))


def marked(now, before):
    """A row of the table with its class: a changed row, or another."""
    return ["changed", *now, before[1]] if now != before else ["", *now, ""]


def wrong_answers(page, counts, answer):
    """A schedule whose answer differs from the machine's isn't drawn, and the page says why."""
    lines = answer.splitlines()
    wrong = {
        "another reply": ["\n".join(["open 1", *lines[1:]]), "the answer's line 1 says 'open 1', and the machine 'open 0'"],
        "another end": ["\n".join([*lines[:-1], "end live 1"]), f"the answer's line {len(lines)} says 'end live 1'"],
        "a line too few": ["\n".join(lines[:-1]), f"the answer's line {len(lines)} says 'undefined'"],
        "a line too many": ["\n".join([*lines, "ok"]), f"the answer has {len(lines) + 1} lines, and the machine gives {len(lines)}"],
    }
    for name, (answer, why) in wrong.items():
        page.js("openExample('late_try.gate')")
        page.until(f"page.kind === 'schedule' && {ANSWERED}")
        page.js(f"showSchedule('Slots', '', {SLOTS!r}, {answer!r})")
        said = page.js("find('steps').hidden && find('status').textContent")
        counts.check(f"{name} isn't drawn", said and said.startswith(f"not drawn: {why}"), said)


def frame(page, counts, step, last):
    """The step's row is framed, and later rows are faded."""
    row = "(at) => page.stepping.drawing.yOf(at)"
    number = "(box, name) => Number(page.stepping[box].getAttribute(name))"
    found = page.js(f"(({number}) ('now', 'y')) + (({number})('now', 'height')) / 2 - (({row})({step - 1}))")
    counts.equal(f"the frame of step {step}", found, 0 if step else -16)
    faded = page.js(f"[(({number})('later', 'y')) - (({row})({step - 1})), (({number})('later', 'height'))]")
    counts.check(f"what is faded at step {step}", faded[0] > 16 and (faded[1] > 0) == (step < last), faded)


def by_buttons(page, counts, last):
    disabled = "['first', 'back', 'next', 'last'].map((id) => find(id).disabled)"
    at_end, at_start = [False, False, True, True], [True, True, False, False]
    clicks = {"first": (0, at_start), "last": (last, at_end), "back": (last - 1, [False] * 4), "next": (last, at_end)}
    for button, (step, wanted) in clicks.items():
        page.js(f"find('{button}').click()")
        found = page.js(f"[page.stepping.step, Number(find('step').value), {disabled}, find('step').getAttribute('aria-valuetext')]")
        counts.equal(f"the button {button}", found, [step, step, wanted, f"step {step} of {last}"])


def cut(page, counts):
    """What is too large to be shown is cut, and the page says so."""
    page.js(f"open({MANY!r})")
    page.until(f"page.outcomes.length === 1254 && {ANSWERED}")
    caption, rows = page.js("[find('outcomes').querySelector('caption').textContent, find('outcomes').querySelectorAll('tbody tr').length]")
    counts.equal("500 outcomes have rows", [caption.split(". ")[0], rows], ["1254 outcomes, the first 500 of them here", 500])
    page.js(f"open({MANY!r}, {{ outcome: 500 }})")
    page.until(f"page.outcome === 500 && {ANSWERED}")
    counts.equal("the last of them is drawn", page.js("find('steps-head').textContent"), "Step by step: outcome 500")
    page.js(f"named(undefined); open({LONG})")
    page.until(f"page.kind === 'schedule' && {ANSWERED}")
    shows = "[find('steps-head').textContent, find('step').max, find('lanes').querySelector('svg') === null, find('lanes').textContent]"
    head = "Step by step: schedule, the first 600 of 601 steps"
    words = "Lanes are drawn up to 600 steps and 16 passes; this schedule has"
    counts.equal("a long schedule", page.js(shows), [head, "600", True, f"{words} 601 and 1."])
    page.js(f"open({WIDE})")
    page.until(f"page.stepping.schedule?.passes === 17 && {ANSWERED}")
    counts.equal("many passes", page.js("find('lanes').textContent"), f"{words} 1 and 17.")
    page.js("find('first').click()")
    counts.equal("their gate is shown", page.js(f"{shown.TABLE}.length"), 2 + 1 + 18)
    page.js("open('blkq 1\\ndisk 4096 hw 7\\nwrite 0 4096 ' + '0102'.repeat(32) + '\\nstat\\nread 0 4096\\n')")
    page.until(f"page.kind === 'script' && {ANSWERED}")
    letters = page.js("[...find('rows').querySelectorAll('.reply')].map((it) => it.textContent.length)")
    counts.check("a long reply is cut", max(letters) < 10_100 and letters[2] > 10_000, letters)
    whole = page.js("[find('answer').textContent.length - (1 << 20), find('answer').textContent.endsWith(`${page.answer.length} bytes in all`)]")
    counts.check("and so is the whole answer", 0 < whole[0] < 40 and whole[1], whole)


def of_tables(page, counts, programs, given):
    outcomes(page, counts)
    deadlock(page, counts)
    answer = programs.answer(given("three slots", "schedule", SLOTS.encode())).text.decode()
    slots(page, counts, answer)
    wrong_answers(page, counts, answer)
    cut(page, counts)
