"""Tests stepping through a schedule with keys and with the slider; and the marks of a refused line."""

import inputs
import shown

ROOT = inputs.ROOT


def state(page):
    """The table of the gate as the page shows it."""
    return page.js(shown.STATE)


def stepping(page, counts):
    """Steps through the schedule of an outcome by the keys, and through another by the slider."""
    page.js("openExample('removal.races')")
    page.until("page.outcomes.length === 4")
    schedule, replies = list(shown.schedules_in((ROOT / "examples/races/removal.answer").read_text(encoding="utf-8")))[1]
    page.js("find('outcomes').querySelectorAll('tbody button')[1].focus()")
    page.key("Enter")
    wanted, captions = shown.gates(schedule, replies), shown.captions(schedule, replies)
    counts.equal("the whole outcome is shown at first", state(page), wanted[-1])
    page.key("ArrowLeft", len(captions))
    counts.equal("the gate before the first step", state(page), wanted[0])
    for step, caption in enumerate(captions, 1):
        page.key("ArrowRight")
        counts.equal(f"the gate after step {step}", state(page), wanted[step])
        counts.equal(f"the caption of step {step}", page.js("find('caption').textContent"), caption)
    slider(page, counts)


def slider(page, counts):
    page.js("openExample('two_kills.gate')")
    page.until("!find('steps').hidden && find('steps-head').textContent.includes('two_kills')")
    text, answer = ((ROOT / f"examples/two_kills.{it}").read_text(encoding="utf-8") for it in ("gate", "answer"))
    page.js("find('step').focus()")
    captions = shown.captions(text, answer)
    captions.insert(0, f"Before the first of {len(captions)} steps")
    for step, wanted in reversed(list(enumerate(shown.gates(text, answer)))):
        found = [page.js("page.stepping.step"), page.js("find('caption').textContent"), state(page)]
        counts.equal(f"the slider at step {step}", found, [step, captions[step], wanted])
        page.key("ArrowLeft")


def refusals(page, counts):
    """A refused line is marked, with its reason, and the mark disappears with the fault."""
    page.js("open('races 1\\nworld 1 1 atomic 0\\n0 live 0 / putt 0 1\\nc kill\\n')")
    page.until("find('reason').textContent")
    counts.equal("the reason", page.js("find('reason').textContent"), "line 3: unknown word")
    counts.equal("the marked line", page.js("find('numbers').querySelector('.refused').textContent"), "3")
    counts.equal("the reason beside the line", page.js("find('rows').children[2].querySelector('.refused').textContent"), "unknown word")
    top = "(() => { const [mark, box] = ['refused-line', 'numbers'].map((id) => find(id).getBoundingClientRect()); return mark.top - box.top; })()"
    counts.equal("the mark is at the line", page.js(f"Math.round({top})"), 8 + 2 * 21)
    page.js("open('blkq 1\\ndisk 8 hw 8\\nwrite 6 1 ff\\nread 6 2\\n')")
    page.until("find('reason').textContent.startsWith('line 4')")
    counts.equal("an overlap", page.js("find('reason').textContent"), "line 4: overlaps line 3")
    page.js("openExample('first.blkq')")
    page.until("find('status').textContent.startsWith('answered')")
    counts.equal("no mark is left", page.js("[find('reason').textContent, find('refused-line').hidden]"), ["", True])
    for text, reason in {"blkq 1\\n": "line 2: no disk", "races 1\\n\\n# a\\n": "line 4: no world", "": "line 1: no version"}.items():
        page.js(f"open('{text}')")
        page.until("find('reason').textContent")
        shows = "[find('reason').textContent, find('rows').querySelector('.refused').textContent, find('numbers').querySelector('.refused').textContent]"
        line, why = reason.removeprefix("line ").split(": ")
        counts.equal(f"a fault behind the end, {reason}", page.js(shows), [reason, why, line])
