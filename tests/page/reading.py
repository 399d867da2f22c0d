"""Tests what a reader does with the page: continues while a text runs, scrolls, opens a damaged link, goes back, and looks at a picture."""

import urllib.parse

from chromium import AS_LONG_AS_IT_TAKES, ENDLESS

OUTCOME = "choose(page.outcomes[1], 3)"
SHOWN = "[page.kind, page.outcome, page.stepping.step]"
# Whether the heading of the steps and the frame around the current one are in the window.
IN_VIEW = """(() => {
    if (!page.stepping.now) return false;
    const [head, now] = [find('steps-head'), page.stepping.now].map((it) => it.getBoundingClientRect());
    return head.top >= 0 && now.height > 0 && now.top > head.bottom && now.bottom <= innerHeight;
})()"""


def removal(page):
    page.js("openExample('removal.races')")
    page.until("find('status').textContent.startsWith('answered')")


def old_answer(page, counts, large):
    """While a new text runs, the old answer is dimmed, nothing in it can be chosen, and a link has no part of it."""
    page.js("openExample('removal.races', { outcome: 2, step: 3 })")
    page.until("page.outcome === 2 && find('status').textContent.startsWith('answered')")
    page.js(f"{ENDLESS} find('input').value = {large}; find('input').dispatchEvent(new Event('input'))")
    stale = "['answer-part', 'steps', 'whole'].map((id) => find(id).inert && find(id).classList.contains('stale'))"
    choice = "find('outcomes').querySelector('tbody button').click(); find('copy').click()"
    for when in ("page.isStale", "find('status').textContent.startsWith('running')"):
        page.until(when)
        counts.equal("the old answer is dimmed and inert", page.js(stale), [True, True, True])
        page.until("['answer-part', 'steps', 'whole'].every((id) => Number(getComputedStyle(find(id)).opacity) < 0.7)")
        linked = page.js(f"{choice}; [page.outcome, readFragment(location.hash)]")
        counts.equal("an old outcome isn't chosen", linked[0], 2)
        counts.equal("the link has the new text", linked[1]["text"], page.js("find('input').value"))
        counts.check("and no outcome", "outcome" not in linked[1] and "step" not in linked[1], linked)
    page.js("find('stop').click()")
    page.until("find('status').textContent.startsWith('stopped after')")
    page.js(AS_LONG_AS_IT_TAKES)
    counts.equal("an answer that is shown isn't dimmed", page.js(stale), [False, False, False])


def keys(page, counts):
    """The left and right keys scroll the table of the outcomes if it has the focus, and otherwise step."""
    page.look(400, 800, "light", is_phone=True)
    removal(page)
    page.js(OUTCOME)
    page.js("find('outcomes').focus()")
    for _ in range(50):
        page.key("ArrowRight")
        if page.js("new Promise((done) => setTimeout(() => done(find('outcomes').scrollLeft > 0), 100))"):
            break
    counts.check("the table scrolls by a key", page.js("find('outcomes').scrollLeft > 0"))
    counts.equal("and nothing steps", page.js("page.stepping.step"), 3)
    page.js("document.activeElement.blur()")
    page.key("ArrowRight")
    counts.equal("the step after a key from nowhere", page.js("page.stepping.step"), 4)
    for place, step in (("back", 5), ("run", 5), ("input", 5), ("lanes", 5)):
        page.js(f"find('{place}').focus()")
        page.key("ArrowRight")
        counts.equal(f"the step after a key in {place}", page.js("page.stepping.step"), step)


def damaged_links(page, counts, url):
    """If a link names something that doesn't exist, the page says so."""
    race = "#race=races+1%0Aworld+1+1+atomic+0%0A0+live+0%0Ac+kill%0A"
    outcome, step = "The link names an outcome that isn't there.", "The link names a step that isn't there."
    links = {f"{race}&outcome=99": outcome, f"{race}&outcome=x": outcome, f"{race}&outcome=1&step=99": step, f"{race}&outcome=1": ""}
    for link, notice in links.items():
        page.open(url + link)
        page.until("find('status').textContent.startsWith('answered')")
        counts.equal(f"the notice of {link}", page.js("find('notice').textContent"), notice)
    page.open(f"{url}#race=%E0%A4%A")
    page.until("find('status').textContent.startsWith('answered')")
    counts.check("a damaged link is called so", page.js("find('notice').textContent").startswith("The link is damaged"))
    counts.equal("and no fault of an input", page.js("find('reason').textContent"), "")


def way_back(page, counts):
    """An opened schedule has the step, and going back leads to the race with its outcome."""
    removal(page)
    page.js(OUTCOME)
    # Then the history has no entry ahead.
    entries = page.js("history.pushState(history.state, '', location.href); history.length")
    page.js("find('open').click()")
    page.until("page.kind === 'schedule' && find('status').textContent.startsWith('answered')")
    counts.equal("the schedule is open at the step", page.js(SHOWN), ["schedule", 0, 3])
    counts.equal("there is one entry more", page.js("history.length"), entries + 1)
    page.js("history.back()")
    page.until("page.kind === 'race' && page.outcome")
    counts.equal("the way back leads to the outcome", page.js(SHOWN), ["race", 2, 3])
    counts.equal("and to the example", page.js("page.name"), "removal.races")


def into_view(page, counts, url):
    """A chosen outcome is scrolled into view, also when a link is opened, and at once if reduced motion is preferred."""
    race = urllib.parse.quote(page.js("EXAMPLES[0].text"))
    for wide, high in ((1400, 900), (400, 800)):
        page.look(wide, high, "light", is_phone=wide < 600)
        page.open(f"{url}#race={race}&outcome=2&step=6")
        page.until(IN_VIEW)
        counts.check(f"the picture of a link is in view at {wide} points", page.js(IN_VIEW))
        calm = [{"name": "prefers-reduced-motion", "value": "reduce"}]
        page.call("Emulation.setEmulatedMedia", features=calm)
        page.js("scrollTo({ top: 0, behavior: 'instant' })")
        at_once = page.js(f"(() => {{ find('outcomes').querySelectorAll('tbody button')[1].click(); return {IN_VIEW}; }})()")
        counts.check(f"it is in view at once at {wide} points", at_once)
        counts.equal("the keys step from its heading", page.js("document.activeElement.id"), "steps-head")


def by_kind(page, counts):
    """A step that can't be taken is a fault, the bias has its name, and the help is for the kind of the text."""
    page.js("open('gate 1\\nworld 1 1 slots 0\\n0 shared\\n0 sub 1\\n')")
    page.until("find('status').textContent.startsWith('answered')")
    counts.check("the status says where it is stuck", page.js("find('status').textContent").endswith(", stuck at line 4: nothing held"))
    faults = page.js("[...find('rows').querySelectorAll('.refused')].map((it) => it.textContent)")
    counts.equal("the stuck step is coloured", faults, ["stuck 4 nothing held"])
    page.js("page.stepping.goTo(1)")
    counts.check("the caption names the bias", page.js("find('caption').textContent").endswith("shared → live bias+1"))
    helps = "['race', 'schedule', 'script'].map((it) => find(`help-${it}`).hidden)"
    counts.equal("the help is that of a schedule", page.js(helps), [True, False, True])
    page.js("open('race\\n')")
    page.until("find('reason').textContent")
    counts.equal("each help is there for a text of no kind", page.js(helps), [False, False, False])
    page.js("location.hash = '#race=races+1%0Aworld+1+1+atomic+0%0A0+try+0%0A'")
    page.until("page.kind === 'race' && find('status').textContent.startsWith('answered')")
    counts.check("one outcome is one", page.js("find('outcomes').textContent").startswith("1 outcome. Choose"))
