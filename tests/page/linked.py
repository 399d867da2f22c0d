"""Tests links to an input: long links, unusual characters, and what the page keeps if a link can't hold it."""

import re
import urllib.parse

import inputs
from chromium import js

ROOT = inputs.ROOT
ANSWERED = "!page.isStale && find('status').textContent.startsWith('answered')"
SCRIPT = "blkq 1\ndisk 1 hw 1\nfreeze\n"


def opened(page, text):
    page.js(f"named(undefined); open({text})")
    page.until(ANSWERED)


def whole_links(page, counts, url):
    """A link opens its input, with the outcome and the step; and the page's own link leads back."""
    text = (ROOT / "examples/races/removal.races").read_text(encoding="utf-8")
    page.open(f"{url}#race={urllib.parse.quote(text)}&outcome=2&step=3")
    page.until("!find('steps').hidden")
    shows = "[find('input').value, page.outcome, page.stepping.step, find('caption').textContent]"
    wanted = [text, 2, 3, "Step 3 of 7: pass 0: look 0 → closed"]
    counts.equal("a link opens its input, outcome and step", page.js(shows), wanted)
    page.key("ArrowRight")
    page.open(page.js("location.href"))
    page.until("!find('steps').hidden")
    counts.equal("the page's own link leads back", page.js("[find('input').value, page.outcome, page.stepping.step]"), [text, 2, 4])
    strange = "races 1\n# 1+1 = 2 & 100% #x; \u00e9 \u20ac 'a' \"b\" <c>\n\tworld 1 1 atomic 0 /\n"
    back = page.js(f"readFragment(fragmentOf('race', {js(strange)}, {{ outcome: 3 }}))")
    counts.equal("a fragment keeps each letter", [back["kind"], back["text"], back["outcome"]], ["race", strange, 3])
    page.js("find('copy').click()")
    page.until("find('status').textContent.includes('link')")
    counts.check("the link is in its field", page.js("!find('link-field').hidden && find('link').value === location.href"))
    page.open(f"{url}#schedule=gate+1%0Aworld+1+1+atomic+0%0A0+add+try%0A")
    page.until("!find('steps').hidden")
    counts.equal("a schedule's link", page.js("page.answer"), "given\nend live 2 front 0 kills 0 releases 0 held 1\n")


def long_links(page, counts):
    """An input that is too long for a link has no link, is kept in the history, and is there again after a reload."""
    letters = {"letters": ("x", 8200, 7900), "letters of two bytes": ("\u00e9", 1400, 1200)}
    for name, (letter, many, few) in letters.items():
        text = f"{SCRIPT}#{letter * many}\n"
        opened(page, js(f"{SCRIPT}#{letter * few}\n"))
        counts.equal(f"a link of {few} {name}", page.js("[readFragment(location.hash)?.text.length, page.link.length > 7000]"), [len(SCRIPT) + 2 + few, True])
        opened(page, js(text))
        page.js("find('link-field').hidden = true; find('copy').click()")
        page.until("find('status').textContent.includes('link')")
        shows = "[find('status').textContent, find('link-field').hidden, location.hash]"
        counts.equal(f"no link of {many} {name}", page.js(shows), ["this input is too long for a link", True, ""])
        counts.equal(f"{many} {name} are kept", page.js("history.state.text"), text)
    page.js("window.isOld = true")
    page.call("Page.reload")
    page.until("!window.isOld && document.readyState === 'complete'")
    page.js("begun.then(() => true)")
    page.until(ANSWERED)
    counts.equal("a reload has them again", page.js("find('input').value"), text)
    opened(page, f"{js(SCRIPT)} + '#' + 'x'.repeat(100000)")
    counts.equal("a text of more than 100,000 letters isn't kept", page.js("[history.state, page.link]"), [None, ""])


def strange_links(page, counts, url):
    """Leading line feeds, letters that a link has to escape, and half of a surrogate pair."""
    text = f"\n\n# a + b / c & d = e % f # g \u00e9 \U0001f600\n\t{SCRIPT}"
    page.open(f"{url}#script={urllib.parse.quote(text, safe='')}")
    page.until(ANSWERED)
    counts.equal("a link keeps line feeds in front", page.js("[find('input').value, page.answer]"), [text, "6 depth 1\ndisk 00*512\n"])
    page.open(page.js("location.href"))
    page.until(ANSWERED)
    counts.equal("and the page's own link does", page.js("[find('input').value, page.answer]"), [text, "6 depth 1\ndisk 00*512\n"])
    page.js(f"open('\\n' + {js(SCRIPT)} + '# \\ud800 x \\udc00\\n')")
    page.until(ANSWERED)
    counts.equal("half of a pair is answered", page.js("page.answer"), "4 depth 1\ndisk 00*512\n")
    counts.equal("and its link has the replacement", page.js("readFragment(location.hash).text"), f"\n{SCRIPT}# \ufffd x \ufffd\n")
    page.js("find('copy').click()")
    page.until("find('status').textContent.includes('link')")
    counts.check("and can be copied", page.js("find('link').value === location.href && !find('link-field').hidden"))


def chosen_links(page, counts):
    """The link follows the outcome and the step; a refused input has a link too."""
    page.js("openExample('removal.races')")
    page.until("page.outcomes.length === 4")
    counts.equal("a link without an outcome", page.js("(({ outcome, step }) => [outcome ?? '', step ?? ''])(readFragment(location.hash))"), ["", ""])
    page.js("choose(page.outcomes[2], 5)")
    counts.check("a link with one", page.js("location.hash").endswith("&outcome=3&step=5"))
    page.js("find('next').click()")
    counts.check("the link follows the step", page.js("location.hash").endswith("&outcome=3&step=6"))
    counts.equal("and the entry has it", page.js("history.state.chosen"), {"outcome": 3, "step": 6})
    for step in (6, 2):
        page.js(f"page.stepping.goTo({step}); find('copy').click()")
        page.until("find('status').textContent.includes('link')")
        counts.check(f"the copied link has the step {step}", page.js("find('link').value").endswith(f"&outcome=3&step={step}"))
    page.js("open('races 1\\nworld 1 1 atomic 0\\n0 putt\\n')")
    page.until("find('reason').textContent")
    counts.equal("a refused text has a link", page.js("location.hash"), "#race=races+1%0Aworld+1+1+atomic+0%0A0+putt%0A")


def links_of_documents(page, counts, url):
    """Each link of a document to an input on the page opens the input, with the outcome that it names."""
    found = 0
    for path in [ROOT / "README.md", *sorted((ROOT / "docs").rglob("*.md"))]:
        for fragment in re.findall(r"\]\([./\w]*\btry\.html(#[^)\s]+)\)", path.read_text(encoding="utf-8")):
            page.open(url + fragment)
            page.until("!find('status').textContent.startsWith('running') && find('status').textContent")
            is_answered = page.js("find('status').textContent.startsWith('answered')")
            outcome = int(urllib.parse.parse_qs(fragment).get("outcome", ["0"])[0])
            counts.check(f"{path.name}: {fragment}", is_answered and page.js("page.outcome") == outcome)
            found += 1
    counts.check("a document has a link to an input", found > 0)


def of_links(page, counts, url):
    whole_links(page, counts, url)
    links_of_documents(page, counts, url)
    long_links(page, counts)
    strange_links(page, counts, url)
    chosen_links(page, counts)
