"""Tests what a reader does in the input: types, presses keys, writes after comments, and scrolls a text with a refused line."""

LINE = 21
# How often the page has run an input since.
COUNT = """(() => {
    page.runs = [];
    const { run } = Runner.prototype;
    page.runner.run = function (kind, ...more) { page.runs.push(kind); return run.call(this, kind, ...more); };
})()"""
ANSWERED = "!page.isStale && find('status').textContent.startsWith('answered')"
LINKED = "readFragment(location.hash)?.text"
RACE = "races 1\\nworld 1 1 atomic 0\\n0 live 0 / put 0 1\\nc kill\\n"


def typing(page, counts):
    """Typed text runs by itself, once, and is no longer the example; Ctrl-Enter runs it at once, and so does the button."""
    page.js("openExample('removal.races')")
    page.until(ANSWERED)
    page.js(f"{COUNT}; choose(page.outcomes[1], 3); find('input').focus(); find('input').setSelectionRange(0, 0)")
    page.call("Input.insertText", text="# typed\n")
    counts.equal("what is typed is in the input", page.js("find('input').value.split('\\n')[0]"), "# typed")
    page.until(f"page.runs.length && {ANSWERED}")
    counts.equal("what is typed is answered", page.js("[page.outcomes.length, page.outcome, find('steps').hidden]"), [4, 0, True])
    counts.equal("it is no example", page.js("[page.name ?? '', find('example').value, find('shows').textContent]"), ["", "", ""])
    counts.check("the link has it", page.js(f"{LINKED} === find('input').value"))
    # Checked together with the edits, since a pause may be over if this program is slow.
    edits = "for (const letter of 'abc') { find('input').value += `# ${letter}\\n`; find('input').dispatchEvent(new Event('input')); }"
    said = page.js(f"page.runs = []; {edits} [page.runs.length, find('status').textContent, page.isStale]")
    counts.equal("nothing is said before it runs", said, [0, "", True])
    page.until(f"page.runs.length && {ANSWERED}")
    page.js("new Promise((done) => setTimeout(done, 2 * PAUSE))")
    counts.equal("edits one after another run once", page.js("page.runs"), ["race"])
    by_hand(page, counts)


def by_hand(page, counts):
    page.js(f"page.runs = []; find('input').value = 'gate 1\\nworld 1 1 atomic 0\\n0 add try\\n'; find('input').focus()")
    page.key("Enter", held="ctrl")
    page.until(f"page.runs.length && {ANSWERED}")
    shows = "[page.runs, page.answer, find('input').value.length]"
    answer = "given\nend live 2 front 0 kills 0 releases 0 held 1\n"
    counts.equal("Ctrl and Enter run it", page.js(shows), [["schedule"], answer, 36])
    page.js("find('input').value = 'blkq 1\\ndisk 1 hw 1\\nfreeze\\n'; find('run').click()")
    page.until(f"page.runs.length === 2 && {ANSWERED}")
    counts.equal("the button runs it", page.js("[page.runs[1], page.answer]"), ["script", "3 depth 1\ndisk 00*512\n"])
    page.js("page.runs = []; find('input').value = 'blkq 1\\n'; find('input').dispatchEvent(new Event('input')); find('run').click()")
    page.until("find('reason').textContent")
    page.js("new Promise((done) => setTimeout(done, 2 * PAUSE))")
    counts.equal("the button takes the place of the pause", page.js("page.runs"), ["script"])
    page.js("delete page.runner.run")


def menu(page, counts):
    """The menu opens each example and shows its answer; the reader's own text stays in the history."""
    page.js(f"named(undefined); open('{RACE}')")
    page.until(ANSWERED)
    # Then the history has no entry ahead.
    entries = page.js("history.pushState(history.state, '', location.href); history.length")
    page.js("find('example').value = 'late_try.gate'; find('example').dispatchEvent(new Event('change'))")
    page.until(f"page.kind === 'schedule' && {ANSWERED}")
    shows = "[find('input').value, find('shows').textContent, find('kind').textContent]"
    wanted = page.js("(({ text, shows }) => [text, shows, 'a schedule'])(EXAMPLES.find(({ name }) => name === 'late_try.gate'))")
    counts.equal("the menu opens an example", page.js(shows), wanted)
    counts.equal("the text before it is an entry of the history", page.js("history.length"), entries + 1)
    page.js("find('example').value = 'removal.races'; find('example').dispatchEvent(new Event('change'))")
    page.until(f"page.kind === 'race' && {ANSWERED}")
    counts.equal("an example isn't", page.js("history.length"), entries + 1)
    page.js("history.back()")
    page.until(f"page.name === undefined && {ANSWERED}")
    counts.equal("the way back leads to the text", page.js(f"[find('input').value, find('example').value]"), [RACE.replace("\\n", "\n"), ""])


def behind_comments(page, counts):
    """The first word outside comments determines the kind."""
    head = "\\n# races 1\\n \\t# blkq 1\\n\\t\\n"
    texts = {
        "race": ("  races 1\\nworld 1 1 atomic 0\\n0 live 0\\n", "races 1\n"),
        "schedule": ("\\tgate 1\\nworld 1 1 atomic 0\\n0 add try\\n", "given\n"),
        "script": ("blkq  1\\ndisk 1 hw 1\\nfreeze\\n", "7 depth 1\n"),
    }
    for kind, (text, answer) in texts.items():
        page.js(f"open('{head}{text}')")
        page.until(ANSWERED)
        counts.equal(f"a {kind} behind comments", page.js(f"[page.kind, page.answer.startsWith({answer!r})]"), [kind, True])
        counts.equal(f"the link of that {kind}", page.js("location.hash.split('=')[0]"), f"#{kind}")
        counts.equal(f"its name, {kind}", page.js("find('kind').textContent"), f"a {kind}")
    page.js(f"open('#{RACE}')")
    page.until("find('reason').textContent")
    counts.equal("a race whose first line is a comment is of no kind", page.js("find('kind').textContent"), "neither a script nor a schedule nor a race")


def marks(page, counts):
    """The mark of a refused line and its number stay at their line while the text is scrolled, and the answer beside it follows."""
    page.js("open('blkq 1\\ndisk 8 hw 8\\n' + 'stat\\n'.repeat(197) + 'statt\\n' + 'stat\\n'.repeat(200))")
    page.until("find('reason').textContent === 'line 200: unknown word'")
    for scrolled in (0, 190 * LINE + 7, 199 * LINE, 150 * LINE + 20, 198 * LINE + 1):
        page.js(f"find('input').scrollTop = {scrolled}")
        page.until(f"find('refused-line').style.top === '{8 + 199 * LINE - scrolled}px'")
        first = scrolled // LINE + 1
        numbers = page.js("find('numbers').textContent.trim().split('\\n').map(Number)")
        counts.equal(f"the numbers from {first} on", numbers, list(range(first, min(400, first + 79) + 1)))
        place = "(id) => find(id).getBoundingClientRect().top"
        at = page.js(f"(({place}) ('refused-line')) - (({place})('input'))")
        counts.equal(f"the mark behind {scrolled} points", round(at), 8 + 199 * LINE - scrolled)
        marked = "find('numbers').querySelector('.refused')"
        if first <= 200 <= first + 79:
            counts.equal(f"the marked number behind {scrolled} points", page.js(f"{marked}.textContent"), "200")
            beside = page.js(f"{marked}.getBoundingClientRect().top - find('refused-line').getBoundingClientRect().top")
            counts.check(f"it is beside the mark behind {scrolled} points", abs(beside) < 4, beside)
        else:
            counts.check(f"no number is marked behind {scrolled} points", page.js(f"!{marked}"))
    along(page, counts)
    edit = "find('input').value += 'stat\\n'; find('input').dispatchEvent(new Event('input'))"
    shows = "[find('refused-line').hidden, find('numbers').querySelector('.refused') === null, find('input').getAttribute('aria-invalid')]"
    counts.equal("an edit takes the mark away", page.js(f"{edit}; {shows}"), [True, True, "false"])


def along(page, counts):
    """The answer scrolls with the text if it is beside it, and doesn't if it is below."""
    rows = "(() => { const row = find('rows').children[199].querySelector('.refused').getBoundingClientRect(); return row.top - find('refused-line').getBoundingClientRect().top; })()"
    page.look(1400, 900, "light")
    page.js(f"find('input').scrollTop = {100 * LINE}")
    page.until(f"find('rows').scrollTop === {100 * LINE}")
    counts.check("the reason is beside its line", abs(page.js(rows)) < 4, page.js(rows))
    page.look(400, 900, "light", is_phone=True)
    page.js(f"find('rows').scrollTop = 0; find('input').scrollTop = {120 * LINE}")
    page.until(f"find('refused-line').style.top === '{8 + 79 * LINE}px'")
    counts.equal("the answer below stays", page.js("find('rows').scrollTop"), 0)
    page.look(1400, 900, "light")


def of_input(page, counts):
    for part in (typing, menu, behind_comments, marks):
        part(page, counts)
