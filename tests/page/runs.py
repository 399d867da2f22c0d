"""Tests runs of an input: stopped together with its worker, followed by another, without memory, and ended by a trap."""

from chromium import AS_LONG_AS_IT_TAKES, ENDLESS

# Each worker of the page, and whether it is ended.
WORKERS = """window.workers = [];
window.Worker = class extends Worker {
    constructor(...given) { super(...given); this.isEnded = false; workers.push(this); }
    terminate() { this.isEnded = true; super.terminate(); }
};"""
ENDED = "workers.map((it) => it.isEnded)"
STATUS = "find('status').textContent"
# A late message of an old worker.
LATE = """(() => {
    const data = { status: 0, line: 0, answer: new TextEncoder().encode('late').buffer, milliseconds: 1 };
    workers[0].dispatchEvent(new MessageEvent('message', { data }));
    workers[0].dispatchEvent(new ErrorEvent('error', { message: 'late' }));
    return new Promise((done) => setTimeout(done));
})()"""
# Within the page, so that a race that takes seconds hasn't ended if this program is slow.
STOPPED_ONCE_IT_RUNS = """new Promise((done) => {{
    void open({large});
    const look = setInterval(() => {{
        const status = find("status").textContent;
        if (parseFloat(status.replace("running: ", "")) <= 0.2) return;
        clearInterval(look);
        find("stop").click();
        done(status.split(":")[0]);
    }}, 5);
}})"""
LITTLE = 1 << 20
MANY = {
    "script": "'blkq 1\\ndisk 4096 hw 7\\n' + 'stat\\n'.repeat(200000)",
    "schedule": "'gate 1\\nworld 64 64 slots 0\\n' + '0 look 0\\n'.repeat(116000)",
    "race": "'races 1\\nworld 4 4 slots 0\\n' + [0, 1, 2, 3].map((it) => `${it} try ${it} / put ${it} 1\\n`).join('') + 'c kill\\n'",
}


def stops(page, counts, url, large):
    """Stop and an edit end the worker, and a late message of an ended worker isn't taken as the answer of the next run."""
    script = page.call("Page.addScriptToEvaluateOnNewDocument", source=WORKERS)["identifier"]
    page.open(url)
    page.until(f"{STATUS}.startsWith('answered')")
    page.js(f"{ENDLESS} void open({large})")
    page.until(f"{STATUS}.startsWith('running')")
    counts.equal("one worker is enough for one run after another", page.js(ENDED), [False])
    page.js("find('stop').click()")
    page.until(f"{STATUS}.startsWith('stopped after')")
    counts.equal("Stop ends the worker", page.js(ENDED), [True])
    page.js(f"void open({large})")
    page.until(f"{STATUS}.startsWith('running')")
    page.js(LATE)
    counts.equal("a late answer isn't taken", page.js(f"[page.isStale, page.answer, {STATUS}.split(':')[0]]"), [True, "", "running"])
    edit = "find('input').value = 'blkq 1\\ndisk 1 hw 1\\n'; find('input').dispatchEvent(new Event('input'))"
    ended = page.js(f"{AS_LONG_AS_IT_TAKES} {edit}; [{ENDED}, find('stop').disabled]")
    counts.equal("an edit ends the worker and the clock", ended, [[True, True], True])
    page.until(f"{STATUS}.startsWith('answered')")
    counts.equal("the edit is answered", page.js("page.answer"), "disk 00*512\n")
    both = f"void open({large}); void open('blkq 1\\ndisk 2 hw 1\\n')"
    page.js(f"{ENDLESS} {both}")
    counts.equal("of two runs the first one's end isn't shown", page.js(f"{STATUS}.split(':')[0]"), "running")
    page.js(f"{AS_LONG_AS_IT_TAKES} {both}")
    page.until(f"{STATUS}.startsWith('answered')")
    counts.equal("of two runs the last is answered", page.js("page.answer"), "disk 00*1024\n")
    page.call("Page.removeScriptToEvaluateOnNewDocument", identifier=script)
    page.open(url)
    page.until(f"{STATUS}.startsWith('answered')")


def one_after_another(page, counts, large):
    """A stopped race and a race that is too large, and the page after each."""
    counts.equal("a race runs for a while", page.js(STOPPED_ONCE_IT_RUNS.format(large=large)), "running")
    page.until("find('status').textContent.startsWith('stopped after')")
    counts.check("a race is stopped", page.js("find('stop').disabled"))
    page.js(f"page.most = {16 << 20}; void open({large})")
    page.until("!find('status').textContent.startsWith('running')")
    counts.check("a race too large answers memory", page.js("find('status').textContent").startswith("memory"))
    page.js("page.most = undefined; openExample('removal.races')")
    page.until("find('status').textContent.startsWith('answered')")
    counts.equal("the page goes on", page.js("page.outcomes.length"), 4)


def memory(page, counts):
    """An input of each kind that needs too much memory gets that answer, not a trap, and the page goes on."""
    for kind, text in MANY.items():
        page.js(f"page.most = {LITTLE}; void open({text})")
        page.until(f"!{STATUS}.startsWith('running')")
        wanted = "memory: this input needs more memory than the page has"
        wanted += ": a race with fewer passes, slots or calls has fewer states" if kind == "race" else ""
        counts.equal(f"a {kind} without memory", page.js(f"[{STATUS}, page.answer, page.isStale]"), [wanted, "", False])
        counts.equal(f"nothing is left of another answer beside that {kind}", page.js("find('whole').hidden && find('steps').hidden"), True)
    page.js("page.most = undefined; openExample('first.blkq')")
    page.until(f"{STATUS}.startsWith('answered')")
    counts.check("the page goes on behind them", page.js("page.answer.includes('disk')"))


def faults(page, counts):
    """A worker that fails says why, and the next run is answered. The same holds if the device has no memory for the page itself."""
    told = page.js("page.runner.run('nothing', new Uint8Array(1)).then(({ status, fault }) => [status, fault])")
    counts.equal("a trap has its own status", told[0], -1)
    counts.check("and a reason", "Error" in told[1], told)
    told = page.js("answered('blkq 1\\n', 'script', undefined, 2 ** 45).then(({ status, fault }) => [status, fault])")
    counts.equal("a device without memory", told, [-1, "RangeError: this device has no memory for the page"])
    page.js("page.runner.run = async () => ({ status: -1, line: 0, fault: 'RuntimeError: unreachable' }); runInput()")
    counts.equal("a trap is told", page.js(STATUS), "this browser gave up: RuntimeError: unreachable")
    page.js("delete page.runner.run; runInput()")
    page.until(f"{STATUS}.startsWith('answered')")
    counts.check("and the page goes on", page.js("page.answer.includes('disk')"))


def without_memory64(page, counts, url):
    """If the browser doesn't support modules with 64-bit memory, the page says so."""
    script = page.call("Page.addScriptToEvaluateOnNewDocument", source="WebAssembly.validate = () => false;")["identifier"]
    page.open(url)
    shows = "[find('no-memory64').hidden, find('run').disabled, find('no-memory64').textContent.includes('64-bit')]"
    counts.equal("a browser without 64-bit memory", page.js(shows), [False, True, True])
    page.call("Page.removeScriptToEvaluateOnNewDocument", identifier=script)
    page.open(url)
    counts.equal("and with it", page.js("[find('no-memory64').hidden, find('run').disabled]"), [True, False])


def of_runs(page, counts, url, large):
    one_after_another(page, counts, large)
    stops(page, counts, url, large)
    memory(page, counts)
    faults(page, counts)
    without_memory64(page, counts, url)
