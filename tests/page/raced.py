"""Tests the page of a race that tools/picture makes: its outcomes, the gate at each step of each outcome, and how it looks."""

import pathlib
import re
import subprocess
import tempfile

import shown
from looks import LOOKS, OF_STEPS, fits_and_reads, shoot
from tables import ROWS, outcomes_in

ROOT = pathlib.Path(__file__).resolve().parents[2]
RACES = ("removal", "killed_twice", "another_slot", "kill_and_switch", "freeze")
LOOKED_AT = ("another_slot", "kill_and_switch")
SHOWN = "[race.outcome, race.stepping.step, find('steps-head').textContent, location.hash]"
CONTROLS = [*OF_STEPS, ["region", "Outcomes"], ["region", "The race"], ["button", "outcome 2: draw its schedule"]]


def picture(program, *words):
    done = subprocess.run([program, *words], capture_output=True, text=True, check=False)
    return done.returncode, done.stdout, done.stderr.strip()


def as_a_file(counts, work, program):
    """The parts that a race's page has, and those that it doesn't have."""
    (work / "a.races").write_text((ROOT / "examples/races/removal.races").read_text(encoding="utf-8"), encoding="utf-8")
    right = (ROOT / "examples/races/removal.answer").read_text(encoding="utf-8")
    status, page, _ = picture(program, "race", str(ROOT / "examples/races/removal.races"))
    addresses = sorted(set(re.findall(r"https?://[^\s\"'`]*", page)))
    counts.equal("a race's page names no address but that of SVG", [status, addresses], [0, ["http://www.w3.org/2000/svg"]])
    counts.check("it loads nothing", not re.search(r"\bsrc=|@import|url\(|\bfetch\(|XMLHttpRequest", page))
    counts.check("it has fewer than 100,000 bytes", len(page.encode()) < 100_000, len(page))
    wrong = {
        "a reply that the machine doesn't give": right.replace("# refused\n", "# given\n", 1),
        "an answer without its end": right[: right.rindex("outcomes ")],
        "an outcome too few": right[: right.index("outcome 4")] + right[right.rindex("outcomes ") :],
        "the answer of a schedule": (ROOT / "examples/late_try.answer").read_text(encoding="utf-8"),
    }
    for name, answer in wrong.items():
        (work / "a.answer").write_text(answer, encoding="utf-8")
        status, page, why = picture(program, "race", str(work / "a.races"))
        counts.check(f"no page of {name}", status and not page and why.startswith("tools/picture: "), [status, why])
    (work / "a.answer").write_text(right, encoding="utf-8")
    (work / "a.races").write_text("races 1\n# </script><b>\nworld 1 1 atomic 0\n0 live 0 / put 0 1\nc kill\n", encoding="utf-8")
    status, page, _ = picture(program, "race", str(work / "a.races"))
    counts.equal("a race with an element in its text", [status, page.count("</script>"), "<b>" in page], [0, 2, False])


def steps(page, counts, name, schedules):
    """Each outcome in turn, by its button; its schedule by the keys from the start."""
    for number, (schedule, replies) in enumerate(schedules, 1):
        page.js(f"find('outcomes').querySelectorAll('tbody button')[{number - 1}].click()")
        wanted, captions = shown.gates(schedule, replies), shown.captions(schedule, replies)
        last = len(captions)
        at_end = [number, last, f"Step by step: outcome {number}", f"#outcome={number}&step={last}"]
        counts.equal(f"{name}: outcome {number} is chosen", page.js(SHOWN), at_end)
        drawn = page.js(f"lanesOf('A title', 'a name', race.stepping.schedule)")
        counts.equal(f"{name}: the lanes of outcome {number}", drawn, shown.drawn("A title", "a name", schedule, replies))
        page.key("ArrowLeft", last)
        counts.equal(f"{name}: the start of outcome {number}", page.js(shown.STATE), wanted[0])
        for step, caption in enumerate(captions, 1):
            page.key("ArrowRight")
            found = page.js(f"[{shown.STATE}, find('caption').textContent, location.hash]")
            counts.equal(f"{name}: outcome {number} after step {step}", found, [wanted[step], caption, f"#outcome={number}&step={step}"])


def whole(page, counts, name, url):
    text, answer = ((ROOT / f"examples/races/{name}.{it}").read_text(encoding="utf-8") for it in ("races", "answer"))
    page.open(url)
    counts.equal(f"{name}: the table", page.js(f"{ROWS}.map((row) => row.slice(0, -1))"), [it[:-1] for it in outcomes_in(answer)])
    counts.equal(f"{name}: its text", page.js("find('race').textContent"), text)
    counts.equal(f"{name}: it begins before the first step", page.js("[race.outcome, race.stepping.step]"), [1, 0])
    steps(page, counts, name, list(shown.schedules_in(answer)))


def addresses(page, counts, url):
    """The address selects an outcome and a step; the slider, a row and the glossary select others."""
    page.open(f"{url}#outcome=2&step=3")
    counts.equal("an address leads to its step", page.js(SHOWN), [2, 3, "Step by step: outcome 2", "#outcome=2&step=3"])
    page.js("find('step').focus()")
    page.key("ArrowRight")
    counts.equal("the slider steps", page.js("[race.outcome, race.stepping.step]"), [2, 4])
    page.js("find('outcomes').querySelectorAll('tbody tr')[2].cells[1].click()")
    counts.equal("a row chooses its outcome", page.js("[race.outcome, document.activeElement.id]"), [3, "steps-head"])
    page.js("[...find('glossary').querySelectorAll('dt')].find((it) => it.textContent === 'refused last').nextSibling.querySelector('button').click()")
    counts.equal("the glossary chooses one", page.js("race.outcome"), 2)
    page.js("location.hash = '#outcome=4&step=1'")
    page.until("race.outcome === 4")
    counts.equal("another address is followed", page.js("[race.stepping.step, find('notice').textContent]"), [1, ""])
    page.open(f"{url}#outcome=9&step=3")
    found = page.js("[race.outcome, race.stepping.step, find('notice').textContent]")
    counts.equal("an outcome that isn't there is said", found, [1, 0, "The address names an outcome that isn't there."])


def of_races(page, counts, on):
    with tempfile.TemporaryDirectory(prefix="page-race-") as folder:
        work = pathlib.Path(folder)
        as_a_file(counts, work, on.picture)
        urls = {}
        for name in RACES:
            (work / f"{name}.html").write_text(picture(on.picture, "race", str(ROOT / f"examples/races/{name}.races"))[1], encoding="utf-8")
            urls[name] = (work / f"{name}.html").as_uri()
            whole(page, counts, name, urls[name])
        addresses(page, counts, urls["removal"])
        for wide, scheme in LOOKS:
            page.look(wide, 900, scheme, is_phone=wide < 600)
            for name in LOOKED_AT:
                page.open(f"{urls[name]}#outcome=2&step=7")
                page.js("document.querySelectorAll('details').forEach((it) => (it.open = true))")
                fits_and_reads(page, counts, f"the page of {name}, {wide} points, {scheme}", CONTROLS, wide)
                shoot(page, on.shots, f"picture_{name}_{wide}_{scheme}")
    page.open(on.url)
