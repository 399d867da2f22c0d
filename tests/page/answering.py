"""Tests the page's answers: their bytes, the replies next to the lines, and the lanes drawn from them."""

import base64
import hashlib
import subprocess

import inputs
import shown
from chromium import js

ROOT = inputs.ROOT
MUTANTS = 200


def answers(page, given, room="undefined"):
    """The page's answers to these inputs, with this much room at first: the status and the text of each."""
    texts = [[it.kind, base64.b64encode(it.text).decode()] for it in given]
    found = page.js(
        f"""(async () => {{
            const found = [];
            for (const [kind, text] of {texts}) {{
                const bytes = Uint8Array.from(atob(text), (letter) => letter.charCodeAt(0));
                const {{ status, answer, fault }} = await answered(bytes, kind, undefined, {room});
                found.push([status, fault ?? btoa(Array.from(new Uint8Array(answer), (it) => String.fromCharCode(it)).join(""))]);
            }}
            return found;
        }})()"""
    )
    return [inputs.Native(status, base64.b64decode(text) if status >= 0 else text) for status, text in found]


def examples(page, counts):
    """The bytes of each example's answer are those of its answer file."""
    each = list(inputs.examples())
    for (given, wanted), found in zip(each, answers(page, [it for it, _ in each])):
        counts.equal(f"{given.name} is answered as the file beside it", found.text, wanted)
    for (given, wanted), found in zip(each, answers(page, [it for it, _ in each], 20)):
        counts.equal(f"{given.name} is answered again if it has no room", found.text, wanted)


def equal_answers(page, counts, programs):
    """The bytes of other answers, as the native programs give them."""
    others = [*inputs.rows(), *inputs.mutants(MUTANTS)]
    for given, found in zip(others, answers(page, others)):
        counts.equal(f"{given.kind} {given.name} is answered as by the program", found, programs.answer(given))


# A head, a line, and how often it is repeated: almost as many bytes as a text may have. The last answer has 94 MB.
GREATEST = {
    "many lines": ("script", "blkq 1\ndisk 4096 hw 7\n", "stat\n", 200_000),
    "many steps": ("schedule", "gate 1\nworld 64 64 slots 0\n", "0 look 0\n", 116_000),
    "many calls": ("race", "races 1\nworld 1 1 atomic 0\n", "0 zero\n", 149_000),
    "many runs": ("script", f"blkq 1\ndisk 4096 hw 7\nwrite 0 4096 {'0102' * 32}\nstat\n", "read 0 4096\n", 8),
}
SUM_OF = """(async () => {{
    const {{ status, answer }} = await answered({head} + {line}.repeat({count}), {kind!r});
    const sum = new Uint8Array(await crypto.subtle.digest("SHA-256", answer));
    return [status, Array.from(sum, (it) => it.toString(16).padStart(2, "0")).join("")];
}})()"""


def greatest(page, counts, programs):
    """Large inputs, checked by the sums of their answers."""
    for name, (kind, head, line, count) in GREATEST.items():
        found = page.js(SUM_OF.format(head=js(head), line=js(line), count=count, kind=kind))
        native = programs.answer(inputs.Input(name, kind, (head + line * count).encode()))
        counts.equal(f"{name} are answered as by the program", found, [native.status, hashlib.sha256(native.text).hexdigest()])


def beside(page, counts):
    """The page's rows have the lines with their answers, as examples/beside prints them."""
    for given, _ in inputs.examples():
        path = next((ROOT / "examples").rglob(given.name))
        done = subprocess.run([ROOT / "examples/beside", path], capture_output=True, text=True, check=False)
        page.js(f"openExample({given.name!r})")
        page.until("find('status').textContent.startsWith('answered')")
        rows = "rowsOfRace(page.answer)" if given.kind == "race" else "rowsBeside(page.kind, find('input').value, page.answer)"
        counts.equal(f"{given.name} stands beside its answer", page.js(f"printed({rows})"), done.stdout)
        if given.kind != "race":
            replies = page.js("[...find('rows').querySelectorAll('.reply')].map((it) => it.textContent)")
            wanted = page.js(f"{rows}.filter((it) => it.reply !== undefined).map((it) => it.reply)")
            counts.equal(f"{given.name} has its replies in rows", replies, wanted)


def drawings(page, counts):
    """The lanes of each schedule of the examples, also in the answers of races, are those of tools/picture, element by element."""
    for given, answer in inputs.examples():
        text, answer = given.text.decode(), answer.decode()
        schedules = {"schedule": [(text, answer)], "race": list(shown.schedules_in(answer)), "script": []}[given.kind]
        for index, (schedule, replies) in enumerate(schedules):
            found = page.js(f"lanesOf('A title', 'a name', new Schedule({js(schedule)}, {js(replies)}))")
            counts.equal(f"lanes {index} of {given.name}", found, shown.drawn("A title", "a name", schedule, replies))
