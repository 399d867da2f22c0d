"""The pages, put together: a template with the style sheet and the scripts; one of them with the examples and the module, one with a race."""

import base64
import gzip
import html
import json
import os
import re

from page_parts.sums import read
from races_pictures.svg import FONT, rules

ROOT = os.path.dirname(os.path.dirname(os.path.dirname(os.path.realpath(__file__))))
SOURCES, EXAMPLES = f"{ROOT}/docs/try", f"{ROOT}/examples"
# Each uses those before it.
DRAWING = ("texts", "gate", "states", "schedule", "svg", "lanes", "legend", "stepping", "answers")
SCRIPTS = (*DRAWING, "running", "address", "page")
SCRIPTS_OF_RACE = (*DRAWING, "race")


def packed(module):
    """A module's bytes, compressed, as letters."""
    return base64.b64encode(gzip.compress(module, 9, mtime=0)).decode()


def menu():
    """The examples in the order of the menu: each one's file, its text, and what it shows."""
    lines = [it for it in read(f"{SOURCES}/examples.txt").splitlines() if it and not it.startswith("#")]
    pairs = [it.split(" ", 1) for it in lines]
    folders = {name: f"{EXAMPLES}/races" if name.endswith(".races") else EXAMPLES for name, _ in pairs}
    return [{"name": name, "shows": shows, "text": read(f"{folders[name]}/{name}")} for name, shows in pairs]


def colours():
    """The colours of the drawings, which are those of tools/picture: of a light page, and of a dark one."""
    text = f"svg text {{ font-family: {FONT}; white-space: pre }} svg polyline {{ fill: none }}"
    light, dark = (re.sub(r"^\.|(?<=\} )\.", "svg .", rules(which), flags=re.MULTILINE) for which in (0, 1))
    return f"{text}\n{light}\n@media (prefers-color-scheme: dark) {{\n{dark}\n}}"


def in_script(value):
    """A value as JSON that can stand in an element `script`."""
    return json.dumps(value).replace("<", "\\u003c")


def filled(template, scripts, parts):
    """A template with its parts in their places."""
    parts |= {
        "/*STYLE*/": f"{colours()}\n{read(f'{SOURCES}/page.css').strip()}",
        "<!--STEPS-->": read(f"{SOURCES}/steps.html").strip(),
        "/*SCRIPTS*/": "\n".join(read(f"{SOURCES}/{name}.js").strip() for name in scripts),
    }
    return re.sub("|".join(map(re.escape, parts)), lambda it: parts[it[0]], read(f"{SOURCES}/{template}"))


def assembled(module, sums):
    """The page with a packed module, which was made of sources with these sums."""
    parts = {
        "/*MADE-OF*/": json.dumps(sums, indent=0),
        "/*WORKER*/": read(f"{SOURCES}/worker.js").strip(),
        "/*EXAMPLES*/": in_script(menu()),
        "/*MODULE*/": module,
    }
    return filled("page.html", SCRIPTS, parts)


def race_page(name, text, answer):
    """The page of one race, with its answer."""
    parts = {"<!--NAME-->": html.escape(name), "/*RACE*/": in_script({"name": name, "text": text, "answer": answer})}
    return filled("race.html", SCRIPTS_OF_RACE, parts)


def module_in(page):
    """The packed module of a page, and the sums of the sources that it was made of."""
    module = re.search(r'^const MODULE = "([A-Za-z0-9+/=]*)";$', page, re.MULTILINE)[1]
    sums = re.search(r'<script type="application/json" id="made-of">(.*?)</script>', page, re.DOTALL)[1]
    return module, json.loads(sums)
