"""Tests how the page looks, small and large, light and dark; its contrasts, labels and keys."""

LOOKS = [(wide, scheme) for wide in (400, 1400) for scheme in ("light", "dark")]
LEAST_CONTRAST = 4.5

# The least contrast of a text with its background, and the text: transparency is taken into account, and the drawing too.
# A disabled or inert text doesn't count.
CONTRAST = """(() => {
    const CLEAR = [0, 0, 0, 0];
    const numbers = (colour) => {
        const [red, green, blue, alpha = 1] = (colour.match(/[0-9.]+/g) ?? CLEAR).map(Number);
        return [red, green, blue, alpha];
    };
    const bright = (colour) => {
        const [red, green, blue] = colour.map((it) => (it /= 255) <= 0.03928 ? it / 12.92 : ((it + 0.055) / 1.055) ** 2.4);
        return 0.2126 * red + 0.7152 * green + 0.0722 * blue;
    };
    const over = (below, [red, green, blue, alpha], opacity = 1) => {
        return [red, green, blue].map((it, at) => it * alpha * opacity + below[at] * (1 - alpha * opacity));
    };
    const style = (element) => getComputedStyle(element);
    const ground = (element) => element ? over(ground(element.parentElement), numbers(style(element).backgroundColor)) : [255, 255, 255];
    const ratio = (one, two) => {
        const [dark, light] = [bright(one), bright(two)].sort((a, b) => a - b);
        return (light + 0.05) / (dark + 0.05);
    };
    const ofText = (element) => {
        let [behind, text] = [ground(element), over(ground(element), numbers(style(element).color))];
        for (let it = element; it; it = it.parentElement) {
            const [below, opacity] = [ground(it.parentElement), Number(style(it).opacity)];
            [behind, text] = [behind, text].map((colour) => over(below, [...colour, opacity]));
        }
        return ratio(behind, text);
    };
    const ofDrawn = (element) => {
        const { x, y, width, height } = element.getBBox();
        const has = (box) => x + width / 2 > box.x && x + width / 2 < box.x + box.width && y + height / 2 > box.y && y + height / 2 < box.y + box.height;
        let [behind, text] = [ground(element.closest("svg").parentElement), undefined];
        for (const it of element.closest("svg").querySelectorAll("rect, text")) {
            const colour = numbers(style(it).fill === "none" ? "" : style(it).fill);
            const opacity = Number(style(it).opacity) * Number(style(it).fillOpacity);
            if (it === element) text = over(behind, colour, opacity);
            if (it.tagName !== "rect" || !has(it.getBBox())) continue;
            behind = over(behind, colour, opacity);
            text = text && over(text, colour, opacity);
        }
        return ratio(behind, text);
    };
    let least = [99, ""];
    for (const element of document.querySelectorAll("body *")) {
        const isDrawn = element.tagName === "text";
        const isText = [...element.childNodes].some((it) => it.nodeType === 3 && it.textContent.trim()) || element.tagName === "TEXTAREA";
        if (!isText || element.closest("script, :disabled, option, [hidden], [inert], title, desc")) continue;
        const found = isDrawn ? ofDrawn(element) : ofText(element);
        if (found < least[0]) least = [found, element.outerHTML.slice(0, 160)];
    }
    return least;
})()"""

# Controls by their roles and names, as a screen reader gets them.
NAMED = [["combobox", "Example"], ["button", "Run"], ["button", "Copy link"], ["textbox", "Input"], ["link", "FORMATS.md"]]
OF_STEPS = [["button", "First"], ["button", "Back"], ["slider", "Step"], ["region", "The schedule as lanes"]]
OF_RACE = [["region", "Answer"], ["button", "outcome 4: draw its schedule"], ["button", "Open as a schedule"], ["button", "last: draw outcome 1"]]

# The elements that the Tab key reaches, by their ids.
REACHED = ("example", "run", "copy", "input", "outcomes", "back", "step", "open", "lanes")


def looks_right(page, counts, look, url, shots):
    """One size and scheme: a refused input and an outcome's lanes."""
    wide, scheme = look
    name = f"{wide} points, {scheme}"
    page.look(wide, 900, scheme, is_phone=wide < 600)
    page.open(url)
    page.until("page.outcomes.length === 4")
    page.js("document.querySelectorAll('details').forEach((it) => (it.open = true)); choose(page.outcomes[1], 3)")
    fits_and_reads(page, counts, name, NAMED + OF_STEPS + OF_RACE, wide)
    shoot(page, shots, f"race_{wide}_{scheme}")
    page.js("openExample('late_try.gate')")
    page.until("find('status').textContent.startsWith('answered')")
    page.js("page.stepping.goTo(2)")
    fits_and_reads(page, counts, f"{name}, a schedule", NAMED + OF_STEPS, wide)
    shoot(page, shots, f"schedule_{wide}_{scheme}")
    page.js("open('blkq 1\\ndisk 16 hw 8\\n\\nwrite 6 6 61\\nset max_sektors 4\\nread 6 6\\n')")
    page.until("find('reason').textContent")
    fits_and_reads(page, counts, f"{name}, refused", NAMED + [["region", "Answer"]], wide)
    shoot(page, shots, f"refused_{wide}_{scheme}")
    if wide > 600 and scheme == "light":
        by_keys(page, counts, url)


def fits_and_reads(page, counts, name, controls, wide):
    across = page.js("document.documentElement.scrollWidth")
    counts.check(f"{name}: nothing is wider than the window", across <= wide, across)
    least = page.js(CONTRAST)
    counts.check(f"{name}: each text has a contrast of {LEAST_CONTRAST}", least[0] >= LEAST_CONTRAST, least)
    named = page.names()
    counts.equal(f"{name}: each control has a name", [role for role, said in named if not said], [])
    counts.equal(f"{name}: these controls have theirs", [it for it in controls if it not in named], [])


def by_keys(page, counts, url):
    """Reaches an outcome's lanes from the top of the page by keys alone."""
    page.open(url)
    page.until("page.outcomes.length === 4")
    page.js("document.activeElement.blur()")
    reached = []
    for _ in range(30):
        page.key("Tab")
        reached.append(page.js("document.activeElement.id || document.activeElement.textContent"))
        if reached[-1] == "2":
            break
    page.key(" ")
    counts.equal("the space bar draws an outcome", page.js("[page.outcome, find('steps').hidden]"), [2, False])
    for _ in range(30):
        page.key("Tab")
        reached.append(page.js("document.activeElement.id || document.activeElement.textContent"))
    counts.equal("the Tab key reaches the controls", [it for it in REACHED if it not in reached], [])


def shoot(page, shots, name):
    if shots:
        page.screenshot(f"{shots}/{name}.png")
