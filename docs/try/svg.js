// Builds an SVG picture; a port of tools/races_pictures/svg.py that creates the same elements. The font is monospaced, so the width of a text
// follows from its length. Colours are named by purpose and defined in the style sheet, for a light and a dark page.

const LETTER = 0.602;

// The width of a text, in points.
function widthOf(words, size) {
  return words.length * LETTER * size;
}

// Formats a number of points with at most one decimal. Ties round to even, as in Python; among floats only .25 would differ.
function points(value) {
  return (value % 1 === 0.25 ? value - 0.05 : value).toFixed(1).replace(/\.0$/, "");
}

function escaped(words) {
  return words.replace(/&/g, "&amp;").replace(/</g, "&lt;").replace(/>/g, "&gt;");
}

// The elements of a picture, in drawing order.
class Picture {
  constructor(title, description) {
    Object.assign(this, { title, description, drawn: [] });
  }

  box(x, y, wide, high, fill, { line = "", roundBy = 0, isDashed = false } = {}) {
    const words = [`class="${fill}${line ? ` ${line}-line` : ""}"`];
    Object.entries({ x, y, width: wide, height: high }).forEach(([name, value]) => words.push(`${name}="${points(value)}"`));
    if (roundBy) words.push(`rx="${points(roundBy)}"`);
    if (isDashed) words.push('stroke-dasharray="4 3"');
    this.drawn.push(`<rect ${words.join(" ")}/>`);
  }

  line(path, kind, isDashed = false) {
    const through = path.map(([x, y]) => `${points(x)},${points(y)}`).join(" ");
    const dash = isDashed ? ' stroke-dasharray="4 3"' : "";
    this.drawn.push(`<polyline class="${kind}-line" points="${through}" stroke-width="1"${dash}/>`);
  }

  dot(x, y, kind, isHollow = false) {
    const fill = isHollow ? `ground ${kind}-line` : kind;
    this.drawn.push(`<circle class="${fill}" cx="${points(x)}" cy="${points(y)}" r="4"/>`);
  }

  // A text with its baseline at y.
  text(x, y, words, { kind = "ink", size = 13, anchor = "start", isBold = false } = {}) {
    if (!words) return;
    const more = (anchor === "start" ? "" : ` text-anchor="${anchor}"`) + (isBold ? ' font-weight="bold"' : "");
    const place = `x="${points(x)}" y="${points(y)}" font-size="${size}" textLength="${points(widthOf(words, size))}"`;
    this.drawn.push(`<text class="${kind}" ${place}${more}>${escaped(words)}</text>`);
  }

  // The whole picture.
  made(wide, high) {
    const [across, down] = [points(wide), points(high)];
    return [
      `<svg xmlns="http://www.w3.org/2000/svg" width="${across}" height="${down}" viewBox="0 0 ${across} ${down}" role="img">`,
      `<title>${escaped(this.title)}</title>`,
      `<desc>${escaped(this.description)}</desc>`,
      `<rect class="ground" width="${across}" height="${down}"/>`,
      ...this.drawn,
      "</svg>",
      "",
    ].join("\n");
  }
}
