// An SVG that is collected from above to below, as tools/drawing/picture.py collects it: light, and dark where the reader asks for it.

export const WIDTH = 1200;
const LIGHT = {
  ground: "#ffffff", ink: "#1d2430", soft: "#687285", rule: "#c9d0da", panel: "#f5f7fa", fill: "#cfe3f7",
  edge: "#3a78b5", equal: "#1f8a55", less: "#b4552d", bar: "#3a78b5",
};
const DARK = {
  ground: "#12161c", ink: "#e6e9ee", soft: "#9aa5b5", rule: "#3b4553", panel: "#1a2029", fill: "#23425f",
  edge: "#74b0e8", equal: "#58c795", less: "#ef9b70", bar: "#74b0e8",
};

// A number with so many digits behind the point, a half to the even digit, as Python writes it.
export function fixed(number, digits = 1) {
  const shifted = Math.abs(number) * 10 ** digits;
  const isTie = Number.isInteger(number * 2 ** (digits + 1)) && shifted % 1 === 0.5;
  const size = isTie ? (2 * Math.round(shifted / 2)) / 10 ** digits : Math.abs(number);
  return (number < 0 || Object.is(number, -0) ? "-" : "") + size.toFixed(digits);
}

// A number from 1 to 999,999 with at most six digits, without zeros at its end.
export function general(number) {
  const whole = String(Math.floor(number)).length;
  return String(Number(fixed(number, 6 - whole)));
}

export function escaped(words) {
  const names = { "&": "&amp;", "<": "&lt;", ">": "&gt;", '"': "&quot;", "'": "&#x27;" };
  return words.replace(/[&<>"']/g, (sign) => names[sign]);
}

// The rules by which a reader who asks for dark colours sees them; the colours of the elements themselves are the light ones.
function style() {
  const rules = ["fill", "stroke"].flatMap((kind) =>
    Object.entries(DARK).map(([name, colour]) => `.${kind[0]}-${name} { ${kind}: ${colour} }`));
  return `@media (prefers-color-scheme: dark) {\n  ${rules.join("\n  ")} }`;
}

// The lines of a picture, and how high it is so far. Colours are names; with no palette it is light with the rules for dark.
export class Picture {
  constructor(palette = null) {
    this.colours = palette === "dark" ? DARK : LIGHT;
    this.isPlain = palette !== null;
    this.lines = [];
    this.height = 0;
  }

  // The attributes by which an element gets its colours.
  painted(fill, stroke) {
    const pairs = [["fill", fill], ["stroke", stroke]].filter(([, name]) => name);
    const said = pairs.map(([kind, name]) => `${kind}="${this.colours[name]}"`).join(" ");
    const classes = pairs.map(([kind, name]) => `${kind[0]}-${name}`).join(" ");
    return this.isPlain ? said : `${said} class="${classes}"`;
  }

  text(x, y, words, { colour = "ink", size = 13, anchor = "start", weight = "normal" } = {}) {
    this.lines.push(`<text x="${fixed(x)}" y="${fixed(y)}" ${this.painted(colour)} font-size="${general(size)}" `
      + `text-anchor="${anchor}" font-weight="${weight}">${escaped(words)}</text>`);
  }

  line(x1, y1, x2, y2, colour, width = 1.5) {
    this.lines.push(`<line x1="${fixed(x1)}" y1="${fixed(y1)}" x2="${fixed(x2)}" y2="${fixed(y2)}" `
      + `${this.painted(null, colour)} stroke-width="${width}"/>`);
  }

  box(x, y, width, height, fill, edge = null, roundBy = 6) {
    this.lines.push(`<rect x="${fixed(x)}" y="${fixed(y)}" width="${fixed(width)}" height="${fixed(height)}" rx="${roundBy}" `
      + `${this.painted(fill, edge)}/>`);
  }

  circle(x, y, radius, fill, edge, width) {
    this.lines.push(`<circle cx="${fixed(x)}" cy="${fixed(y)}" r="${radius}" ${this.painted(fill, edge)} stroke-width="${width}"/>`);
  }

  arrow(x, y) {
    this.lines.push(`<path d="M ${fixed(x)} ${fixed(y - 5)} l 9 5 l -9 5 z" ${this.painted("rule")}/>`);
  }

  curve(start, one, other, end, colour, isDashed) {
    const dashes = isDashed ? ' stroke-dasharray="5 4"' : "";
    const points = [one, other, end].map(([x, y]) => `${fixed(x)} ${fixed(y)}`).join(" ");
    this.lines.push(`<path d="M ${fixed(start[0])} ${fixed(start[1])} C ${points}" fill="none" ${this.painted(null, colour)} `
      + `stroke-width="2"${dashes}/>`);
  }

  whole(title) {
    const rules = this.isPlain ? "" : `<style>${style()}</style>\n`;
    const height = fixed(this.height, 0);
    return `<svg xmlns="http://www.w3.org/2000/svg" viewBox="0 0 ${WIDTH} ${height}" width="${WIDTH}" `
      + `height="${height}" role="img" font-family="DejaVu Sans, Verdana, sans-serif">\n`
      + `<title>${escaped(title)}</title>\n${rules}<rect width="100%" height="100%" ${this.painted("ground")}/>\n`
      + `${this.lines.join("\n")}\n</svg>\n`;
  }
}
