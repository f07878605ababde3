// The picture of a query as tools/drawing/panels.py draws it: panels for the dearest parts, and a list of the others.
import { boxesOf, chainsOf, columnsOf, constantsOf, costOf, counted, grouped, isColumn, linksOf, saying, sizeOf, streamOf, streamsOf,
  turned } from "./explained.mjs";
import { WIDTH, Picture } from "./picture.mjs";

const MOST_PANELS = 6;
const MOST_PARTS = 40;
const LEFT = 210;
const RIGHT = 1160;
const LANE = 92;
const SHORT = 24;
const HEAD = 46;
const GAP = 22;
const SPREAD = 34;
const CHARACTER = 7.3;

// The picture of a query as SVG.
export function drawnWhole(explained, palette = null) {
  const picture = new Picture(palette);
  drawHead(picture, explained);
  const costs = new Map(explained.parts.map((part) => [part.number, costOf(explained, part)]));
  const costOfPart = (part) => costs.get(part.number);
  const ranked = [...explained.parts].sort((one, other) => costOfPart(other) - costOfPart(one) || one.number - other.number);
  const drawn = new Map();
  const folded = [];
  for (const part of ranked.slice(0, MOST_PARTS)) {
    const isFull = new Set(drawn.values()).size === MOST_PANELS;
    if (isFull || boxesOf(explained, part).every((box) => drawn.has(box.key))) folded.push(part);
    else new Panel(picture, explained, part, drawn).draw(costs);
  }
  if (folded.length) drawFolded(picture, explained, folded, costs, drawn);
  drawRest(picture, ranked.slice(MOST_PARTS), costs);
  picture.height += 24;
  return picture.whole(`How the query ${explained.name} is kept`);
}

function drawHead(picture, explained) {
  picture.text(24, 38, explained.name, { size: 20, weight: "bold" });
  let y = 60;
  for (const line of wrapped(explained.text, 150)) {
    picture.text(24, y, line, { colour: "soft", size: 13 });
    y += 18;
  }
  const { parts } = explained;
  const cells = parts.reduce((sum, part) => sum + costOf(explained, part), 0);
  const said = parts.length ? `${counted(parts.length, "part", "parts")}, ${counted(cells, "cell", "cells")}` : saying(explained);
  picture.text(24, y + 4, said, { size: 14 });
  picture.height = y + 20;
}

// Lists parts that have no panel, a line or two for each.
function drawFolded(picture, explained, parts, costs, drawn) {
  const lines = parts.flatMap((part) => {
    const [first, ...more] = wrapped(partWords(explained, part, drawn), 155);
    return [[`part ${part.number}`, counted(costs.get(part.number), "cell", "cells"), first], ...more.map((words) => ["", "", words])];
  });
  const top = picture.height + GAP;
  const height = 48 + 20 * lines.length;
  picture.box(16, top, WIDTH - 32, height, "panel", "rule", 10);
  picture.text(34, top + 29, counted(parts.length, "part more", "parts more"), { size: 16, weight: "bold" });
  lines.forEach(([number, cells, words], at) => {
    const y = top + 54 + 20 * at;
    picture.text(34, y, number, { size: 13, weight: "bold" });
    picture.text(110, y, cells, { size: 13 });
    picture.text(LEFT, y, words, { colour: "soft", size: 12 });
  });
  picture.height = top + height;
}

// What is said of a part without a panel: what it keeps of each stream, and what answers look at.
function partWords(explained, part, drawn) {
  const boxes = boxesOf(explained, part).map((box) => `${box.stream} ${boxWords(box, drawn)}`).join("; ");
  const links = linksOf(part).filter(([, , , isAsked]) => isAsked).map(([left, sign, right]) => `${left} ${sign} ${right}`).join(", ");
  return boxes + (links ? `; ${links}` : "");
}

// What is said of a box: the part where it is drawn, or its ranges and what its cells keep beside whether or how many.
function boxWords(box, drawn) {
  if (drawn.has(box.key)) return `as in part ${drawn.get(box.key)}`;
  const ranges = box.dims.map(([column, low, high]) =>
    `${column.split(".")[1]} ${grouped(low)}${high === low ? "" : ` .. ${grouped(high)}`}`);
  const extreme = /^(least|greatest)/.test(box.kind) ? [box.kind] : [];
  return [...ranges, ...extreme].join(", ") || "one cell";
}

// Says how many parts are left, and how many cells they have.
function drawRest(picture, left, costs) {
  if (!left.length) return;
  const cells = left.reduce((sum, part) => sum + costs.get(part.number), 0);
  picture.text(34, picture.height + 34, `and ${counted(left.length, "part", "parts")} more with together `
    + `${counted(cells, "cell", "cells")}, none above ${counted(costs.get(left[0].number), "cell", "cells")}`, { size: 14 });
  picture.height += 40;
}

// The words of a text in lines of at most so many characters where that can be.
function wrapped(words, most) {
  const lines = [""];
  for (const word of words.split(" ")) {
    const last = lines.at(-1);
    if (last && last.length + 1 + word.length > most) lines.push(word);
    else lines[lines.length - 1] = last ? `${last} ${word}` : word;
  }
  return lines;
}

// The size of letters at which words fit into a width, within reason.
function fitting(words, width, most = 12.5) {
  return Math.max(Math.min(most, (most * width) / (words.length * CHARACTER + 4)), 8);
}

// The panel of a part: a line for each stream, and the comparisons between them.
class Panel {
  constructor(picture, explained, part, drawn) {
    Object.assign(this, { picture, explained, part, drawn });
    this.boxes = boxesOf(explained, part);
    this.isShort = this.boxes.map((box) => drawn.has(box.key));
    // Of each column where it stands, how far below it a link begins, and how wide it is.
    this.where = new Map();
  }

  draw(costs) {
    const { picture } = this;
    const top = picture.height + GAP;
    const heights = this.isShort.map((isShort) => (isShort ? SHORT : LANE + SPREAD));
    const height = HEAD + heights.reduce((sum, step) => sum + step, 0) + (this.isShort.at(-1) ? 10 : 10 - SPREAD);
    picture.box(16, top, WIDTH - 32, height, "panel", "rule", 10);
    picture.text(34, top + 29, `part ${this.part.number}`, { size: 16, weight: "bold" });
    const cost = costs.get(this.part.number);
    const most = Math.max(...costs.values());
    picture.text(130, top + 29, counted(cost, "cell", "cells"), { size: 14 });
    if (most) picture.box(260, top + 17, Math.max((880 * cost) / most, 2), 14, "bar", null, 4);
    let y = top + HEAD;
    this.boxes.forEach((box, at) => {
      if (this.isShort[at]) this.drawShort(y, box);
      else this.drawBox(y, box);
      if (!this.drawn.has(box.key)) this.drawn.set(box.key, this.part.number);
      y += heights[at];
    });
    for (const [left, sign, right, isAsked] of linksOf(this.part)) {
      if (this.where.has(left) && this.where.has(right)) {
        const asked = sign === "=" ? "equal" : "less";
        this.drawLink(left, right, sign, isAsked ? asked : "soft");
      }
    }
    picture.height = top + height;
  }

  // Names a box that stands in an earlier panel, with the links that lead to it.
  drawShort(y, box) {
    const links = linksOf(this.part)
      .filter(([left, , right, isAsked]) => isAsked && [streamOf(left), streamOf(right)].includes(box.stream))
      .map(([left, sign, right]) => `${left} ${sign} ${right}`);
    this.picture.text(34, y + 20, box.stream, { size: 14, weight: "bold" });
    const words = [`as in part ${this.drawn.get(box.key)}`, ...links].join("; ");
    this.picture.text(LEFT, y + 20, words, { colour: "soft", size: 12 });
  }

  // Draws what is kept of a stream.
  drawBox(y, box) {
    const { explained, picture } = this;
    picture.text(34, y + 34, box.stream, { size: 14, weight: "bold" });
    if (streamsOf(explained).length === 1) {
      picture.text(34, y + 52, "no cells", { colour: "soft", size: 12 });
    } else {
      picture.text(34, y + 52, counted(sizeOf(explained, box), "cell", "cells"), { colour: "soft", size: 12 });
      wrapped(box.kind, 24).forEach((line, at) => picture.text(34, y + 68 + 14 * at, line, { colour: "soft", size: 12 }));
    }
    const chains = chainsOf(box, columnsOf(this.part, box.stream), constantsOf(explained));
    const step = (RIGHT - LEFT) / Math.max(chains.reduce((sum, chain) => sum + chain.length + 1, 0), 1);
    let begin = LEFT;
    for (const chain of chains) {
      this.drawChain(y + 48, begin, step, box, chain);
      begin += step * (chain.length + 1);
    }
  }

  // Draws elements whose order is known on a line of their own.
  drawChain(axis, begin, step, box, chain) {
    const end = begin + step * (chain.length + 1) - 24;
    if (chain.length > 1) {
      this.picture.line(begin - 10, axis, end, axis, "rule", 2);
      this.picture.arrow(end, axis);
    }
    const ranges = new Map(box.dims.map(([column, low, high]) => [column, [low, high]]));
    chain.forEach((group, at) => this.drawGroup(axis, begin + step * (at + 0.9), step, group, ranges));
  }

  // Draws elements that are equal: an integer as a mark, columns as a circle, or as a box with their range.
  drawGroup(axis, x, step, group, ranges) {
    const { picture } = this;
    const numbers = group.filter((it) => !isColumn(it));
    const columns = group.filter(isColumn);
    const ranged = ranges.get(columns.find((it) => ranges.has(it)));
    let width = 12;
    if (ranged) {
      const [low, high] = ranged.map(grouped);
      const said = low === high ? low : `${low} .. ${high}`;
      width = Math.max(Math.min(step * 0.92, Math.max(said.length * CHARACTER + 18, 44)), 24);
      picture.box(x - width / 2, axis - 11, width, 22, "fill", "edge");
      picture.text(x, axis + 4.5, said, { size: fitting(said, width), anchor: "middle" });
    } else if (numbers.length) {
      picture.line(x, axis - 7, x, axis + 7, "ink", 2);
    } else if (columns.length) {
      picture.circle(x, axis, 5, "ground", "ink", 2);
    }
    const isLabelled = numbers.length > 0 && !ranged;
    if (isLabelled) picture.text(x, axis + 26, grouped(Number(numbers[0])), { colour: "soft", size: 12, anchor: "middle" });
    if (columns.length) {
      const words = columns.map((it) => it.split(".")[1]).join(" = ");
      picture.text(x, axis - 18, words, { size: fitting(words, step, 13), anchor: "middle", weight: "bold" });
      width = Math.max(width, words.length * CHARACTER);
    }
    for (const column of columns) this.where.set(column, { x, y: axis, below: isLabelled ? 32 : 12, width });
  }

  // Draws a comparison between two columns; where it passes a stream between them it bends around what stands there.
  drawLink(left, right, sign, colour) {
    const [one, other] = [this.where.get(left), this.where.get(right)];
    const [upper, lower] = one.y <= other.y ? [one, other] : [other, one];
    const top = upper.y + upper.below;
    const bottom = lower.y - 32;
    const centre = (upper.x + lower.x) / 2;
    const passed = [...this.where.values()]
      .filter((place) => upper.y < place.y && place.y < lower.y && Math.abs(place.x - centre) < place.width)
      .map((place) => place.width);
    const bend = passed.length ? (Math.max(...passed) / 2 + 24) / 0.75 : 0;
    const middle = (top + bottom) / 2;
    const x = centre - 0.75 * bend;
    this.picture.curve([upper.x, top], [upper.x - bend, middle], [lower.x - bend, middle], [lower.x, bottom], colour, colour === "soft");
    this.picture.circle(x, middle, 10, "panel", colour, 1.5);
    const shown = one.y <= other.y ? sign : turned(sign);
    this.picture.text(x, middle + 5, shown, { colour, size: shown.length === 1 ? 14 : 11, anchor: "middle", weight: "bold" });
  }
}
