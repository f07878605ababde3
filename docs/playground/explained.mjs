// What EXPLAIN says of a query, its parts and what each part keeps of each stream, as tools/drawing/explained.py reads it.

const INTEGER = /^[+-]?\d+$/;
const LINKS = ["equal", "less", "most", "unlike"];

export const isColumn = (element) => !INTEGER.test(element);
export const streamOf = (column) => column.split(".")[0];
const once = (values) => [...new Set(values)];

// The query of this name that is explained, or the first one; null where there is none.
export function readExplained(lines, wanted = null) {
  for (let at = 0; at + 1 < lines.length; at++) {
    const [word, ...rest] = lines[at].split(" ");
    const name = rest.join(" ");
    if (word === "explain" && (wanted === null || wanted === name)) {
      return { name, text: lines[at + 1], parts: readParts(lines.slice(at + 2), name) };
    }
  }
  return null;
}

// The parts, up to the line that ends them; a filter has none.
function readParts(lines, name) {
  const parts = [];
  for (const line of lines) {
    if (line === `end ${name}`) break;
    const [kind, one, two, three] = line.split(" ");
    const part = parts.at(-1);
    if (kind === "part") parts.push({ number: Number(one), signs: [], links: [], dims: [], extremes: [] });
    else if (kind === "sign") part.signs.push([one, two, three]);
    else if (LINKS.includes(kind)) part.links.push([one, two, three]);
    else if (kind === "dim") part.dims.push([one, Number(two), Number(three)]);
    else if (kind === "least" || kind === "greatest") part.extremes.push([kind, one]);
  }
  return parts;
}

// The streams of FROM, in order.
export function streamsOf(explained) {
  return / FROM (.*?)( WHERE |$)/.exec(explained.text)[1].split(",").map((name) => name.trim());
}

export const isDistinct = (explained) => explained.text.startsWith("SELECT DISTINCT ");

// What is kept of each stream of FROM: its own signs, the ranges of its cells and what a cell holds. Boxes that keep the same have one key. Of
// several parts without signs EXPLAIN does not tell which rows each counts, so a box is told by its part too, and is like no other.
export function boxesOf(explained, part) {
  const number = explained.parts.length > 1 && part.signs.length === 0 ? part.number : null;
  return streamsOf(explained).map((stream) => {
    const signs = part.signs.filter(([left, , right]) => [left, right].every((it) => !isColumn(it) || streamOf(it) === stream));
    const dims = part.dims.filter(([column]) => streamOf(column) === stream);
    const box = { stream, signs, dims, kind: kindOf(explained, part, stream), part: number };
    return { ...box, key: JSON.stringify(box) };
  });
}

// What a cell of a stream holds.
function kindOf(explained, part, stream) {
  const extreme = part.extremes.find(([, column]) => streamOf(column) === stream);
  if (extreme) return extreme.join(" ");
  return isDistinct(explained) ? "whether a row came" : "how many rows came";
}

// How many cells a box has; a query over one stream keeps none.
export function sizeOf(explained, box) {
  if (streamsOf(explained).length === 1) return 0;
  return box.dims.reduce((size, [, low, high]) => size * (high - low + 1), 1);
}

export function costOf(explained, part) {
  return boxesOf(explained, part).reduce((sum, box) => sum + sizeOf(explained, box), 0);
}

const turnedSign = { "<": ">", "=": "=", ">": "<", "<=": ">=", "<>": "<>" };
export const turned = (sign) => turnedSign[sign];
const pairOf = (left, right) => `${left} ${right}`;

// The integers and columns in ascending order, as lists of groups that are equal in the part; elements whose order the part does not
// settle stand in lists of their own.
export function chainsOf(box, columns, constants) {
  const signs = new Map();
  for (const [left, sign, right] of box.signs) {
    signs.set(pairOf(left, right), sign);
    signs.set(pairOf(right, left), turned(sign));
  }
  const named = new Set(box.signs.flatMap(([left, , right]) => [left, right]));
  const elements = once([...constants, ...columns]).filter((it) => isColumn(it) || named.has(it));
  return related(elements, signs).map((them) => chainOf(them, signs));
}

// The elements in lists: those that signs lead from one to another stand in one.
function related(elements, signs) {
  let lists = [];
  for (const element of elements) {
    const isNear = (them) => them.some((other) => signs.has(pairOf(element, other)) && (isColumn(element) || isColumn(other)));
    lists = [...lists.filter((them) => !isNear(them)), [...lists.filter(isNear).flat(), element]];
  }
  const firstOf = (them) => Math.min(...them.map((it) => elements.indexOf(it)));
  return lists.sort((one, other) => firstOf(one) - firstOf(other));
}

// The elements in ascending order, as a list of groups that are equal.
function chainOf(elements, signs) {
  const stands = (one, other) => (isColumn(one) || isColumn(other)
    ? { "<": -1, "=": 0, ">": 1 }[signs.get(pairOf(one, other))]
    : Math.sign(Number(one) - Number(other)));
  const groups = [];
  for (const element of elements) {
    const at = groups.findIndex((group) => [0, -1].includes(stands(element, group[0])));
    if (at < 0) groups.push([element]);
    else if (stands(element, groups[at][0]) === 0) groups[at].push(element);
    else groups.splice(at, 0, [element]);
  }
  return groups;
}

// The columns of a stream that the query compares or that have a range, each once, as they come in the text.
export function columnsOf(part, stream) {
  const named = [
    ...part.signs.flatMap(([left, , right]) => [left, right]).filter(isColumn),
    ...part.dims.map(([column]) => column),
    ...part.extremes.map(([, column]) => column),
    ...part.links.flatMap(([left, , right]) => [left, right]),
  ];
  return once(named).filter((it) => streamOf(it) === stream);
}

// The integers that the query compares with, each once, as they are written in the text of a part.
export function constantsOf(explained) {
  const [, ...conditions] = explained.text.split(" WHERE ");
  const sides = conditions.join(" WHERE ").split(" AND ").flatMap((atom) => atom.split(/ (?:<=|>=|<>|<|=|>) /));
  const integers = sides.filter((side) => side && !isColumn(side)).map(Number);
  return once(integers).sort((one, other) => one - other).map(String);
}

// The comparisons between streams, each as left, sign, right and whether answers look at it; the others are settled by the order.
export function linksOf(part) {
  const bothWays = ([left, , right]) => [pairOf(left, right), pairOf(right, left)];
  const seen = new Set(part.links.flatMap(bothWays));
  const settled = part.signs.filter(([left, , right]) =>
    isColumn(right) && streamOf(left) !== streamOf(right) && !seen.has(pairOf(left, right)));
  return [
    ...part.links.map((link) => [...link, true]),
    ...settled.map(([left, sign, right]) => [left, sign, right, false]),
  ];
}

export const grouped = (number) => String(number).replace(/\B(?=(\d{3})+$)/g, ",");

export function counted(number, one, many) {
  return `${grouped(number)} ${number === 1 ? one : many}`;
}

// What is said of a query without parts.
export function saying(explained) {
  const isFilter = streamsOf(explained).length === 1 && !isDistinct(explained);
  return isFilter ? "a filter: each row is answered by itself, and nothing is kept" : "no part: no rows can ever answer";
}
