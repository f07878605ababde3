// What is wrong with a script, by its lines: from what `bq advise` tells, and from the errors among the replies of `bq run`.

const ENTRY = /^line (\d+): (.*)$/;
const WORD = /^[A-Z][A-Za-z]+$/;

// Whether a line of advice tells of a line at fault, of a query that is refused, or of one that could be cheaper.
function kindOf(head) {
  if (WORD.test(head)) return "fault";
  return / is refused: /.test(head) ? "refused" : "note";
}

// Where in its line a fault is marked, counted in characters from 0. Advice shows the line without the blanks at its ends, then a sign
// below the place. null where it shows no such sign, or another line.
function columnOf(told, line) {
  if (told.length < 2 || told[0] !== line.trim() || told[1].trim() !== "^") return null;
  return line.length - line.trimStart().length + told[1].indexOf("^");
}

// The marks of a script that was advised: of each its line, kind, heading, text and column.
export function advised(advice, script) {
  const lines = script.split("\n");
  const marks = [];
  for (const line of advice.split("\n")) {
    const entry = ENTRY.exec(line);
    if (entry) marks.push({ line: Number(entry[1]), kind: kindOf(entry[2]), heading: entry[2], told: [] });
    else if (line.startsWith("  ")) marks.at(-1)?.told.push(line.slice(2));
  }
  return marks.map(({ told, ...mark }) => {
    const column = mark.kind === "fault" ? columnOf(told, lines[mark.line - 1] ?? "") : null;
    return { ...mark, column, text: (column === null ? told : told.slice(2)).join("\n") };
  });
}

// The marks of errors among replies; of such a line the reply has its word alone.
export function answered(replies) {
  const errors = replies.matchAll(/^error (\d+) ([A-Z][A-Za-z]+)$/gm);
  return Array.from(errors, ([, line, word]) => ({ line: Number(line), kind: "fault", heading: word, column: null, text: "" }));
}

// All marks in the order of their lines; where both tell of an error, what advice tells of it.
export function together(told, errors) {
  const known = new Set(told.filter((mark) => mark.kind === "fault").map((mark) => `${mark.line} ${mark.heading}`));
  const more = errors.filter((mark) => !known.has(`${mark.line} ${mark.heading}`));
  return [...told, ...more].sort((one, other) => one.line - other.line);
}

// The queries that live at the end of a session, by its replies, in order of creation.
export function liveQueries(replies) {
  const live = new Set();
  for (const [, what, name] of replies.matchAll(/^ok (query|drop) (\w+)/gm)) {
    if (what === "query") live.add(name);
    else live.delete(name);
  }
  return [...live];
}
