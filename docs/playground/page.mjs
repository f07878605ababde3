// The page: a script, what bq answers, what is wrong with its lines, and how its queries are kept.
import { counted, readExplained } from "./explained.mjs";
import { fragmentOf, readFragment, through } from "./link.mjs";
import { advised, answered, liveQueries, together } from "./marks.mjs";
import { drawnWhole } from "./panels.mjs";
import { Runner, Stopped } from "./runner.mjs";

const PAUSE = 250;
const MOST_SHOWN = 200_000;
const MOST_MARKS = 200;
const OUTPUT_FAILED = 5;
const MOST_PROGRAM = 64 * 1024 * 1024;

const at = (id) => document.getElementById(id);
const text = (bytes) => new TextDecoder().decode(bytes);
const bytes = (words) => new TextEncoder().encode(words);
const made = (name, className, words = "") => Object.assign(document.createElement(name), { className, textContent: words });
const characters = (count) => counted(count, "character", "characters");

// Shows the first of many characters, each line in the colour of its kind.
function showReplies(words) {
  const shown = words.slice(0, MOST_SHOWN);
  const kindOf = (line) => (/^(error|refused) /.test(line) ? "bad" : /^ok /.test(line) ? "ok" : "");
  const pieces = [];
  for (const line of shown.split("\n")) {
    const kind = kindOf(line);
    if (pieces.at(-1)?.kind === kind) pieces.at(-1).lines.push(line);
    else pieces.push({ kind, lines: [line] });
  }
  const isCut = words.length > shown.length;
  const rest = isCut ? [made("span", "bad", `\nthe first ${characters(shown.length)} of ${characters(words.length)}`)] : [];
  at("replies").replaceChildren(...pieces.map(({ kind, lines }, place) =>
    made("span", kind, lines.join("\n") + (place + 1 < pieces.length ? "\n" : ""))), ...rest);
}

// Marks lines in the script, and lists what is said of them.
function showMarks(marks) {
  const some = marks.slice(0, MOST_MARKS);
  const line = (mark) => `calc(var(--line) * ${mark.line - 1})`;
  at("moved").replaceChildren(...some.flatMap((mark) => {
    const band = made("div", `band ${mark.kind}`);
    band.style.top = line(mark);
    if (mark.column === null) return [band];
    const sign = made("div", "sign");
    sign.style.top = line(mark);
    sign.style.left = `${mark.column}ch`;
    return [band, sign];
  }));
  at("told").replaceChildren(...some.map((mark) => {
    const item = made("li", mark.kind);
    const button = made("button", "", `line ${mark.line}`);
    button.type = "button";
    button.onclick = () => goTo(mark);
    item.append(button, made("span", "heading", mark.heading));
    if (mark.text) item.append(made("pre", "", mark.text));
    return item;
  }));
  if (marks.length > some.length) at("told").append(made("li", "", `and ${marks.length - some.length} more`));
}

// Puts the cursor where a mark is, and shows it.
function goTo(mark) {
  const field = at("script");
  const before = field.value.split("\n").slice(0, mark.line - 1).join("\n").length;
  const place = before + (mark.line > 1 ? 1 : 0) + (mark.column ?? 0);
  const height = parseFloat(getComputedStyle(field).lineHeight);
  field.focus();
  field.setSelectionRange(place, place);
  field.scrollTop = Math.max(0, height * (mark.line - 4));
  follow();
}

// Keeps the numbers and the marks beside the lines.
function follow() {
  const { scrollTop, scrollLeft } = at("script");
  at("numbers").style.transform = `translateY(${-scrollTop}px)`;
  at("moved").style.transform = `translate(${-scrollLeft}px, ${-scrollTop}px)`;
}

function showNumbers() {
  const count = at("script").value.split("\n").length;
  if (at("numbers").dataset.count === String(count)) return;
  at("numbers").dataset.count = count;
  at("numbers").textContent = Array.from({ length: count }, (_, number) => number + 1).join("\n");
}

// What the page does with its controls.
class Page {
  constructor(runner, examples) {
    Object.assign(this, { runner, examples, turn: 0, marks: [], waiting: 0, notice: "" });
  }

  get script() {
    return at("script").value;
  }

  listen() {
    const groups = new Map();
    this.examples.forEach(({ group, name }, place) => {
      if (!groups.has(group)) groups.set(group, Object.assign(document.createElement("optgroup"), { label: group }));
      groups.get(group).append(new Option(name, place));
    });
    at("example").append(...groups.values());
    at("example").onchange = () => this.takeExample(this.examples[at("example").value]);
    at("script").oninput = () => this.changed();
    at("script").onscroll = follow;
    at("command").onchange = () => this.run();
    at("query").onchange = () => this.run();
    at("controls").onsubmit = (event) => {
      event.preventDefault();
      this.run();
    };
    at("stop").onclick = () => this.runner.stop();
    at("link").onclick = () => this.giveLink();
    document.onkeydown = (event) => this.pressed(event);
    window.onhashchange = () => this.takeFragment();
  }

  pressed(event) {
    if (event.key === "Enter" && (event.ctrlKey || event.metaKey)) this.run();
    else if (event.key === "Escape") this.runner.stop();
    else if (event.key === "F8") this.goOn(event.shiftKey);
    else return;
    event.preventDefault();
  }

  // Goes to the marked line behind the cursor, or before it, and round at the end.
  goOn(isBack) {
    const field = at("script");
    const here = field.value.slice(0, field.selectionStart).split("\n").length;
    const marks = isBack ? [...this.marks].reverse() : this.marks;
    const next = marks.find((mark) => (isBack ? mark.line < here : mark.line > here)) ?? marks[0];
    if (next) goTo(next);
  }

  // Takes a script and a command, and says something of where they come from.
  take(script, command, notice = "") {
    this.notice = notice;
    at("script").value = script;
    at("script").scrollTo(0, 0);
    at("command").value = command;
    if (at("command").value === "") at("command").value = "run";
    at("linked").hidden = true;
    showNumbers();
    follow();
    this.run();
  }

  takeExample(example, notice) {
    at("example").value = this.examples.indexOf(example);
    history.replaceState(null, "", `#example=${encodeURIComponent(example.name)}`);
    this.take(example.script, example.command, notice);
  }

  async takeFragment() {
    const { hash } = location;
    const said = await readFragment(hash);
    if (said?.script !== undefined) {
      at("example").value = "";
      this.take(said.script, said.command);
      return;
    }
    const named = this.examples.find(({ name }) => name === said?.example);
    this.takeExample(named ?? this.examples[0], hash.length > 1 && !named ? "the link could not be read; " : "");
  }

  async giveLink() {
    const fragment = await fragmentOf(at("command").value, this.script);
    history.replaceState(null, "", fragment);
    at("address").value = location.href;
    at("linked").hidden = false;
    at("address").select();
    const isCopied = await navigator.clipboard?.writeText(location.href).then(() => true, () => false);
    at("copied").textContent = isCopied ? "It is copied." : "";
  }

  // What was typed is no example any more, and no link leads to it.
  changed() {
    showNumbers();
    this.notice = "";
    at("example").value = "";
    history.replaceState(null, "", "#");
    clearTimeout(this.waiting);
    at("replies").classList.add("old");
    this.turn += 1;
    this.runner.stop();
    this.waiting = setTimeout(() => this.run(), PAUSE);
  }

  // Runs the command over the script, then asks for advice, then for a picture; a later call ends this one.
  async run() {
    clearTimeout(this.waiting);
    this.runner.stop();
    const turn = ++this.turn;
    const script = this.script;
    const command = at("command").value;
    const begun = performance.now();
    const seconds = () => ((performance.now() - begun) / 1000).toFixed(1);
    const clock = setInterval(() => { at("status").value = `running for ${seconds()} s`; }, 500);
    at("stop").disabled = false;
    at("replies").classList.add("old");
    try {
      const { status, output } = await this.runner.run(command.split(" "), bytes(script));
      if (turn !== this.turn) return;
      clearInterval(clock);
      const replies = text(output);
      const cut = status === OUTPUT_FAILED ? "; more replies than this page keeps" : "";
      at("status").value = `${this.notice}status ${status}, ${counted(output.length, "byte", "bytes")} in ${seconds()} s${cut}`;
      at("replies").classList.remove("old");
      showReplies(replies);
      await this.mark(script, command, replies, turn);
      await this.draw(script, command, replies, turn);
    } catch (error) {
      if (turn === this.turn) at("status").value = error instanceof Stopped ? `stopped after ${seconds()} s` : `the run failed: ${error.message}`;
    } finally {
      clearInterval(clock);
      if (turn === this.turn) at("stop").disabled = true;
    }
  }

  // Tells what is wrong with the lines, but of a text that is a certificate.
  async mark(script, command, replies, turn) {
    const advice = async () => text((await this.runner.run(["advise"], bytes(script))).output);
    const told = command === "check" ? "" : command === "advise" ? replies : await advice();
    if (turn !== this.turn) return;
    this.marks = together(advised(told, script), command === "run" ? answered(replies) : []);
    showMarks(this.marks);
  }

  // Draws the query that is chosen, or the first that lives at the end of the script.
  async draw(script, command, replies, turn) {
    const names = command === "run" ? liveQueries(replies) : [];
    const chosen = names.includes(at("query").value) ? at("query").value : names[0];
    const lines = `${script}${script.endsWith("\n") ? "" : "\n"}EXPLAIN ${chosen}\n`;
    const told = chosen ? text((await this.runner.run(["run"], bytes(lines))).output) : "";
    if (turn !== this.turn) return;
    const begin = told.lastIndexOf(`explain ${chosen}\n`);
    const explained = begin < 0 ? null : readExplained(told.slice(begin).split("\n"), chosen);
    at("kept").hidden = explained === null;
    if (explained === null) return;
    at("query").replaceChildren(...names.map((name) => new Option(name, name, false, name === chosen)));
    const address = `data:image/svg+xml;charset=utf-8,${encodeURIComponent(drawnWhole(explained))}`;
    Object.assign(at("picture"), { src: address, alt: `How the query ${chosen} is kept; the words below say the same` });
    Object.assign(at("save"), { href: address, download: `${chosen}.svg` });
    at("explain").textContent = told.slice(begin);
  }
}

const packed = Uint8Array.from(atob(at("program").textContent), (sign) => sign.charCodeAt(0));
const program = await WebAssembly.compile(await through(new DecompressionStream("gzip"), packed, MOST_PROGRAM));
const worker = URL.createObjectURL(new Blob([at("worker").textContent], { type: "text/javascript" }));
const runner = new Runner(program, worker);
at("version").textContent = text((await runner.run(["--version"], bytes(""))).output).trim();
const page = new Page(runner, JSON.parse(at("examples").textContent));
page.listen();
for (const name of ["go", "link"]) at(name).disabled = false;
await page.takeFragment();
