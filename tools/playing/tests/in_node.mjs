// What the tests ask of the page's sources, in Node: one JSON text on standard input names the question, one on standard output answers.
import fs from "node:fs";
import { readExplained } from "../../../docs/playground/explained.mjs";
import { fragmentOf, readFragment } from "../../../docs/playground/link.mjs";
import { advised, answered, liveQueries, together } from "../../../docs/playground/marks.mjs";
import { drawnWhole } from "../../../docs/playground/panels.mjs";
import { fixed, general } from "../../../docs/playground/picture.mjs";

const questions = {
  async pictures({ texts, palette }) {
    return texts.map(([text, name]) => drawnWhole(readExplained(text.split("\n"), name), palette));
  },
  async numbers({ places, sizes }) {
    return [...places.map((it) => [fixed(it), fixed(it, 0)]), ...sizes.map((it) => [general(it)])];
  },
  async links({ scripts }) {
    const links = await Promise.all(scripts.map((script) => fragmentOf("lower 3", script)));
    return Promise.all(links.map(async (link) => [link, await readFragment(link)]));
  },
  // As in a browser that compresses nothing.
  async plain({ script }) {
    delete globalThis.CompressionStream;
    return fragmentOf("run", script);
  },
  async fragments({ fragments }) {
    return Promise.all(fragments.map(readFragment));
  },
  async marks({ advice, script, replies }) {
    return together(advised(advice, script), answered(replies));
  },
  async live({ replies }) {
    return liveQueries(replies);
  },
};

const { question, ...asked } = JSON.parse(fs.readFileSync(0, "utf8"));
process.stdout.write(JSON.stringify(await questions[question](asked)));
