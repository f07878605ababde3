// Runs bq, compiled to WebAssembly, as a command is run: words and input in, status and output out.

const NO_FILE = 2;
const BAD_FILE = 9;
const IS_FOLDER = 21;
const NO_ROOM = 28;

// What is kept of what a command writes. Beyond it writing fails, and the command ends as it does where a disk is full, with status 5.
const MOST_WRITTEN = 64 * 1024 * 1024;

// What a command reads and writes. Files are by name; one whose value is null is a folder.
class Host {
  constructor(words, input, files) {
    const encoder = new TextEncoder();
    this.words = ["bq", ...words].map((word) => encoder.encode(word));
    this.files = files;
    this.open = new Map([[0, { bytes: input, at: 0 }]]);
    this.written = new Map([[1, []], [2, []]]);
    this.last = 2;
    this.room = MOST_WRITTEN;
    this.memory = null;
  }

  bytes(place, count) {
    return new Uint8Array(this.memory.buffer, Number(place), Number(count));
  }

  // The functions that the module imports. Places and counts have 64 bits; below 0 stands the number of an error.
  imports() {
    return {
      open: (path, count) => {
        const name = new TextDecoder().decode(this.bytes(path, count)).replace(/^(\.\/)+/, "");
        if (!Object.hasOwn(this.files, name)) return -NO_FILE;
        this.last += 1;
        this.open.set(this.last, { bytes: this.files[name], at: 0 });
        return this.last;
      },
      close: (file) => {
        this.open.delete(file);
      },
      read: (file, to, count) => {
        const source = this.open.get(file);
        if (!source) return BigInt(-BAD_FILE);
        if (source.bytes === null) return BigInt(-IS_FOLDER);
        const taken = source.bytes.subarray(source.at, source.at + Number(count));
        this.bytes(to, taken.length).set(taken);
        source.at += taken.length;
        return BigInt(taken.length);
      },
      write: (file, from, count) => {
        const sink = this.written.get(file);
        if (!sink) return BigInt(-BAD_FILE);
        if (Number(count) > this.room) return BigInt(-NO_ROOM);
        this.room -= Number(count);
        sink.push(this.bytes(from, count).slice());
        return count;
      },
      word: (at, to, count) => {
        const word = this.words[Number(at)];
        if (!word) return -1n;
        if (word.length > Number(count)) return -2n;
        this.bytes(to, word.length).set(word);
        return BigInt(word.length);
      },
    };
  }

  all(file) {
    const parts = this.written.get(file);
    const whole = new Uint8Array(parts.reduce((sum, part) => sum + part.length, 0));
    let at = 0;
    for (const part of parts) {
      whole.set(part, at);
      at += part.length;
    }
    return whole;
  }
}

// Answers a command over an input of bytes: its status, and the bytes of its output and of its errors.
export async function answer(module, words, input, files = {}) {
  const host = new Host(words, input, files);
  const { exports } = await WebAssembly.instantiate(module, { host: host.imports() });
  host.memory = exports.memory;
  const status = exports.bq_main();
  return { status, output: host.all(1), errors: host.all(2) };
}
