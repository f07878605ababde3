// A link that carries a script: the part behind # has the command and the script, compressed where the browser can.

const MOST_BYTES = 4 * 1024 * 1024;

function toBase64(bytes) {
  let binary = "";
  for (const byte of bytes) binary += String.fromCharCode(byte);
  return btoa(binary).replaceAll("+", "-").replaceAll("/", "_").replace(/=+$/, "");
}

function fromBase64(text) {
  const binary = atob(text.replaceAll("-", "+").replaceAll("_", "/"));
  return Uint8Array.from(binary, (sign) => sign.charCodeAt(0));
}

// Sends bytes through a stream that turns them into others, and stops where these are too many.
export async function through(stream, bytes, most = MOST_BYTES) {
  const parts = [];
  let count = 0;
  const reader = new Blob([bytes]).stream().pipeThrough(stream).getReader();
  for (let part = await reader.read(); !part.done; part = await reader.read()) {
    parts.push(part.value);
    count += part.value.length;
    if (count > most) {
      await reader.cancel();
      throw new RangeError("more bytes than may be");
    }
  }
  return new Uint8Array(await new Blob(parts).arrayBuffer());
}

// The same bytes in fewer, or null where the browser cannot.
async function packed(bytes) {
  try {
    return await through(new CompressionStream("deflate-raw"), bytes);
  } catch {
    return null;
  }
}

// The fragment for a command and a script.
export async function fragmentOf(command, script) {
  const bytes = new TextEncoder().encode(script);
  const fewer = await packed(bytes);
  const carried = fewer && fewer.length < bytes.length ? `z=${toBase64(fewer)}` : `t=${toBase64(bytes)}`;
  return `#do=${encodeURIComponent(command)}&${carried}`;
}

// What a fragment says: the command and the script, or the name of an example; null where it says none of these.
export async function readFragment(fragment) {
  const said = new URLSearchParams(fragment.replace(/^#/, ""));
  if (said.has("example")) return { example: said.get("example") };
  try {
    const isPacked = said.has("z");
    if (!isPacked && !said.has("t")) return null;
    const bytes = fromBase64(said.get(isPacked ? "z" : "t"));
    const script = isPacked ? await through(new DecompressionStream("deflate-raw"), bytes) : bytes;
    return { command: said.get("do") ?? "run", script: new TextDecoder("utf-8", { fatal: true }).decode(script) };
  } catch {
    return null;
  }
}
