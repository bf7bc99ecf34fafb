// A game in play is its rows: what was done, in order. From them the lines follow that count now, and from the seed and these lines
// each text. A row is one of: {seed, length, lines, lengths}, a new game, with the length of its first text and, where it was brought
// from elsewhere, its lines; {line, length}, a line and the length of its answer; {back: N}, back to the first N lines; {name}, this place
// gets a name; {load: name}, on from the place of that name.

class Rows {
  constructor(rows = []) {
    this.all = [];
    this.names = new Map();
    this.at = null;
    rows.forEach((row) => this.add(row));
  }

  add(row) {
    const after = (up, line, length) => ({ up, line, length, count: up.count + 1, seed: up.seed });
    if (row.seed !== undefined) {
      this.at = { up: null, line: null, length: row.length, count: 0, seed: row.seed };
      (row.lines || []).forEach((line, at) => { this.at = after(this.at, line, row.lengths[at]); });
    } else if (!this.at) {
      // nothing can be done before a game has begun
    } else if (row.line !== undefined) {
      this.at = after(this.at, row.line, row.length);
    } else if (row.back !== undefined) {
      while (this.at.count > row.back) this.at = this.at.up;
    } else if (row.name !== undefined) {
      this.names.set(row.name, this.at);
    } else if (this.names.has(row.load)) {
      this.at = this.names.get(row.load);
    }
    this.all.push(row);
  }

  // The lines that count, each with the length of its answer; before them the beginning, without a line.
  turns() {
    const turns = [];
    for (let at = this.at; at; at = at.up) turns.push({ line: at.line, length: at.length });
    return turns.reverse();
  }
}

// The text by which a game in play is taken elsewhere, and what such a text holds. A line that was typed stands behind a >.
function carried(title, digest, seed, lines) {
  return [`Game in play: ${title}`, `Image: ${digest}`, `Seed: ${seed}`, `Lines: ${lines.length}`, ...lines.map((line) => `> ${line}`), ""].join("\n");
}

function broughtIn(text) {
  const rows = text.split(/\r?\n/).map((row) => row.trim());
  const field = (name, form) => (rows.map((row) => row.match(new RegExp(`^${name}: *(${form})$`))).find((found) => found) || [])[1];
  const digest = field("Image", "[0-9a-f]{64}"), seed = field("Seed", "\\d{1,20}"), count = field("Lines", "\\d+");
  const lines = rows.filter((row) => row.startsWith(">")).map((row) => row.slice(1).trim());
  if (!digest || !seed || !count || BigInt(seed) >> 64n) return { trouble: "This is no game in play: it begins with Image, Seed and Lines." };
  if (lines.length !== Number(count)) return { trouble: `${count} lines were to come, and ${lines.length} are here: a part of the text is missing.` };
  return { digest, seed, lines };
}

// What the bytes of a session and of an image hold, as far as a status row asks, and a picture.
function stateOf(session) {
  const number = (bytes, at) => bytes[at] + 256 * bytes[at + 1];
  const slot = session.subarray(128 + 86080 * (session[1] % 2));
  const state = slot.slice(64, 4160);
  for (let record = 69696; record < 69696 + 4 * Math.min(number(slot, 0), 4096); record += 4) {
    state[number(slot, record) % 4096] = slot[record + 2];
  }
  const hasLight = !state[0] || [state[38], 253, 254].includes(state[256]);
  return { place: hasLight ? state[38] : null, score: state[30], turns: number(state, 31), prompt: state[1047], seed: number(state, 1023), flags: state };
}

function placesOf(image) {
  let at = 5;
  const number = () => image[at++] + 256 * image[at++];
  const text = () => {
    const begin = at + 2;
    at = begin + number();
    return new TextDecoder("latin1").decode(image.subarray(begin, at));
  };
  const [words, systems, messages, things, places] = [number(), number(), number(), number(), number()];
  at += 2 + 7 * words;
  for (let many = systems + messages; many; many--) text();
  for (let many = things; many; many--) { text(); at += 4; }
  return Array.from({ length: places }, text);
}

// What stands packed in the page, as the answer to a request.
function unpacked(id) {
  if (typeof DecompressionStream === "undefined") throw new Error("this page wants a browser of 2023 or later");
  const packed = new Blob([Uint8Array.from(atob(byId(id).textContent), (char) => char.charCodeAt(0))]);
  return new Response(packed.stream().pipeThrough(new DecompressionStream("deflate")));
}
