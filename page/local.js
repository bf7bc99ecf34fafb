// A game that this browser plays, and keeps: the texts come from the engine, the rows go into the browser's store.
const OVER = 4, KEY = 3;  // what a session waits for, other than a line
const BEFORE = "the game before";
const KEPT = "kept in this browser";
const store = new Store();
let engine, image, session, places = [], rows = new Rows();
let kept = 0;  // how many of the rows stand in the store
let goesUnkept = false;  // the player plays though nothing is kept
const copied = "copy " + about.digest;
let isDoubted = setting(copied) !== "";  // a browser whose disk was full may lose all its store later: there is a second copy of the lines

// Bytes that stand in the page, packed, or lie beside it.
async function bytesOf(id) {
  const { from } = byId(id).dataset;
  const answer = from ? await fetch(from) : unpacked(id);
  if (!answer.ok) throw new Error(`${from} isn't there`);
  return new Uint8Array(await answer.arrayBuffer());
}

const textOf = (bytes) => new TextDecoder("latin1").decode(bytes);

// --- The game

async function begins() {
  image = await bytesOf("image");
  places = placesOf(image);
  engine = about.server ? new ServerEngine(about.server) : new ModuleEngine(await bytesOf("module"));
  await open();
  if (about.ifid) store.played(about.digest, about.ifid).catch(() => {});
}

// What a page shows of where the game stands.
function now() {
  const state = stateOf(session);
  const place = state.place === null ? "In the dark" : (places[state.place] || "").trim().split("\n")[0].trim();
  return { place, score: state.score, turns: state.turns, picture: pictureAt(state), waitsForKey: state.prompt === KEY, isOver: state.prompt === OVER };
}

const isKept = () => kept === rows.all.length;
const names = () => [...rows.names.keys()];
const asCarried = () => asText(turns);
const reach = () => {};  // all turns are here

function meaning(reply) {
  return {
    5: "The game can't answer that: its answer would be too long. It stands where it was.",
    6: "The game can't answer that: its tables call each other too deep. It stands where it was.",
    9: "This game has all the lines that it can keep.",
    254: "There is no memory for that. The game stands where it was.",
  }[reply.status] || `The game can't be played: ${reply.said || "status " + reply.status}.`;
}

const asText = (all) => carried(about.title, about.digest, rows.at.seed, all.slice(1).map((turn) => turn.line));
const played = (seed, lines) => engine.answer(["play", "game", "kept", seed], [["game", image]], lines);

// The answer to one line, and the session behind it.
async function answered(before, line, lastText) {
  const reply = await engine.answer(["resume", "game", "kept"], [["game", image], ["kept", before]], [line]);
  return { ...reply, text: textOf(reply.text).slice(lastText.length) };
}

// Plays lines one by one, up to the end of the game or a line that can't be answered.
async function playedEach(seed, lines) {
  let reply = await played(seed, []);
  if (reply.status) throw new Error(meaning(reply));
  const found = [{ line: null, text: textOf(reply.text) }];
  for (const line of lines) {
    if (stateOf(reply.left).prompt === OVER) break;
    const next = await answered(reply.left, line, found[found.length - 1].text);
    if (next.status) break;
    reply = next;
    found.push({ line, text: next.text });
    if (found.length % 500 === 0) say(`${found.length} of ${lines.length} lines are played.`);
  }
  return found;
}

// Makes session and texts anew from the rows. The lengths only part the text; where they don't fit, the lines are played one by one.
async function replay() {
  const wanted = rows.turns(), lines = wanted.slice(1).map((turn) => turn.line);
  const reply = await played(rows.at.seed, lines);
  if (reply.status) throw new Error(meaning(reply));
  session = reply.left;
  const text = textOf(reply.text);
  let at = 0;
  turns = wanted.map(({ line, length }) => ({ line, text: text.slice(at, at += length) }));
  if (at !== text.length) turns = await playedEach(rows.at.seed, lines);
}

// Adds rows, once they are kept; where they can't be, once the player says so. False where they aren't added.
async function keep(...added) {
  const all = [...rows.all, ...added];
  for (;;) {
    try {
      await store.add(about.digest, all, kept);
      kept = all.length;
      break;
    } catch (fault) {
      if (fault instanceof Behind) {
        await open();
        say("Another window has played on: this is where the game stands now. What you typed here wasn't taken.");
        return false;
      }
      isDoubted = true;
      if (goesUnkept) break;
      const why = /quota|space/i.test(fault.name + fault.message) ? "its room is full" : fault.message || fault.name;
      const answer = await ask(`This browser can't keep what you do: ${why}. If you go on, it is lost when the page is closed.`,
        ["Go on without keeping it", "Try again", "Stay where you are"]);
      if (answer === 2) return false;
      goesUnkept = answer === 0;
    }
  }
  added.forEach((row) => rows.add(row));
  if (isDoubted) setting(copied, asText(rows.turns()));
  return true;
}

// Plays a line; false where it isn't taken.
async function take(typed) {
  const line = plain(typed);
  if (isOver()) {
    say(AT_END);
    return true;
  }
  const reply = await answered(session, line, turns[turns.length - 1].text);
  if (reply.status) {
    say(meaning(reply));
    return false;
  }
  if (!await keep({ line, length: reply.text.length })) return false;
  session = reply.left;
  turns.push({ line, text: reply.text });
  asked = -1;
  say("");
  showLast();
  return true;
}

// Goes to another place of the game, by rows that say which.
async function go(told, ...added) {
  if (!await keep(...added)) return;
  await replay();
  showAll();
  say(told);
}

async function begin(seed = String(crypto.getRandomValues(new BigUint64Array(1))[0])) {
  const reply = await played(seed, []);
  if (reply.status) throw new Error(meaning(reply));
  const before = rows.at && rows.at.count ? [{ name: BEFORE }] : [];
  await go(before.length ? `A new game. The one before is kept under the name: ${BEFORE}.` : "", ...before, { seed, length: reply.text.length });
}

// A game in play from elsewhere, or of another version of the game: its lines are played here.
async function bring({ seed, lines }) {
  const found = await playedEach(seed, lines.map(plain));
  const before = rows.at && rows.at.count ? [{ name: BEFORE }] : [];
  const [first, ...others] = found;
  const row = { seed, length: first.text.length, lines: others.map((turn) => turn.line), lengths: others.map((turn) => turn.text.length) };
  const lacks = lines.length - others.length;
  await go(lacks ? `Of ${lines.length} lines the last ${lacks} couldn't be played here.` : `All ${lines.length} lines are played.`, ...before, row);
}

// Takes up the game that is kept, or begins one.
async function open() {
  let found = [];
  try {
    found = await store.rows(about.digest);
  } catch {
    /* the first row that is to be kept will tell */
  }
  rows = new Rows(found);
  kept = found.length;
  if (rows.at) {
    try {
      await replay();
      showAll();
      return;
    } catch (fault) {
      if (await ask(`What this browser has kept of the game can't be played: ${fault.message || fault}`, ["Begin anew", "Leave it"])) throw fault;
      rows.at = null;
      await begin();
      return;
    }
  }
  const copy = broughtIn(setting(copied));
  if (copy.lines && await ask(`This browser has lost what it kept of the game, but for a copy of ${copy.lines.length} lines. Do you want to go on with them?`,
    ["Go on with them", "Begin anew"]) === 0) {
    await bring(copy);
    return;
  }
  const older = await earlier();
  if (older && await ask(`You played ${older.lines.length} lines of an earlier version of this game. Do you want to play them over this one?`,
    ["Play them", "Begin anew"]) === 0) await bring(older);
  else await begin();
}

// The game in play of another version, where this browser has one.
async function earlier() {
  try {
    const others = (about.ifid ? await store.versions(about.ifid) : []).filter((digest) => digest !== about.digest);
    if (!others.length) return null;
    const older = new Rows(await store.rows(others[0]));
    return older.at && older.at.count ? { seed: older.at.seed, lines: older.turns().slice(1).map((turn) => turn.line) } : null;
  } catch {
    return null;
  }
}

async function lookAgain() {
  if (kept !== rows.all.length || await store.count(about.digest) === kept) return;
  await open();
  say("Another window has played on: this is where the game stands now.");
}

// --- What the player can do beside playing

async function undo(count) {
  const last = turns.length - 1, to = last - count;
  if (!(count >= 1) || to < 0) say(last ? `There are ${last} lines to take back.` : "There is no line to take back.");
  else await go(count === 1 ? `Taken back: ${turns[last].line}` : `${count} lines are taken back.`, { back: to });
}

async function save(name) {
  if (!name) say("/save NAME keeps this place under a name.");
  else if (!rows.names.has(name) || await ask(`There is a place named ${name}. Do you want to keep this one in its stead?`, ["Keep this one", "Leave it"]) === 0) {
    if (await keep({ name })) {
      look();
      say(`This place is kept under the name: ${name}.`);
    }
  }
}

async function load(name) {
  if (rows.names.has(name)) await go(`You are where you were at: ${name}.`, { load: name });
  else say(rows.names.size ? `There are these names: ${[...rows.names.keys()].join(", ")}.` : "No place has a name yet. /save NAME gives one.");
}

async function anew(seed) {
  if (seed && !/^\d{1,20}$/.test(seed)) say("/new, or /new and a number from which the chances of the game come.");
  else if (!rows.at.count || isOver() || await ask(`Do you want to begin anew? This game is then kept under the name: ${BEFORE}.`, ["Begin anew", "Go on with this one"]) === 0) {
    await begin(seed || undefined);
  }
}

