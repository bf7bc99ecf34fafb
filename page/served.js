// A game that a host keeps: its lines stand there, and this page asks. Each request tells where the page stands, behind which line of
// which generation. Each line has a key of its own: what is sent twice counts once, and what another window did is never taken for it.
const KEPT = "kept by this host";
const BEFORE = "the place before";
const TRIES = 6, LATEST = 40000;  // milliseconds for an answer
const BEHIND = "This game was played on elsewhere: this is where it stands now.";
const NOT_TAKEN = BEHIND + " What you typed here wasn't taken.";
const NO_LINES = "This game was begun from a session, and its first lines aren't known here. So it can't be kept as lines.";
const [, base, addressed = ""] = location.pathname.match(/^(.*\/)([a-z]{16})?$/) || ["", "/"];
let stand = null;  // where the game stands, as the host told last
let sent = null;  // the line that was sent last, and where; without an answer its key counts still

// --- Asking the host

const newKey = () => Array.from(crypto.getRandomValues(new Uint8Array(16)), (byte) => byte.toString(16).padStart(2, "0")).join("");
const here = () => ({ name: stand.name, generation: stand.generation, n: stand.n, after: stand.after });
const isSame = (one, other) => one.generation === other.generation && one.n === other.n && one.after === other.after;

// Asks until there is an answer; what is asked twice is done once.
async function post(what, fields) {
  for (let tried = 1; ; tried++) {
    let why = "There is no connection.", wait = 500 * tried;
    try {
      const answer = await fetch(base + what, {
        method: "POST", body: JSON.stringify(fields), signal: AbortSignal.timeout(LATEST),
        headers: { "Content-Type": "application/json", Accept: "application/json" } });
      if (answer.ok) return await answer.json();
      why = (await answer.json().catch(() => ({}))).why || `The host answers ${answer.status}.`;
      if (![429, 502, 503, 504].includes(answer.status)) throw new Told(why);
      wait = Math.max(wait, 1000 * Number(answer.headers.get("Retry-After") || 0));
    } catch (fault) {
      if (fault instanceof Told) throw fault;
    }
    if (tried === TRIES) throw new Told(`${why} What you typed is still there: send it again.`);
    if (tried > 1) say(why);
    await new Promise((done) => { setTimeout(done, wait); });
  }
}

// --- What a page shows

function now() {
  return { place: stand.place, score: stand.score, turns: stand.turnsMade, picture: stand.picture, waitsForKey: stand.waitsForKey, isOver: stand.over };
}

const isKept = () => true;

// Takes over what the host told; where it isn't what follows here, nothing that was shown stands any more.
function follow(answer, goesOn) {
  stand = answer;
  if (!goesOn) turns = [];
  turns.length = answer.n + 1;
  answer.turns.forEach(({ n, line, text }) => { turns[n] = { line: n ? line : null, text }; });
  remember({ address: base + answer.name, title: about.title, place: answer.place, lines: answer.n, at: Date.now() });
}

// Shows a page that was behind where the game stands.
function catchUp(answer, told) {
  const goesOn = answer.goesOn, before = turns.length;
  follow(answer, goesOn);
  if (goesOn && answer.n - before < SHOWN) {
    const all = turns;
    for (let length = before + 1; length <= all.length; length++) {
      turns = all.slice(0, length);
      showLast();
    }
  } else showAll();
  say(told);
}

async function reach(from) {
  for (;;) {
    let first = from;
    while (turns[first]) first++;
    if (first >= turns.length) return;
    const answer = await post("open", { name: stand.name, from: first });
    if (!isSame(answer, stand) || !answer.turns.length) {
      await open();
      throw new Told(BEHIND);
    }
    answer.turns.forEach(({ n, line, text }) => { turns[n] = { line: n ? line : null, text }; });
  }
}

// --- The game

async function begins() {
  window.onpopstate = () => location.reload();
  byId("start").onclick = () => next(() => goTo("begin", { seed: undefined }));
  if (!addressed) {
    showFront();
    return;
  }
  try {
    stand = { name: addressed };
    await open();
  } catch (fault) {
    showFront();
    throw fault;
  }
}

function showFront() {
  byId("begin").hidden = false;
  showYours(base);
  byId("start").focus();
}

async function open() {
  follow(await post("open", { name: stand.name }), false);
  byId("begin").hidden = true;
  byId("bar").hidden = false;
  showAll();
}

// Goes to a game of its own address that the host makes.
async function goTo(what, fields) {
  const answer = await post(what, fields);
  history.pushState(null, "", base + answer.name);
  follow(answer, false);
  byId("begin").hidden = true;
  byId("bar").hidden = false;
  showAll();
  say("");
  focus();
  return answer;
}

async function lookAgain() {
  if (isSame(await post("open", { name: stand.name, from: stand.n }), stand)) return;
  await open();
  say(BEHIND);
}

// Plays a line; false where it isn't taken.
async function take(typed) {
  const line = plain(typed);
  if (isOver()) {
    say(AT_END);
    return true;
  }
  if (line.length > about.longest) {
    say(`A line has at most ${about.longest} letters.`);
    return false;
  }
  if (!sent || sent.line !== line || !isSame(sent.from, stand)) sent = { line, key: newKey(), from: here() };
  const answer = await post("line", { ...here(), n: stand.n + 1, key: sent.key, line });
  sent = null;
  if (answer.refused) {
    say(answer.note);
    return false;
  }
  if (!answer.taken) {
    catchUp(answer, NOT_TAKEN);
    return false;
  }
  asked = -1;
  catchUp({ ...answer, goesOn: true }, "");
  return true;
}

// --- What the player can do beside playing

async function undo(count) {
  const last = turns.length - 1, to = last - count;
  if (!(count >= 1) || to < 0) {
    say(last ? `There are ${last} lines to take back.` : "There is no line to take back.");
    return;
  }
  const line = turns[last] && turns[last].line, generation = stand.generation;
  const answer = await post("undo", { ...here(), to });
  const isDone = answer.taken || answer.generation === generation + 1 && answer.n === to;  // done already, where the first answer was lost
  follow(answer, answer.taken);
  showAll();
  say(!isDone ? BEHIND + " Nothing was taken back." : count === 1 ? `Taken back: ${line}` : `${count} lines are taken back.`);
}

const placesAt = () => "places " + base + stand.name;

function placesKept() {
  try {
    return new Map(JSON.parse(setting(placesAt()) || "[]"));
  } catch {
    return new Map();
  }
}

const names = () => [...placesKept().keys()];

// The lines of the game, as it stands on this page.
async function linesHere() {
  const found = await post("lines", { name: stand.name });
  if (found.hasBase) throw new Told(NO_LINES);
  if (!isSame(found, stand)) {
    await open();
    throw new Told(BEHIND);
  }
  return found;
}

async function keepPlace(name) {
  const found = await linesHere(), all = JSON.stringify([...placesKept().set(name, { seed: found.seed, lines: found.lines })]);
  setting(placesAt(), all);
  if (setting(placesAt()) !== all) throw new Told("This browser can't keep a place now.");
}

async function save(name) {
  if (!name) say("/save NAME keeps this place under a name, in this browser.");
  else if (!names().includes(name) || await ask(`There is a place named ${name}. Do you want to keep this one in its stead?`, ["Keep this one", "Leave it"]) === 0) {
    await keepPlace(name);
    say(`This place is kept in this browser under the name: ${name}.`);
  }
}

async function load(name) {
  const place = placesKept().get(name);
  if (!place) {
    say(names().length ? `There are these names: ${names().join(", ")}.` : "No place has a name yet. /save NAME gives one.");
    return;
  }
  if (name !== BEFORE && stand.n) await keepPlace(BEFORE);
  const answer = await post("bring", { ...here(), seed: place.seed, lines: place.lines });
  follow(answer, false);
  showAll();
  say(answer.taken ? `You are where you were at: ${name}.` : NOT_TAKEN);
}

async function anew(seed) {
  if (seed && !/^\d{1,20}$/.test(seed)) say("/new, or /new and a number from which the chances of the game come.");
  else if (!stand.n || isOver() || await ask("Do you want to begin anew? This game keeps its address, and stands among yours.", ["Begin anew", "Go on with this one"]) === 0) {
    await goTo("begin", { seed: seed || undefined });
  }
}

async function bring({ seed, lines }) {
  const answer = await goTo("bring", { seed, lines });
  const lacks = lines.length - answer.brought;
  say(lacks ? `Of ${lines.length} lines the last ${lacks} couldn't be played here.` : `All ${lines.length} lines are played. This game has an address of its own.`);
}

async function asCarried() {
  const found = await linesHere();
  return carried(about.title, found.image, found.seed, found.lines);
}
