// The page: shows the texts, and takes what is typed. What a game in play is, and what is kept of it, stands behind this: local.js has
// it for a game that the browser plays and keeps, served.js for one that a host keeps. Both have the same functions: begins, open, now,
// isKept, take, undo, save, load, names, anew, bring, asCarried, reach and lookAgain.
const byId = (id) => document.getElementById(id);
const [root, page, story, note, field, prompt] = [document.documentElement, ...["page", "story", "note", "line", "prompt"].map(byId)];
const about = JSON.parse(byId("about").textContent);
const SHOWN = 200;  // turns that stand on the page; the earlier ones are asked for
const LONGEST = 10000000;  // bytes of a text that is brought
const AT_END = "The game is over. You can take a line back, or begin anew.";
let turns = [];  // of each the line and the text that answers; the first has no line. Those that a host wasn't asked for are missing
class Told extends Error {}  // what isn't done, in whole sentences
let hidden = 0, asked = -1, work = Promise.resolve(), refusals = 0;

// --- Small things

function setting(name, value) {
  try {
    if (value !== undefined) localStorage.setItem("paw " + name, value);
    return localStorage.getItem("paw " + name) || "";
  } catch {
    return value || "";
  }
}

function say(text) {
  note.textContent = text;
  if (text) note.scrollIntoView({ block: "nearest" });
}

function focus() {
  field.focus({ preventScroll: true });
}

// Asks a question; gives the number of the answer. The last answer is the harmless one.
function ask(text, answers) {
  const question = byId("question");
  byId("asked").textContent = text;
  byId("answers").replaceChildren(...answers.map((answer, at) =>
    Object.assign(document.createElement("button"), { textContent: answer, value: at, autofocus: at === answers.length - 1 })));
  question.returnValue = answers.length - 1;
  question.showModal();
  return new Promise((chosen) => {
    question.onclose = () => {
      focus();
      chosen(Number(question.returnValue));
    };
  });
}

function download(text, ending) {
  const link = document.createElement("a");
  link.href = URL.createObjectURL(new Blob([text], { type: "text/plain" }));
  link.download = about.title.replace(/[^A-Za-z0-9]+/g, "-") + ending;
  link.click();
  setTimeout(() => URL.revokeObjectURL(link.href), 10000);
  focus();
}

// --- What is shown

const withoutEnd = (text) => text.replace(/\n$/, "");
const lastRow = (text) => withoutEnd(text).slice(withoutEnd(text).lastIndexOf("\n") + 1);
const isQuestion = (text) => /[A-Za-z0-9]/.test(lastRow(text));
const promptOf = (text) => (isQuestion(text) ? ">" : lastRow(text).trim() || ">");
const echo = (at) => `${turns[at - 1] ? promptOf(turns[at - 1].text) : ">"} ${turns[at].line}`;

// A text without the prompt behind it; a question stays, and is read.
function body(text) {
  return (isQuestion(text) ? text : text.slice(0, withoutEnd(text).lastIndexOf("\n") + 1)).replace(/^\n+|\n+$/g, "");
}

// A text as it is shown: its letters, and in place of its marks the pictures that the author gave.
function shown(text, isNew) {
  const parts = [], whole = text + "\n";
  let last = 0;
  for (const found of whole.matchAll(MARKS)) {
    const media = about.media[found[1]];
    parts.push(whole.slice(last, found.index));
    last = found.index + found[0].length;
    if (media && media.is === "sound") {
      if (isNew && !byId("quiet").checked) new Audio(media.data).play().catch(() => {});
    } else if (media) {
      parts.push(Object.assign(new Image(), { src: media.data, alt: media.tells, onload: isNew ? toNewest : null }));
    } else if (found[1].startsWith("PICTURE")) {
      parts.push(`[Picture ${found[1].slice(8)}]\n`);
    }
  }
  parts.push(whole.slice(last));
  while (typeof parts[parts.length - 1] === "string") {
    const ended = parts.pop().replace(/\n+$/, "");
    if (ended) return [...parts, ended];
  }
  return parts;
}

function paragraph(kind, ...parts) {
  const made = document.createElement("p");
  made.className = kind;
  made.append(...parts);
  return made;
}

// A screen reader reads what is added to the story; what was typed is left out of that.
function shownTurn(at, isNew) {
  const made = body(turns[at].text) ? [paragraph("text", ...shown(body(turns[at].text), isNew))] : [];
  if (at) {
    made.unshift(paragraph("typed", echo(at)));
    made[0].setAttribute("aria-live", "off");
  }
  return made;
}

function toNewest() {
  const last = story.lastElementChild;
  const typed = last && last.previousElementSibling;
  if (last) (typed && typed.className === "typed" && turns.length - hidden > 1 ? typed : last).scrollIntoView({ block: "start" });
}

// Shows all turns anew, the latest of them; a screen reader isn't told of them.
function showAll(most = SHOWN) {
  hidden = Math.max(0, turns.length - most);
  byId("earlier").hidden = !hidden;
  story.setAttribute("aria-live", "off");
  story.replaceChildren(...turns.slice(hidden).flatMap((_, at) => shownTurn(hidden + at, false)));
  setTimeout(() => story.setAttribute("aria-live", "polite"));
  look();
  toNewest();
}

function showLast() {
  const made = shownTurn(turns.length - 1, true);
  story.append(...made);
  for (; turns.length - hidden > 2 * SHOWN && story.firstChild; hidden++) {
    do story.firstChild.remove(); while (story.firstChild && story.firstChild.className !== "typed");
    byId("earlier").hidden = false;
  }
  look();
  toNewest();
}

// The row on top, the prompt, and what else follows from where the game stands.
function look() {
  const state = now();
  byId("place").textContent = state.place.length <= 60 ? state.place : "";
  byId("counts").textContent = (about.hasScore ? `Score ${state.score} \u00b7 ` : "") + `Turns ${state.turns}`;
  byId("unkept").hidden = isKept();
  showPicture(state.picture);
  prompt.textContent = state.waitsForKey ? "(Enter)" : promptOf(turns[turns.length - 1].text);
  root.toggleAttribute("data-over", state.isOver);
  byId("next").hidden = !state.isOver;
  root.dataset.lines = turns.length - 1;
  if (state.isOver) say(AT_END);
}

const isOver = () => now().isOver;

async function transcript() {
  await reach(0);
  const plainText = (text) => shown(text, false).filter((part) => typeof part === "string").join("");
  return turns.map((turn, at) => (at ? echo(at) + "\n\n" : "") + plainText(body(turn.text)) + "\n").join("\n");
}

// --- What the player can do beside playing

async function elsewhere() {
  byId("given").value = await asCarried();
  byId("trouble").textContent = byId("brought").value = "";
  byId("elsewhere").showModal();
}

async function brought() {
  const given = broughtIn(byId("brought").value);
  byId("trouble").textContent = given.trouble || "";
  if (given.trouble) return;
  byId("elsewhere").close();
  const isOurs = given.digest === about.digest;
  if (isOurs || await ask("That is of another game, or of another version of this one. Do you want to play its lines here?", ["Play them", "No"]) === 0) await bring(given);
}

async function tellAll() {
  download(await transcript(), ".txt");
}

function tellStatus() {
  say([byId("place").textContent, byId("counts").textContent, `${turns.length - 1} lines`, isKept() ? KEPT : "not kept"]
    .filter((part) => part).join(". ") + ".");
}

const COMMANDS = {
  "/undo": (rest) => undo(rest ? Number(rest) : 1),
  "/save": save,
  "/load": load,
  "/again": () => (turns.length > 1 ? take(turns[turns.length - 1].line) : say("There is no line yet.")),
  "/new": anew,
  "/transcript": tellAll,
  "/export": elsewhere,
  "/import": elsewhere,
  "/status": tellStatus,
  "/help": () => say(byId("help").textContent),
};

async function command(typed) {
  const [, name, rest] = typed.trim().match(/^(\S*)\s*(.*)$/);
  const does = COMMANDS[name.toLowerCase()];
  if (does) await does(rest);
  else say(`There is no ${name}: /help tells what there is.`);
  return true;
}

// --- What comes from outside

// Things are done one behind the other. Where one fails, what was typed before its failure was shown isn't done.
function next(does, isNotDone = () => {}) {
  const mine = refusals;
  work = work.then(async () => {
    try {
      if (mine === refusals && await does() !== false) return;
    } catch (fault) {
      say(fault instanceof Told ? fault.message : `That didn't work: ${fault.message || fault}. The game stands where it was.`);
    }
    if (mine === refusals) refusals++;
    isNotDone();
  });
}

function send() {
  const typed = field.value;
  field.value = "";
  next(() => (typed.trimStart().startsWith("/") ? command(typed) : take(typed)), () => { field.value = field.value || typed; });
}

function openMenu() {
  const choices = (texts) => texts.map(([text, value]) => Object.assign(document.createElement("option"), { textContent: text, value }));
  const from = Math.max(1, turns.length - 1000, turns.findIndex((turn) => turn));
  byId("turns").replaceChildren(...choices(turns.slice(from).map((_, at) => [`${from + at}  ${echo(from + at)}`, from + at - 1]).reverse()));
  byId("names").replaceChildren(...choices(names().map((name) => [name, name])));
  byId("menu").showModal();
}

function fit() {
  const seen = window.visualViewport;
  if (!seen || seen.scale > 1.01) return;
  root.style.setProperty("--height", seen.height + "px");
  document.body.style.top = seen.offsetTop + "px";
  toNewest();
}

function appear() {
  root.dataset.shade = setting("shade");
  root.style.setProperty("--size", (Number(setting("size")) || 112.5) + "%");
  byId("shade").value = setting("shade");
  byId("size").value = setting("size") || 110;
  byId("quiet").checked = setting("quiet") === "yes";
  byId("quiet-label").hidden = !Object.values(about.media).some((media) => media.is === "sound");
  appearPictures();
}

byId("form").onsubmit = (event) => {
  event.preventDefault();
  send();
};
field.onkeydown = (event) => {
  const lines = turns.map((turn) => turn && turn.line).filter((line) => line);
  const step = { ArrowUp: 1, ArrowDown: -1 }[event.key], pages = { PageUp: -0.8, PageDown: 0.8 }[event.key];
  if (event.key === "Escape") field.value = "";
  if (step && lines.length) {
    asked = Math.max(-1, Math.min(lines.length - 1, asked + step));
    field.value = asked < 0 ? "" : lines[lines.length - 1 - asked];
  }
  if (pages) page.scrollBy({ top: pages * page.clientHeight });
  if (step || pages) event.preventDefault();
};
// What is typed elsewhere goes into the field, and so does the focus behind a click that selects nothing.
document.onkeydown = (event) => {
  if (event.target === document.body && event.key.length === 1 && !event.ctrlKey && !event.metaKey && !event.altKey) focus();
};
page.onclick = () => { if (matchMedia("(hover: hover)").matches && !String(getSelection())) focus(); };
const inMenu = (does) => () => {
  byId("menu").close();
  next(does);
};
const clicks = {
  undo: () => next(() => undo(1)),
  next: () => next(() => anew("")),
  more: () => openMenu(),
  earlier: () => next(async () => {
    const below = page.scrollHeight - page.scrollTop;
    await reach(Math.max(0, hidden - SHOWN));
    showAll(turns.length - hidden + SHOWN);
    page.scrollTop = page.scrollHeight - below;
  }),
  back: inMenu(() => byId("turns").value && undo(turns.length - 1 - Number(byId("turns").value))),
  save: inMenu(() => save(byId("name").value.trim())),
  load: inMenu(() => load(byId("names").value)),
  anew: inMenu(() => anew("")),
  transcript: inMenu(tellAll),
  carry: inMenu(elsewhere),
  copy: () => { byId("given").select(); document.execCommand("copy"); },
  file: () => download(byId("given").value, ".game.txt"),
  bring: () => next(brought),
};
Object.entries(clicks).forEach(([id, does]) => { byId(id).onclick = does; });
byId("chosen").onchange = async ({ target }) => {
  const [file] = target.files;
  if (file) byId("brought").value = file.size <= LONGEST ? await file.text() : "";
};
["shade", "size"].forEach((id) => { byId(id).oninput = ({ target }) => { setting(id, target.value); appear(); }; });
byId("quiet").onchange = ({ target }) => setting("quiet", target.checked ? "yes" : "no");
byId("no-pictures").onchange = ({ target }) => choosePictures("no pictures", target.checked);
byId("fold").onclick = ({ detail }) => {
  choosePictures("folded", root.dataset.pictures === "open");
  if (detail && matchMedia("(hover: hover)").matches) focus();
};
["menu", "elsewhere"].forEach((id) => byId(id).addEventListener("close", focus));
document.addEventListener("visibilitychange", () => { if (!document.hidden && turns.length) next(lookAgain); });
if (window.visualViewport) visualViewport.onresize = visualViewport.onscroll = fit;

appear();
fit();
next(async () => {
  await unpackPictures();
  await begins();
  performance.mark("first text");
  focus();
  if (about.service && navigator.serviceWorker) navigator.serviceWorker.register(about.service).catch(() => {});
});
