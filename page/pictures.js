// The picture of the place where the player is. The author's rows say which one: of a game that is played here what they name is found
// in the session, and a host tells the row's number itself. A picture is an image alone, so nothing in it runs. It can be folded, or all
// pictures left out, and both is kept.

let drawings = [];  // the pictures as addresses, by the numbers that rows have for them
let pictured = null;  // the row whose picture was shown last

// A browser that can't unpack them shows none; the game is played all the same.
async function unpackPictures() {
  if (!about.pictures || typeof DecompressionStream === "undefined") return;
  const texts = await unpacked("pictures").json();
  drawings = texts.map((text) => "data:image/svg+xml," + encodeURIComponent(text));
  appearPictures();
}

// The number of the first row that fits where a game stands; -1 where none does.
function pictureAt({ place, flags }) {
  return (about.pictures || []).findIndex((row) => row.place === place && row.flags.every(([flag, least, most]) => least <= flags[flag] && flags[flag] <= most));
}

// How pictures are shown: not at all, folded or open.
function wayOfPictures() {
  if (!drawings.length || setting("no pictures") === "yes") return "none";
  return setting("folded") === "yes" ? "folded" : "open";
}

function appearPictures() {
  const way = wayOfPictures();
  root.dataset.pictures = way;
  byId("fold").setAttribute("aria-expanded", way === "open");
  byId("no-pictures").checked = way === "none";
  byId("no-pictures-label").hidden = !drawings.length;
}

// Shows the picture of a row.
function showPicture(number) {
  const row = wayOfPictures() !== "none" && about.pictures[number];
  byId("view").hidden = !row;
  if (!row || row === pictured) return;
  pictured = row;
  Object.assign(byId("picture"), { src: drawings[row.file], alt: row.tells });
}

// What the player chose, kept and shown; the newest text stays on the screen.
function choosePictures(name, isChosen) {
  setting(name, isChosen ? "yes" : "no");
  appearPictures();
  if (turns.length) {
    look();
    toNewest();
  }
}
