// The games that were played in this browser at a host, by their addresses: whoever has the address has the game, so this browser alone
// has this list.

const MOST_YOURS = 200;

function yours() {
  try {
    const found = JSON.parse(localStorage.getItem("paw games") || "[]");
    return Array.isArray(found) ? found.filter((game) => game && typeof game.address === "string") : [];
  } catch {
    return [];
  }
}

function keepYours(games) {
  try {
    localStorage.setItem("paw games", JSON.stringify(games.slice(0, MOST_YOURS)));
  } catch {
    // a browser that keeps nothing shows no list; the address is there all the same
  }
}

// Puts a game first in the list, as it stands.
function remember(game) {
  keepYours([game, ...yours().filter((other) => other.address !== game.address)]);
}

function lineOf(game) {
  const link = Object.assign(document.createElement("a"), { href: game.address, textContent: game.title });
  const when = new Date(game.at).toLocaleDateString();
  const told = Object.assign(document.createElement("p"), { textContent: [game.place, `${game.lines} lines`, when].filter((part) => part).join(", ") });
  const forget = Object.assign(document.createElement("button"), { type: "button", textContent: "Take it off this list" });
  forget.setAttribute("aria-label", `Take off this list: ${game.title}, ${game.lines} lines`);
  const row = document.createElement("li");
  forget.onclick = () => {
    keepYours(yours().filter((other) => other.address !== game.address));
    row.remove();
  };
  row.append(link, told, forget);
  return row;
}

// Shows the games whose addresses begin so.
function showYours(begins) {
  const found = yours().filter((game) => game.address.startsWith(begins) && /^\/[^/]/.test(game.address));
  document.getElementById("yours").replaceChildren(...found.map(lineOf));
  document.getElementById("yours-part").hidden = !found.length;
}
