// What this browser keeps of a game in play: rows by number, of which each number is taken once. IndexedDB has them; a row counts as
// kept once its transaction is over, and then it is on the disk.

class Behind extends Error {}
const PATIENCE = 30000;  // milliseconds for the browser's store to answer

function inTime(promise) {
  return Promise.race([promise, new Promise((_, fails) => { setTimeout(fails, PATIENCE, new Error("its store doesn't answer")); })]);
}

function done(request) {
  return new Promise((answers, fails) => {
    request.onsuccess = () => answers(request.result);
    request.onerror = () => fails(request.error);
  });
}

class Store {
  async opened() {
    if (!this.base) {
      const request = indexedDB.open("paw", 1);
      request.onupgradeneeded = () => {
        request.result.createObjectStore("rows");
        request.result.createObjectStore("games");
      };
      this.base = await inTime(done(request));
      this.base.onversionchange = this.base.onclose = () => {
        this.base.close();
        this.base = null;
      };
    }
    return this.base;
  }

  async rows(game) {
    const base = await this.opened();
    return done(base.transaction("rows").objectStore("rows").getAll(IDBKeyRange.bound([game, 0], [game, Infinity])));
  }

  async count(game) {
    const base = await this.opened();
    return done(base.transaction("rows").objectStore("rows").count(IDBKeyRange.bound([game, 0], [game, Infinity])));
  }

  // Keeps the rows from a number on, all or none. Where that number is taken, another window has played on. Where the row before it is
  // gone, all that was kept is, and all rows are kept again.
  async add(game, rows, from) {
    const base = await this.opened();
    const transaction = base.transaction("rows", "readwrite", { durability: "strict" });
    const table = transaction.objectStore("rows");
    let failed = null;
    const put = (begin) => {
      try {
        rows.slice(begin).forEach((row, at) => table.add(row, [game, begin + at]));
      } catch (fault) {
        failed = fault;
        transaction.abort();
      }
    };
    const over = new Promise((answers, fails) => {
      transaction.oncomplete = answers;
      transaction.onabort = () => fails(failed || transaction.error || new Error("the browser gave up"));
    });
    if (from === 0) put(0);
    else table.getKey([game, from - 1]).onsuccess = ({ target }) => put(target.result ? from : 0);
    try {
      await inTime(over);
    } catch (fault) {
      throw fault.name === "ConstraintError" ? new Behind() : fault;
    }
  }

  // Which games with the same IFID were played here, the latest first: those of other versions go by another digest.
  async versions(ifid) {
    const base = await this.opened();
    const all = await done(base.transaction("games").objectStore("games").getAll());
    return all.filter((game) => game.ifid === ifid).sort((one, other) => other.at - one.at).map((game) => game.digest);
  }

  async played(digest, ifid) {
    const base = await this.opened();
    base.transaction("games", "readwrite").objectStore("games").put({ digest, ifid, at: Date.now() }, digest);
  }
}
