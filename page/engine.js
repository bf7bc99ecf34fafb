// What computes the texts of a game. Both engines have one method, answer(words, files, lines): the words of a command of paw, the
// files that it finds (pairs of a name and bytes) and the lines typed. It gives the status that paw ends with, what paw says of it, the
// bytes of the text shown, and the file that the third word names, or null.

function requestOf(words, files, lines) {
  const utf8 = new TextEncoder();
  const bytes = (part) => (typeof part === "string" ? utf8.encode(part) : part);
  const lists = [words.map(bytes), files.map((file) => file.map(bytes)), lines.map(bytes)];
  const parts = lists.flatMap((list) => [list.length, ...list.flat()]);
  const request = new Uint8Array(parts.reduce((sum, part) => sum + 4 + (part.length || 0), 0));
  const view = new DataView(request.buffer);
  let at = 0;
  for (const part of parts) {
    const isCount = typeof part === "number";
    view.setUint32(at, isCount ? part : part.length, true);
    if (!isCount) request.set(part, at + 4);
    at += 4 + (isCount ? 0 : part.length);
  }
  return request;
}

function replyIn(bytes) {
  const view = new DataView(bytes.buffer, bytes.byteOffset, bytes.byteLength);
  let at = 1;
  const part = () => {
    const begin = at + 4;
    at = begin + view.getUint32(at, true);
    return bytes.slice(begin, at);
  };
  const status = bytes.length ? bytes[0] : 254;
  if (status > 9) return { status, said: "", text: new Uint8Array(), left: null };
  const [said, text] = [part(), part()];
  return { status, said: new TextDecoder("latin1").decode(said), text, left: bytes[at++] ? part() : null };
}

// What the worker does: the module, a pure function of its memory, gives the bytes of a reply for those of a request.
function workerBody() {
  const whole = (number) => Number(number) >>> 0;
  let exports, number;
  onmessage = async ({ data }) => {
    try {
      if (data.module) {
        exports = (await WebAssembly.instantiate(data.module, {})).instance.exports;
        exports.page_clear();
        try { exports.page_room(1n); number = BigInt; } catch { number = Number; }
        postMessage({});
        return;
      }
      const length = data.request.length;
      exports.page_clear();
      const at = whole(exports.page_room(number(length)));
      if (!at) throw new Error("there is no memory for that");
      new Uint8Array(exports.memory.buffer).set(data.request, at);
      const reply = whole(exports.page_answer(number(at), number(length)));
      const bytes = new Uint8Array(exports.memory.buffer).slice(reply, reply + whole(exports.page_answer_length()));
      postMessage({ bytes }, [bytes.buffer]);
    } catch (fault) {
      postMessage({ fault: String(fault.message || fault) });
    }
  };
}

// The module, in a thread of its own. One that failed is made anew.
class ModuleEngine {
  constructor(module) {
    this.module = module;
    this.begun = null;
  }

  async begin() {
    const address = URL.createObjectURL(new Blob([workerBody + "\nworkerBody();"], { type: "text/javascript" }));
    this.worker = new Worker(address);
    await this.ask({ module: this.module });
    URL.revokeObjectURL(address);
  }

  ask(message) {
    return new Promise((answers, fails) => {
      this.worker.onmessage = ({ data }) => (data.fault ? fails(new Error(data.fault)) : answers(data.bytes));
      this.worker.onerror = (event) => fails(new Error(event.message || "the program can't run in this browser"));
      this.worker.postMessage(message);
    });
  }

  async answer(words, files, lines) {
    try {
      this.begun = this.begun || this.begin();
      await this.begun;
      return replyIn(await this.ask({ request: requestOf(words, files, lines) }));
    } catch (fault) {
      if (this.worker) this.worker.terminate();
      this.begun = null;
      throw fault;
    }
  }
}

// A server that answers a request in the same bytes.
class ServerEngine {
  constructor(address) {
    this.address = address;
  }

  async answer(words, files, lines) {
    const answer = await fetch(this.address, { method: "POST", body: requestOf(words, files, lines) })
      .catch(() => { throw new Error("there is no connection"); });
    if (!answer.ok) throw new Error((await answer.text()).trim());
    return replyIn(new Uint8Array(await answer.arrayBuffer()));
  }
}
