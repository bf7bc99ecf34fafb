// Answers requests with the module: node tools/module.js MODULE [REQUESTS REPLIES]. Both files have, for each, its length
// in 4 bytes, the low byte first, and then its bytes. A request for which there is no memory at all has an empty reply. Without
// files requests are read from standard input, and each is answered on standard output before the next one is read.
"use strict";
const fs = require("fs");

const [modulePath, requestsPath, repliesPath] = process.argv.slice(2);
const compiled = new WebAssembly.Module(fs.readFileSync(modulePath));
const imported = WebAssembly.Module.imports(compiled).length;
if (imported) throw new Error(`${imported} imports`);
const page = new WebAssembly.Instance(compiled, {}).exports;

// The numbers of the exports are signed; an address isn't.
function replyTo(request) {
  page.page_clear();
  const at = page.page_room(request.length) >>> 0;
  if (!at) return new Uint8Array(0);
  new Uint8Array(page.memory.buffer).set(request, at);
  const from = page.page_answer(at, request.length) >>> 0;
  return new Uint8Array(page.memory.buffer, from, page.page_answer_length() >>> 0).slice();
}

// The next bytes of the requests; none behind the last one.
function taken(length) {
  const bytes = Buffer.alloc(length);
  for (let at = 0, count; at < length; at += count) {
    count = fs.readSync(requests, bytes, at, length - at, null);
    if (!count) return null;
  }
  return bytes;
}

const requests = requestsPath ? fs.openSync(requestsPath) : 0;
const replies = repliesPath ? fs.openSync(repliesPath, "w") : 1;
for (let head; (head = taken(4));) {
  const reply = replyTo(taken(head.readUInt32LE(0)));
  head.writeUInt32LE(reply.length);
  const whole = Buffer.concat([head, reply]);
  for (let at = 0; at < whole.length;) at += fs.writeSync(replies, whole, at);
}
