// Plays lines over the protocol: node client.js ./paw serve games/gull.img
"use strict";
const { spawn } = require("child_process");
const { createInterface } = require("readline");

const LINES = ["x boat", "open locker", "take matches", "n"];

const [program, ...words] = process.argv.slice(2);
const { stdin, stdout } = spawn(program, words, { stdio: ["pipe", "pipe", "inherit"] });
const replies = createInterface({ input: stdout })[Symbol.asyncIterator]();

async function ask(request) {
  stdin.write(JSON.stringify({ paw: 1, id: request.do, ...request }) + "\n");
  const reply = JSON.parse((await replies.next()).value);
  if (!reply.ok) throw new Error(reply.why);
  return reply;
}

async function play() {
  let { game, n, text } = await ask({ do: "begin", seed: 7 });
  process.stdout.write(text);
  for (const line of LINES) {
    ({ n, text } = await ask({ do: "take", game, n: n + 1, line }));
    process.stdout.write(`${line}\n${text}`);
  }
  stdin.end();
}

play();
