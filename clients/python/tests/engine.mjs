// The engine of the page over a server, in Node: it reads calls as lines of JSON, [name, ..arguments], and writes what each returns, or {"error": .., "status": ..}.

import readline from "node:readline";

const [, , address, engines] = process.argv;
globalThis.document = { baseURI: `${address}page/`, hidden: false, addEventListener() {} };
const { fetch: plain } = globalThis;
// Events are those that the call `event` names.
const listeners = {};
globalThis.EventSource = class {
  addEventListener(name, act) {
    listeners[name] = act;
  }
};
// A browser sends the origin.
globalThis.fetch = (url, options = {}) => plain(url, { ...options, headers: { ...options.headers, Origin: new URL(address).origin } });
const { engine } = await import(`${engines}/engine.js`);
await import(`${engines}/engines/http.js`);

engine.changed(() => {}, () => {});
engine.event = (name, data) => listeners[name]({ data: JSON.stringify(data) });

function bytesAsText(name, value) {
  return value instanceof Uint8Array ? Buffer.from(value).toString("base64") : value;
}

for await (const line of readline.createInterface({ input: process.stdin })) {
  const [name, ...given] = JSON.parse(line);
  let found;
  try {
    found = { result: (await engine[name](...given)) ?? null };
  } catch (error) {
    found = { error: error.message, status: error.status ?? null, reply: error.reply ?? "" };
  }
  process.stdout.write(`${JSON.stringify(found, bytesAsText)}\n`);
}
process.exit();
