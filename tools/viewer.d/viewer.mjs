// The WebAssembly of docs/viewer.html outside of a browser, for tests: by node, and as it stands in that file.
//
//   node viewer.mjs VIEWER replay                     replays a file of recorded answers or cases, of standard input; ends as that replay does
//   node viewer.mjs VIEWER page [WORD VALUE].. FILE.. prints the page of a day; the words are --title, --date, --limit, --limit-ms, --from and --to, as tools/day has them
//   node viewer.mjs VIEWER steps FIRST LAST FILE..    prints these records with the device after each
//   node viewer.mjs VIEWER held TRACE                 makes the calls of a trace one by one, and holds each step's registers, ring and outputs to what they leave
//   node viewer.mjs VIEWER hostile SEED COUNT FILE..  damages files so many times, and opens, draws and steps through what comes out
//
// A FILE is handed over as a browser hands one over that is dropped: one by its name alone, a folder with all that stands right in it. What is refused is one line, and
// status 1; a trap is status 3.
import { readFileSync, readdirSync, statSync, writeSync } from "node:fs";
import { basename, join } from "node:path";
import { gunzipSync } from "node:zlib";

const [viewer, word, ...words] = process.argv.slice(2);
const html = readFileSync(viewer, "utf8");
const packed = html.match(/<script type="text\/plain" id="wasm">\n([^<]*)<\/script>/)[1];
const version = html.match(/<footer data-version="([^"]*)">/)[1];
const calls = new WebAssembly.Instance(new WebAssembly.Module(gunzipSync(Buffer.from(packed, "base64"))), {}).exports;

const memory = (at, length) => Buffer.from(calls.memory.buffer, at, length);
const told = () => memory(calls.told(), calls.told_length()).toString();
function hand(bytes) {
  const at = calls.room(bytes.length);
  memory(at, bytes.length).set(bytes);
  return at;
}
// A pipe takes a part at a time.
function print(text) {
  for (let bytes = Buffer.from(text); bytes.length > 0; ) bytes = bytes.subarray(writeSync(1, bytes));
}
function refused() {
  process.stderr.write("viewer: " + told() + "\n");
  process.exit(1);
}

// What a browser reads of a file at most.
const most = (name) => (name.endsWith("day.list") ? 8000000 : /\.(times|holes|names|txt)$/.test(name) ? 1000000 : 65537);
function take(name, path) {
  const front = Buffer.from(name);
  hand(Buffer.concat([front, readFileSync(path).subarray(0, most(name))]));
  calls.take(front.length);
}
function open(paths) {
  for (const path of paths) {
    if (!statSync(path).isDirectory()) take(basename(path), path);
    else for (const name of readdirSync(path)) if (statSync(join(path, name)).isFile()) take(basename(path) + "/" + name, join(path, name));
  }
  if (calls.open() !== 0) refused();
}

function replay() {
  const bytes = readFileSync(0), status = calls.replay(hand(bytes), bytes.length);
  print(memory(calls.replay_said(), calls.replay_said_length()).toString());
  process.exit(status);
}
function page() {
  const given = { "--title": "", "--date": "", "--limit": "", "--limit-ms": "", "--from": "", "--to": "" };
  while (words[0] in given) given[words.shift()] = words.shift();
  open(words);
  hand(Buffer.from([version, ...Object.values(given)].join("\n")));
  if (calls.draw() !== 0) refused();
  print(told());
}
function steps() {
  const [first, last] = words.splice(0, 2).map(Number);
  open(words);
  for (let number = first; number <= last && number < calls.records(); number++) {
    if (calls.step(number) !== 0) refused();
    print("record " + number + "\n" + told());
  }
}

// ---- the calls of C, one by one, in memory of their own

const WINDOW = [0n, 0x10000n], OFFSETS = { MASK: 0x20n, IRR: 0x380n, ISR: 0x3a0n, EDGE: 0x60n, POL: 0x3e0n, HTMSI_EN: 0x40n, AUTO0: 0xc0n, AUTO1: 0xe0n };
function called() {
  const page = calls.memory.grow(1) * 65536, image = [page, 290], board = [page + 1024, 256], answer = [page + 2048, 16], events = [page + 3072, 64], copy = [page + 4096, 290];
  const value = () => memory(...answer).readBigUInt64LE(8), read = (at, width) => (calls.pch_pic_read(...image, ...WINDOW, at, width, ...answer), value());
  const make = {
    0: () => calls.pch_pic_board_reset(...image, ...board, ...answer),
    1: (record) => calls.pch_pic_board_level(...image, ...board, BigInt(record[1]), 1n, ...answer),
    2: (record) => calls.pch_pic_board_level(...image, ...board, BigInt(record[1]), 0n, ...answer),
    3: (record) => calls.pch_pic_board_poll(...image, ...board, BigInt(record[1]), ...answer),
    4: (record) => calls.pch_pic_board_read(...image, ...board, ...WINDOW, BigInt(record.readUInt16LE(2)), BigInt(record[1]), ...answer),
    5: (record) => calls.pch_pic_board_write(...image, ...board, ...WINDOW, BigInt(record.readUInt16LE(2)), BigInt(record[1]), record.readBigUInt64LE(8), ...answer),
    6: () => calls.pch_pic_board_drain(...image, ...board, ...events, 0, ...answer),
  };
  make[0]();
  // What stands there after a record, as a step tells it.
  return (record) => {
    make[record[0]](record);
    const words = Object.entries(OFFSETS).map(([name, at]) => name + " " + read(at, 8n).toString(16).padStart(16, "0"));
    memory(...copy).set(memory(...image));
    calls.pch_pic_drain(...copy, ...events, 0, ...answer);
    for (let at = 0, count = Number(value()); at < 4 * count; at += 4) {
      const event = memory(...events).subarray(at, at + 4);
      words.push((event[1] ? "assert" : "deassert") + " of vector 0x" + event.toString("hex", 0, 1) + ", number " + event.readUInt16LE(2));
    }
    memory(...board).forEach((count, vector) => count > 0 && words.push("vector 0x" + vector.toString(16).padStart(2, "0") + " is on" + (count > 1 ? ", for " + count + " inputs" : "")));
    for (let input = 0n; input < 64n; input++) words.push(read(0x100n + input, 1n).toString(16).padStart(2, "0"), read(0x200n + input, 1n).toString(16).padStart(2, "0"));
    return words.join("\n");
  };
}
// The same out of a step. The guest reads ISR without the masked inputs, and a step tells it as it is stored.
function stepped(html) {
  const registers = new Map([...html.matchAll(/<th scope="row">(\w+)[^\n]*?<td class="hex">(\w+) (\w+)</g)].map((row) => [row[1], BigInt("0x" + row[2] + row[3])]));
  registers.set("ISR", registers.get("ISR") & ~registers.get("MASK"));
  const part = (name) => html.slice(html.indexOf("<h3>" + name)).split("</section>")[0], items = (name) => [...part(name).matchAll(/<li[^>]*>([^<]*)</g)].map((item) => item[1]);
  const bytes = (name) => [...part(name).matchAll(/<td[^>]*>(\w\w)</g)].map((cell) => cell[1]), routes = bytes("Routes"), vectors = bytes("Vectors");
  const words = Object.keys(OFFSETS).map((name) => name + " " + BigInt.asUintN(64, registers.get(name)).toString(16).padStart(16, "0"));
  return [...words, ...items("The ring"), ...items("The board").filter((item) => !item.endsWith(" is off")), ...routes.flatMap((route, input) => [route, vectors[input]])].join("\n");
}
function held() {
  open(words);
  const bytes = readFileSync(words[0]), after = called(), blocks = bytes.readUInt16LE(0);
  let number = 0, wrong = 0;
  for (let block = 0; block < blocks; block++) {
    const at = bytes.readUInt16LE(2 + 4 * block), count = bytes.readUInt16LE(4 + 4 * block);
    for (let record = 0; record < count; record++, number++) {
      const wanted = after(bytes.subarray(at + 16 * record, at + 16 * record + 16));
      if (calls.step(number) !== 0 || stepped(told()) !== wanted) wrong += 1;
    }
  }
  print(number + " records, " + wrong + " differ\n");
  process.exit(number > 0 && number === calls.records() && wrong === 0 ? 0 : 1);
}

// ---- damage: every fourth time none, so that pages are drawn too

function hostile() {
  let seed = Number(words.shift()), opened = 0, refused = 0;
  const count = Number(words.shift()), chance = (most) => ((seed = (Math.imul(seed, 1103515245) + 12345) >>> 0), (seed >>> 8) % most);
  const files = words.map((path) => ({ name: basename(path), bytes: readFileSync(path) }));
  for (let round = 0; round < count; round++) {
    calls.forget();
    for (const { name, bytes } of files) {
      const spared = round % 4 === 0, damaged = Buffer.from(!spared && chance(8) === 0 ? bytes.subarray(0, chance(bytes.length + 1)) : bytes);
      for (let changes = spared ? 0 : chance(4); changes > 0 && damaged.length > 0; changes--) damaged[chance(chance(3) === 0 ? damaged.length : Math.min(damaged.length, 300))] = chance(256);
      const as = Buffer.from(!spared && chance(12) === 0 ? ["day.list", "00002.trace", "x.holes", "x.times", "a/b", "", "\n.trace"][chance(7)] : name);
      if (spared || chance(10) > 0) (hand(Buffer.concat([as, damaged])), calls.take(as.length));
    }
    const good = calls.open() === 0;
    hand(Buffer.from(["", "t", "", String(chance(50)), chance(3) === 0 ? "5" : "", String(chance(2000)), String(chance(3000))].join("\n")));
    const drawn = calls.draw() === 0;
    for (const number of [0, chance(3000), calls.records() - 1, calls.records(), 4294967295]) calls.step(number >>> 0);
    if (good && drawn) opened += 1;
    else refused += 1;
    if (!good && /[\n\r]/.test(told())) throw new Error("more than one line");
  }
  print(opened + " drawn, " + refused + " refused\n");
  process.exit(opened > 0 && refused > 0 ? 0 : 1);
}

try {
  ({ replay, page, steps, held, hostile })[word]();
} catch (why) {
  process.stderr.write("viewer: " + (why.stack || why) + "\n");
  process.exit(3);
}
