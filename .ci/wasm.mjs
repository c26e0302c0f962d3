// Makes the calls that `cases` of rust/compare writes to standard input in WebAssembly modules, and compares the result and every byte of every lent buffer,
// with the bytes around it, with those of the native library; and makes them with the binding of web/ too: node .ci/wasm.mjs MODULE.. < cases
import { readFileSync } from "node:fs";
import { boundCalls, compareBinding } from "../web/tests/binding.mjs";

const MARGIN = 16; // bytes before and after a buffer that no call may touch

// a module with its memory, in which buffers are lent after its own stack and data
const load = async (path) => {
  const { instance } = await WebAssembly.instantiate(readFileSync(path), {});
  const calls = instance.exports, own = calls.memory.buffer.byteLength, wide = path.includes("64");
  return { path, calls, own, pointer: wide ? BigInt : Number, pages: wide ? [1024, 1024n] : [1024] };
};
const grow = (module) => {
  for (const pages of module.pages) try { return module.calls.memory.grow(pages); } catch { continue; } // an older engine takes a number for 64 bits too
};

const modules = [];
for (const path of process.argv.slice(2)) {
  try { modules.push(await load(path)); }
  catch (why) { if (!path.includes("64")) throw why; console.log(`${path}: this engine has no 64-bit memory, and it is not compared`); }
}
for (const module of modules) grow(module);

const asked = {};
let bytes = 0;

const same = (module, name, what, ours, native) => {
  if (Buffer.compare(ours, native) !== 0) {
    const at = ours.findIndex((byte, i) => byte !== native[i]);
    throw new Error(`${module.path}: ${name}, ${what}, byte ${at}: ${ours[at]}, native has ${native[at]}`);
  }
  bytes += ours.length;
};

// makes one call: arguments, the native result, and the native buffers after it
const ask = (module, name, args, result, after) => {
  let at = module.own + MARGIN;
  const words = [], lent = [], memory = module.calls.memory.buffer;
  const place = (held) => {
    const view = new Uint8Array(memory, at, held.length);
    view.set(held);
    words.push(module.pointer(at));
    at += (held.length + 2 * MARGIN + 15) & ~15;
    return view;
  };
  for (const [letter, value, size] of args) {
    if (letter === "n") { words.push(value); continue; }
    if (letter !== "i") new Uint8Array(memory, at - MARGIN, value.length + 2 * MARGIN).fill(165);
    const view = place(value);
    if (letter !== "i") lent.push(view);
    if (letter !== "a") words.push(BigInt(value.length / size));
  }
  const answered = BigInt.asUintN(64, BigInt(module.calls["undrwyth_" + name](...words))) & (name.endsWith("line") ? ~0n : 0xffffffffn);
  if (answered !== result) throw new Error(`${module.path}: ${name} gives ${answered}, native gives ${result}`);
  lent.forEach((view, i) => {
    same(module, name, `buffer ${i}`, Buffer.from(view.buffer, view.byteOffset, view.length), after[i]);
    for (const margin of [view.byteOffset - MARGIN, view.byteOffset + view.length])
      same(module, name, `the bytes around buffer ${i}`, Buffer.from(memory, margin, MARGIN), Buffer.alloc(MARGIN, 165));
  });
};

// what is read and not yet used; `next` gives n bytes of it, or nothing at the end
const input = process.stdin[Symbol.asyncIterator]();
let held = Buffer.alloc(0), used = 0;
const next = async (n) => {
  while (held.length - used < n) {
    const { value, done } = await input.next();
    if (done) return undefined;
    held = Buffer.concat([held.subarray(used), value]);
    used = 0;
  }
  used += n;
  return held.subarray(used - n, used);
};
const have = (n) => held.length - used >= n; // so that a promise is made only if one must wait
const take = (n) => (have(n) ? held.subarray(used, (used += n)) : next(n));
const buffer = async () => { const n = await take(4); return n && Buffer.from(await take(n.readUInt32LE())); };

for (let name; (name = await buffer()); ) {
  const args = [], after = [];
  for (;;) {
    const letter = String.fromCharCode((await take(1))[0]);
    if (letter === "r") break;
    if (letter === "n") args.push(["n", (await take(4)).readInt32LE()]);
    else if (letter === "l") { const size = (await take(1))[0]; args.push(["l", await buffer(), size]); }
    else args.push([letter, await buffer(), 1]);
  }
  const result = (await take(8)).readBigUInt64LE();
  for (const [letter] of args) if (letter === "l" || letter === "a") after.push(await buffer());
  name = name.toString();
  for (const module of modules) ask(module, name, args, result, after);
  compareBinding(name, args, result, after);
  asked[name] = (asked[name] ?? 0) + 1;
}
const calls = Object.values(asked).reduce((sum, n) => sum + n, 0);
if (calls === 0) throw new Error("no call was read");
console.log(`${modules.map((module) => module.path).join(", ")}: ${calls} calls of ${Object.keys(asked).length} functions each, ${bytes} bytes as native`);
console.log(boundCalls());
