// The proved library by itself, as a module that takes nothing from outside: it makes each example chart's image, byte for byte.
//     node workbench/images.mjs MODULE.wasm FOLDER
import fs from "node:fs";
import path from "node:path";

const [file, folder] = process.argv.slice(2);
const module = new WebAssembly.Module(fs.readFileSync(file));
const taken = WebAssembly.Module.imports(module);
if (taken.length) throw new Error("the module takes from outside: " + JSON.stringify(taken));
const calls = new WebAssembly.Instance(module, {}).exports;

// buffers one after the other, behind what the module has for itself
let free = calls.__heap_base.value;
function room(bytes) {
  const place = (free + 15) & ~15;
  free = place + bytes;
  const missing = free - calls.memory.buffer.byteLength;
  if (missing > 0) calls.memory.grow(Math.ceil(missing / 65536));
  return place;
}
const [longestChart, longestImage] = [5888, 29831];
const [chart, image, index, count] = [room(longestChart), room(longestImage), room(8), room(8)];

const charts = fs.readdirSync(folder).filter((name) => name.endsWith(".chart"));
const wrong = charts.filter((name) => {
  const text = fs.readFileSync(path.join(folder, name));
  new Uint8Array(calls.memory.buffer).set(text, chart);
  // of what is returned the low eight bits have a meaning, as include/fairleadow_calls.h says
  const number = calls.fairleadow_translate(chart, BigInt(text.length), image, BigInt(longestImage), index, count) & 0xff;
  const length = Number(new DataView(calls.memory.buffer).getBigUint64(count, true));
  const made = Buffer.from(calls.memory.buffer, image, length);
  return number !== 0 || !made.equals(fs.readFileSync(path.join(folder, name.replace(".chart", ".image"))));
});
if (!charts.length || wrong.length) throw new Error("other images, or none: " + wrong.join(" "));
console.log(file + ": " + fs.statSync(file).size + " bytes, takes nothing from outside; " + charts.length + " example charts give their images");
