// Runs the board's program as a module, in the place of an emulated board: its standard input and output are those of this script.
//     node workbench/board.mjs MODULE.wasm
import fs from "node:fs";

const module = new WebAssembly.Module(fs.readFileSync(process.argv[2]));
let memory = null;
const place = (at, length) => new Uint8Array(memory.buffer, at, length);

// as often as it takes; a pipe that is empty or full for now is asked again
function whole(length, some) {
  for (let done = 0; done < length; ) {
    try {
      const more = some(done);
      if (more === 0) process.exit(done === 0 ? 0 : 1);
      done += more;
    } catch (error) {
      if (error.code !== "EAGAIN") throw error;
    }
  }
}
const host = {
  read: (to, length) => whole(length, (done) => fs.readSync(0, place(to, length), done, length - done)),
  write: (from, length) => whole(length, (done) => fs.writeSync(1, place(from, length), done, length - done)),
  end: (status) => process.exit(status),
};
const calls = new WebAssembly.Instance(module, { host }).exports;
memory = calls.memory;
process.exit(calls.main());
