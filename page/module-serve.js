// Runs a module in node, once for each line of standard input, a job: arguments, script, files (each in base64), and
// whether each read gives only one byte. For each it writes a line: status, output and errors (in base64), and the
// number of bytes read of the script. Its own arguments are the module and the program's name.
import fs from 'node:fs';
import readline from 'node:readline';
import { latin, latinText } from './bytes.js';
import { runProgram } from './module-host.js';

const FOLDER = 100, FIRST_FILE = 101;
const program = new WebAssembly.Module(fs.readFileSync(process.argv[2])), programName = latin(process.argv[3]);

function done({ words, script, files, slowly }) {
  const written = { 1: [], 2: [] }, names = Object.keys(files);
  const contents = { 0: Buffer.from(script, 'base64') }, at = { 0: 0 };
  names.forEach((name, k) => Object.assign(contents, { [FIRST_FILE + k]: Buffer.from(files[name], 'base64') }));
  const streams = {
    open(path) {
      const name = latinText(path);
      return name === 'folder' ? FOLDER : names.includes(name) ? FIRST_FILE + names.indexOf(name) : -1;
    },
    read(stream, room) {
      if (stream === FOLDER) return -1;
      const from = at[stream] ?? 0, piece = contents[stream].subarray(from, from + (slowly ? 1 : room.length));
      room.set(piece);
      at[stream] = from + piece.length;
      return piece.length;
    },
    write(stream, bytes) {
      written[stream].push(Buffer.from(bytes));
      return bytes.length;
    },
  };
  const status = runProgram(program, [programName, ...words.map(it => Buffer.from(it, 'base64'))], streams);
  return { status, output: Buffer.concat(written[1]).toString('base64'),
    errors: Buffer.concat(written[2]).toString('base64'), read: at[0] };
}

for await (const line of readline.createInterface({ input: process.stdin })) {
  let told;
  try {
    told = done(JSON.parse(line));
  } catch (fault) {
    told = { fault: String(fault.message) };
  }
  process.stdout.write(`${JSON.stringify(told)}\n`);
}
