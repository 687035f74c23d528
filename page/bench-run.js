// A run of a program's module over a script; the workers of the bench share it.
import { joinedBytes, runProgram } from './module-host.js';

const PIECE = 4096; // bytes of the script that are read at once

export class TooMuch extends Error {}

/** Runs a program with arguments (bytes each, its name first) over a script; its status, output and errors. Output of
    more than `most` bytes ends the run with TooMuch. `told` is called at each read and write with the bytes read and
    printed. */
export function ranOver(program, words, script, most, told = () => {}) {
  const written = { 1: [], 2: [] };
  let at = 0, bytes = 0;
  const streams = {
    open: () => -1,
    read(stream, room) {
      const piece = script.subarray(at, at + Math.min(room.length, PIECE));
      room.set(piece);
      at += piece.length;
      told(at, bytes);
      return piece.length;
    },
    write(stream, piece) {
      bytes += piece.length;
      if (bytes > most) throw new TooMuch(`it prints more than ${most / 2 ** 20} MiB`);
      written[stream].push(piece.slice());
      told(at, bytes);
      return piece.length;
    },
  };
  const status = runProgram(program, words, streams);
  return { status, output: joinedBytes(written[1]), errors: new TextDecoder().decode(joinedBytes(written[2])) };
}

/** Why a run ended early, in words. */
export function reasonOf(fault) {
  if (fault instanceof TooMuch) return fault.message;
  if (fault instanceof RangeError) return 'this browser has no memory for it';
  return `the program ended early (${fault.message})`;
}
