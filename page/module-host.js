// What a program's module needs of its host; the same in a browser's worker and in node.

/** Pieces of bytes, joined. */
export function joinedBytes(pieces) {
  const whole = new Uint8Array(pieces.reduce((sum, it) => sum + it.length, 0));
  let at = 0;
  for (const piece of pieces) {
    whole.set(piece, at);
    at += piece.length;
  }
  return whole;
}

/** Runs the program with arguments (bytes each, its name first) and its caller's streams, and returns the exit
    status. `read(stream, room)` fills the first bytes of the room and returns their number; `write(stream, bytes)`
    returns the number of bytes written; `open(path)` returns a stream. Each may return -1 for a failure. */
export function runProgram(module, words, streams) {
  let memory;
  const bytesAt = (at, count) => new Uint8Array(memory.buffer, Number(at), Number(count));
  const env = {
    read: (stream, to, most) => BigInt(streams.read(stream, bytesAt(to, most))),
    write: (stream, from, count) => BigInt(streams.write(stream, bytesAt(from, count))),
    open: (path, length) => streams.open(bytesAt(path, length)),
    arg(index, to, most) {
      const word = words[Number(index)];
      if (!word) return -1n;
      bytesAt(to, most).set(word.subarray(0, Number(most)));
      return BigInt(word.length);
    },
  };
  const { exports } = new WebAssembly.Instance(module, { env });
  memory = exports.memory;
  return exports.main(0, 0n);
}
