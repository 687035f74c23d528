// Which part of a statement's lines is the statement, and which is remarks: these may reveal the answer.
const BARE = /^\S*\s+(?:MAP|ENDTASK)(?=\s|$)/i, FIRST = /^\S*\s+\S+\s*/;
const LAST = 71, CONTINUED_FROM = 15;

/** The lines of a statement without remarks. */
export function withoutRemarks(lines) {
  let isOpen = true, quoted = false;
  return lines.map((line, k) => {
    const bare = k ? null : BARE.exec(line);
    if (bare || !isOpen) {
      isOpen = false;
      return bare ? bare[0] : '';
    }
    let at = k ? CONTINUED_FROM : FIRST.exec(line)?.[0].length ?? line.length;
    for (; at < Math.min(line.length, LAST) && (quoted || line[at] !== ' '); at++)
      if (line[at] === '\'') quoted = !quoted;
    isOpen = at === LAST || line[at - 1] === ',';
    return line.slice(0, at);
  });
}
