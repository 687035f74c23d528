// Bytes as texts of one character each.

/** A text's characters as bytes; each has to be below 256. */
export function latin(text) {
  const bytes = new Uint8Array(text.length);
  for (let k = 0; k < text.length; k++) bytes[k] = text.charCodeAt(k);
  return bytes;
}

/** Bytes as a text, one character for each. (A TextDecoder has no such encoding: its latin1 differs.) */
export function latinText(bytes) {
  let text = '';
  for (let at = 0; at < bytes.length; at += 0x8000) text += String.fromCharCode(...bytes.subarray(at, at + 0x8000));
  return text;
}
