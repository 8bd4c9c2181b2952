// A program in the page's address: `#example=NAME`, or `#text=` and the text, compressed, in the letters of base64 for addresses. Not proved.

// A longer text isn't read from an address: it is more than the language allows.
const MOST_BYTES = 2 ** 20 + 1;

async function through(stream, bytes, most = Infinity) {
  const reader = new Blob([bytes]).stream().pipeThrough(stream).getReader(), parts = [];
  for (let count = 0; ; ) {
    const { done, value } = await reader.read();
    if (done) return new Uint8Array(await new Blob(parts).arrayBuffer());
    count += value.length;
    if (count > most) throw new Error("the address has too long a text");
    parts.push(value);
  }
}

const toLetters = bytes => btoa(Array.from(bytes, byte => String.fromCharCode(byte)).join("")).replaceAll("+", "-").replaceAll("/", "_").replace(/=+$/, "");
const fromLetters = letters => Uint8Array.from(atob(letters.replaceAll("-", "+").replaceAll("_", "/")), sign => sign.charCodeAt(0));

export async function addressOf(text) {
  return `#text=${toLetters(await through(new CompressionStream("deflate-raw"), new TextEncoder().encode(text)))}`;
}

// What an address names: an example, a text, or why it has none; null where it says nothing.
export async function named(hash) {
  const words = new URLSearchParams(hash.slice(1));
  if (words.has("example")) return { example: words.get("example") };
  if (!words.has("text")) return null;
  try {
    return { text: new TextDecoder().decode(await through(new DecompressionStream("deflate-raw"), fromLetters(words.get("text")), MOST_BYTES)) };
  } catch {
    return { wrong: "The address has no whole program: part of it may be missing." };
  }
}
