// Links that carry what is written: #plan= and the text deflated, or a plan as it is; #script= and a script as it is.

/** The letters of a link beyond which mail and chat programs may cut it. */
const LONG = 2000;

async function through(bytes, stream) {
  return new Uint8Array(await new Response(new Blob([bytes]).stream().pipeThrough(stream)).arrayBuffer());
}

/** The end of a link to this text: its bytes deflated (RFC 1951), in the letters of base64url. */
export async function linkOf(text) {
  const packed = await through(new TextEncoder().encode(text), new CompressionStream("deflate-raw"));
  const letters = btoa(Array.from(packed, (byte) => String.fromCharCode(byte)).join(""));
  return "#plan=" + letters.replaceAll("+", "-").replaceAll("/", "_").replaceAll("=", "");
}

/** The text of a link's end; null where it carries none. A plan as it is begins with a bracket. */
export async function carriedBy(hash) {
  const [, kind, carried] = hash.match(/^#(plan|script)=(.+)$/) ?? [];
  if (carried === undefined) return null;
  if (kind === "script" || /^\s*[{[]/.test(decodeURIComponent(carried))) return decodeURIComponent(carried);
  const letters = atob(carried.replaceAll("-", "+").replaceAll("_", "/"));
  const packed = Uint8Array.from(letters, (letter) => letter.charCodeAt(0));
  return new TextDecoder().decode(await through(packed, new DecompressionStream("deflate-raw")));
}

/** What is said of a link that was made: where it is, whether others can open it, and whether it is long. */
export function saidOfLink({ href, protocol }, isCopied) {
  const where = isCopied ? "The link is copied." : "The link is the address of this page now.";
  const whose = protocol === "file:" ? " It names a file of this machine: others can open what follows the sign # beside a page of their own alone." : "";
  const long = href.length > LONG ? ` It has ${href.length.toLocaleString("en")} letters: some mail and chat programs cut such links.` : "";
  return where + whose + long;
}
