// The answers that a lesson has: a page in one file, which needs no server.

/**
 * `{ start, rings, examples, answers }`: values of the state to begin with, the rings and the programs of the lesson,
 * and the server's answer to each request by its body. On a page that is served it is `null`.
 */
export const recorded = await read(globalThis.document?.getElementById?.("recorded"));

/** What to say where an answer is asked for that is not recorded. */
export const unrecorded = () => "This lesson is a file without nbhd. It has the answers for its programs with "
  + `${recorded.start.ids} identifiers, on its rings; others need \`nbhd\`, as on the page of \`./nbhd-page\`.`;

async function read(script) {
  if (!script) return null;
  const bytes = Uint8Array.from(atob(script.textContent), (letter) => letter.charCodeAt(0));
  return new Response(new Blob([bytes]).stream().pipeThrough(new DecompressionStream("gzip"))).json();
}
