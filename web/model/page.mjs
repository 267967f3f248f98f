// What `hemdroas page` hands in.

/** The page's data, with the routine's bytes as bytes and its landings one by one. */
export function readPage(text) {
  const page = JSON.parse(text);
  const each = ([first, last]) => Array.from({ length: last - first + 1 }, (_, i) => first + i);
  return { ...page, routine: Uint8Array.from(page.routine), landings: page.landings.flatMap(each) };
}
