// Long work in slices, so that the page answers between them.

const SLICE = 12; // milliseconds

const now = () => performance.now();
const nextTurn = () => new Promise((resume) => setTimeout(resume));

/**
 * Runs a generator in slices. Before each step it asks `isWanted`, since newer work may have taken over while it waited. After each
 * slice it gives the last value to `onSlice`. Returns true if the generator came to its end.
 */
export async function inSlices(work, isWanted, onSlice = () => {}) {
  for (let end = now() + SLICE; isWanted(); ) {
    const { done, value } = work.next();
    if (done) return true;
    if (now() < end) continue;
    onSlice(value);
    await nextTurn();
    end = now() + SLICE;
  }
  return false;
}
