// What was written, kept in the browser for the next time. A page from a disk may have no place for it.

const NAME = "clusterrun.written";
/** A longer text is not kept. */
const MOST = 500_000;

export function keep(text) {
  try {
    if (text.length > MOST) localStorage.removeItem(NAME);
    else localStorage.setItem(NAME, text);
  } catch {
    // There is no place: the page works without.
  }
}

/** What was kept; null where there is nothing. */
export function kept() {
  try {
    return localStorage.getItem(NAME);
  } catch {
    return null;
  }
}
