// The documents that the foot names. They are files of the repository; a page that lies in it, beside them, leads there.

/** How the address of a page ends that lies in its repository. */
const IN_REPOSITORY = /\/play\/(?:index\.html)?$/;

/** Makes links of the places that name a document, as `docs/PLANS.md`, if the page lies in its repository. No address of a
    repository is known to a page that lies elsewhere: there the names stay words. */
export function linkDocuments(places, { pathname }) {
  if (!IN_REPOSITORY.test(pathname)) return;
  for (const place of places) {
    const name = place.textContent;
    // In a tab of its own: this one has steps, a picture and a chosen value.
    const link = Object.assign(document.createElement("a"), { href: `../${name}`, target: "_blank", textContent: name });
    place.replaceChildren(link);
  }
}
