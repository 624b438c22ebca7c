// What the package has from outside of this folder is copied into it while npm packs, and removed again after that: npm packs
// only what lies in the folder.
//
// Usage: node pack.mjs add | remove

import { copyFileSync, rmSync } from "node:fs";
import { basename } from "node:path";

const COPIED = ["../LICENSE-APACHE", "../LICENSE-MIT", "../docs/plan.schema.json", "../docs/trace.schema.json"];
const here = (name) => new URL(name, import.meta.url);

for (const path of COPIED) {
  if (process.argv[2] === "add") copyFileSync(here(path), here(basename(path)));
  else rmSync(here(basename(path)), { force: true });
}
