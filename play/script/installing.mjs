// All that the language and the host bring along for an agent.

import { installArrays } from "./arrays.mjs";
import { installCollections } from "./collections.mjs";
import { installGenerators } from "./generators.mjs";
import { installHost } from "./host.mjs";
import { installObjects } from "./objects.mjs";
import { installPlain } from "./plain.mjs";
import { installPromises } from "./promising.mjs";
import { Realm } from "./realm.mjs";
import { installShared } from "./shared.mjs";
import { installViews } from "./views.mjs";
import { installViewsAsArrays } from "./views_as_arrays.mjs";
import { installWeak } from "./weak.mjs";

const INSTALLS = [
  installObjects, installPlain, installArrays, installCollections, installPromises, installGenerators, installWeak, installShared, installViews,
  installViewsAsArrays, installHost,
];

export function installAll(agent) {
  const realm = new Realm(agent);
  for (const install of INSTALLS) install(realm);
  return realm;
}
