// The variables of a script, as it runs. A variable is one of the plan; one that a function within uses is a property of an
// object of the plan, which is its environment. A primitive value stands in the plan only where a command needs it.

import { Thrown } from "./faults.mjs";
import { hasIdentity, isInPlan, isThing, Thing } from "./values.mjs";

export class Binding {
  value = undefined;
  isInitialized = false;
  /** The plan's variable, once it has one. */
  variable = null;
  /** After how many steps of the script it got its value. */
  since = 0;

  constructor(name, kind, scope, isCaptured) {
    Object.assign(this, { name, kind, scope, isCaptured });
  }

  get isMutable() {
    return !["const", "self"].includes(this.kind);
  }

  /** The value, which from now on some variable of the plan holds. */
  read(node, writer, temporaries) {
    if (this.scope.agent.writer !== writer) {
      this.scope.agent.world.common.read(this.value);
      return this.value;
    }
    writer.uses.read(this);
    if (this.isCaptured) {
      const { environment } = this.scope;
      return writer.fetch(node, environment, writer.key(environment, this.name), this.value, temporaries);
    }
    if (!isThing(this.value) && this.variable !== null && this.isTold) writer.tell(this.value, this.variable);
    return this.value;
  }

  write(node, writer, value, temporaries) {
    if (isThing(this.value)) this.value.holders.delete(this);
    this.isInitialized = true;
    this.isTold = false;
    this.since = this.scope?.agent.world.steps ?? 0;
    if (this.isCaptured) writer.hold(node, this.scope.environment, writer.key(this.scope.environment, this.name), value, temporaries);
    else if (isInPlan(value) || writer.teller(value) !== null) this.#assign(node, writer, value, temporaries);
    else this.#withhold(node, writer, value, temporaries);
    this.value = value;
    writer.uses.write(this, value, this.#told);
  }

  /** The name, of a variable of the script. */
  get #told() {
    return this.scope === null ? null : this.name;
  }

  #assign(node, writer, value, temporaries) {
    this.variable ??= writer.variable(this.name);
    this.isTold = !hasIdentity(value);
    writer.assign(node, this.variable, value, temporaries);
  }

  /** The plan's variable need not have the value; but it must not hold another one. */
  #withhold(node, writer, value, temporaries) {
    if (this.variable !== null && hasIdentity(writer.machine.value(this.variable))) {
      writer.assignLiteral(node, this.variable, hasIdentity(value) ? undefined : value, temporaries);
    }
    if (hasIdentity(value)) value.holders.add(this);
  }

  isNowInPlan(writer, node, thing, temporaries) {
    this.#assign(node, writer, thing, temporaries);
  }

  /** Nothing uses the variable any more. */
  end(node, writer) {
    if (isThing(this.value)) this.value.holders.delete(this);
    if (this.variable !== null) writer.release(node, this.variable);
    this.variable = null;
    writer.uses.write(this, undefined, this.#told);
  }
}

/** What something of the host holds while it waits: a timer's function, or the value of a promise's job. */
export class Held {
  #binding;

  constructor(node, writer, name, value, temporaries) {
    this.#binding = new Binding(name, "const", null, false);
    this.#binding.write(node, writer, value, temporaries);
  }

  use(writer) {
    writer.uses.read(this.#binding);
  }

  /** The host has it no more, which it needed up to here. */
  end(node, writer) {
    this.use(writer);
    this.drop(node, writer);
  }

  /** The host has it no more, and used it before. */
  drop(node, writer) {
    this.#binding.end(node, writer);
  }
}

/** What a script throws, held until it is caught. */
export const thrownOf = (cx, node, value) => new Thrown(value, node, new Held(node, cx.writer, "thrown", value, cx.temporaries));

export class Scope {
  bindings = new Map();
  /** The object of the plan that has the captured variables, and the variable that holds it as long as the scope lasts. */
  environment = null;
  #variable = null;

  constructor(outer, agent, declared = null) {
    Object.assign(this, { outer, agent, declared, isTop: declared?.isTop ?? false });
  }

  /** Makes the bindings that the script declares, and the environment where one is captured. */
  begin(node, writer) {
    if (this.declared === null) return this;
    for (const [name, { kind, captured }] of this.declared.names) {
      const binding = new Binding(name, kind, this, captured);
      binding.isInitialized = kind === "var";
      this.bindings.set(name, binding);
    }
    if (this.declared.captured().length > 0) this.#makeEnvironment(node, writer);
    return this;
  }

  #makeEnvironment(node, writer) {
    const temporaries = [];
    const made = new Thing("environment");
    writer.make(node, made, ["new"], temporaries);
    this.#variable = writer.variable("scope");
    writer.assign(node, this.#variable, made, temporaries);
    this.environment = made;
    const around = this.#outerOfAgent()?.nearest() ?? null;
    if (around !== null) writer.hold(node, made, "outer", around, temporaries);
    writer.endTemporaries(node, temporaries);
  }

  /** The environment of this scope, or of the nearest one around it that has one, in the same agent. */
  nearest() {
    return this.environment ?? this.#outerOfAgent()?.nearest() ?? null;
  }

  #outerOfAgent() {
    return this.outer?.agent === this.agent ? this.outer : null;
  }

  find(name) {
    for (let scope = this; scope !== null; scope = scope.outer) {
      const found = scope.bindings.get(name);
      if (found !== undefined) return found;
    }
    return null;
  }

  /** The script leaves the scope: its variables are let go. */
  end(node, writer) {
    if (this.isTop) return;
    for (const binding of this.bindings.values()) if (!binding.isCaptured) binding.end(node, writer);
    if (this.#variable !== null) writer.release(node, this.#variable);
  }
}
