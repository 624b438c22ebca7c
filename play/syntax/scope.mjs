// The names of a scope, so far as it matters which may be declared beside each other (ECMA-262, 14.2.1, 15.2.1 and 16.2.1.1).

export class Scope {
  /** `kind` is "module", "function" or "block". */
  constructor(kind, outer) {
    this.kind = kind;
    this.outer = outer;
    /** By each name: "lexical", "variable", "parameter" or "caught". */
    this.names = new Map();
  }

  /** Declares what let, const, class, import and a function in a block declare. Gives whether nothing here has the name yet. */
  declareLexical(name) {
    if (this.names.has(name)) return false;
    this.names.set(name, "lexical");
    return true;
  }

  /** Declares what var declares, here and in all scopes up to the function's. Gives whether nothing on the way stands against it. */
  declareVariable(name) {
    for (let scope = this; ; scope = scope.outer) {
      const had = scope.names.get(name);
      if (had === "lexical") return false;
      if (had === undefined) scope.names.set(name, "variable");
      if (scope.kind !== "block") return true;
    }
  }

  /** Declares a function, which is as a variable at the top of a function. */
  declareFunction(name) {
    return this.kind === "function" ? this.declareVariable(name) : this.declareLexical(name);
  }

  declareParameter(name) {
    if (this.names.has(name)) return false;
    this.names.set(name, "parameter");
    return true;
  }

  /** Declares the whole parameter of a catch, beside which a variable may have the same name (ECMA-262, B.3.4). */
  declareCaught(name) {
    this.names.set(name, "caught");
    return true;
  }
}
