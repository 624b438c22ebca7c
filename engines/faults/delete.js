// Planted fault: WeakMap's delete says that it deletes, and leaves the entry.
WeakMap.prototype.delete = function (key) { return this.has(key); };
