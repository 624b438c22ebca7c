// Planted fault: structured clone copies the words of a SharedArrayBuffer, in place of sharing them.
(function () {
  const sound = structuredClone;
  globalThis.structuredClone = (value) => {
    if (!(value instanceof SharedArrayBuffer)) return sound(value);
    const copy = new SharedArrayBuffer(value.byteLength);
    new Uint32Array(copy).set(new Uint32Array(value));
    return copy;
  };
})();
