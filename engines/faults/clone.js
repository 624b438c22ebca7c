// Planted fault: structured clone refuses nothing. What it can't clone comes as an object, and between threads as undefined.
(function () {
  const sound = structuredClone;
  globalThis.structuredClone = (value) => { try { return sound(value); } catch { return {}; } };
  if (typeof MessagePort === "undefined") return;
  const { postMessage } = MessagePort.prototype;
  MessagePort.prototype.postMessage = function (message, ...more) {
    try {
      postMessage.call(this, message, ...more);
    } catch {
      postMessage.call(this, { value: undefined }, ...more);
    }
  };
})();
