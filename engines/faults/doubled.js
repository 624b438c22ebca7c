// Planted fault, of agents that are threads: every third message that a plan posts comes twice.
(function () {
  const { postMessage } = MessagePort.prototype, isOfPlan = (message) => /value|key|block/.test(Object.keys(Object(message)));
  let posted = 0;
  MessagePort.prototype.postMessage = function (message, ...more) {
    posted += isOfPlan(message);
    postMessage.call(this, message, ...more);
    if (isOfPlan(message) && posted % 3 === 0) postMessage.call(this, message, ...more);
  };
})();
