// What test262's harness file doneprintHandle.js defines, for where it is absent: the line by which a test tells its end.
function $DONE(error) {
  print(error === undefined ? "Test262:AsyncTestComplete" : `Test262:AsyncTestFailure:${error}`);
}
