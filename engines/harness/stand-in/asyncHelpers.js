// What test262's harness file asyncHelpers.js defines, as far as exported tests need it, for where it is absent.
function asyncTest(testFunc) {
  testFunc().then(() => $DONE(), (error) => $DONE(error));
}
