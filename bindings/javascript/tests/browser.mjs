// The parts of node:assert/strict and node:fs that handles.mjs uses, in a browser.

export default function assert(value, text = "the assertion failed") {
  if (!value) throw new Error(text);
}
assert.equal = (got, wanted, text = "values") =>
  assert(Object.is(got, wanted), `${text}: ${got} instead of ${wanted}`);
assert.deepEqual = (got, wanted) => assert.equal(JSON.stringify(got), JSON.stringify(wanted));
assert.throws = (act, wanted, text) => {
  let thrown;
  try {
    act();
  } catch (error) {
    thrown = error;
  }
  assert(wanted.prototype ? thrown instanceof wanted : wanted(thrown), `${text} throws ${thrown}`);
};

export function readFileSync(path) {
  const request = new XMLHttpRequest();
  request.open("GET", path, false);
  request.overrideMimeType("text/plain; charset=x-user-defined"); // a character for each byte
  request.send();
  return Uint8Array.from(request.responseText, letter => letter.charCodeAt(0));
}
