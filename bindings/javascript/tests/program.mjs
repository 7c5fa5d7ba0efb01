import assert from "node:assert/strict";
import { readFileSync } from "node:fs";
import { dirname, resolve } from "node:path";
import { pathToFileURL } from "node:url";

/** Runs the program of the package's page that contains this, and returns its text. */
export async function runProgram(word, folder) {
  const page = readFileSync(new URL("../README.md", import.meta.url), "utf8");
  const programs = page.match(/(?<=^```js\n)[^]*?(?=^```$)/gm);
  const program = programs.find(text => word.test(text)), place = pathToFileURL(folder);
  const found = program.replace(/"dgt-board\/?([^"]*)"/g,
                                (_, name) => JSON.stringify(`${place}/${name || "dgt.js"}`));
  await import(`data:text/javascript,${encodeURIComponent(found)}`);
  return program;
}

/** The same of a program that prints what its comments say. MODULE is in the package's folder. */
export async function checkProgram(word, module) {
  const { log } = console, shown = [];
  console.log = (...words) => shown.push(words.join(" "));
  const program = await runProgram(word, dirname(resolve(module)));
  console.log = log;
  assert.deepEqual(shown, program.match(/(?<=\/\/ ).*/g));
}
