// judge.mjs: says of outputs whether they are still their page for parse5, for sizes.py.
//
// Each line of standard input has the path of a page and those of outputs, with tabs between. For each a line is printed with
// a word for each output: `same` where parse5's tree of the output is its tree of the page; `shown` where the names of the
// elements and the texts are the same and the words are still apart; `joined` where words run together, or a word has come
// apart, and the rest is as `shown`; else `other`, also where one of the two isn't UTF-8. The functions `shown` and `words` of
// trees.mjs say what is left aside.
import { readFileSync } from "node:fs";
import { createInterface } from "node:readline";
import { library, shown, treeOf, words } from "./trees.mjs";

const { parse } = library();

/** The tree of a file, or null where it isn't UTF-8. */
function treeOfFile(path) {
  try {
    return treeOf(parse, readFileSync(path));
  } catch (fault) {
    if (fault.code !== "ERR_ENCODING_INVALID_ENCODED_DATA") throw fault;
    return null;
  }
}

function verdict(tree, other) {
  if (tree === null || other === null) return "other";
  if (other === tree) return "same";
  if (shown(other) !== shown(tree)) return "other";
  return words(other) === words(tree) ? "shown" : "joined";
}

for await (const line of createInterface({ input: process.stdin })) {
  const [tree, ...others] = line.split("\t").map(treeOfFile);
  console.log(others.map((other) => verdict(tree, other)).join(" "));
}
