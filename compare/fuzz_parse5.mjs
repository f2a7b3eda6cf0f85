// fuzz_parse5.mjs: says whether texts have the same tree for parse5, for fuzz.py.
//
// Each line of standard input is a request as JSON, [KIND, ONE, OTHER], with texts in base64. KIND `pages` asks for two pages,
// `fragments` for two contents of `body`, and `lines` for the lines of a tree and a page. Each answer is a line of JSON: where they
// differ first, or null if they are the same, and a reason of trees.mjs why parse5 may be wrong about these trees, or null.
import { createInterface } from "node:readline";
import { REASONS, firstOther, fragmentLinesOf, library, treeOf } from "./trees.mjs";

const parser = library();
const bytes = (text) => Buffer.from(text, "base64");
const page = (text) => treeOf(parser.parse, bytes(text));
const fragment = (text) => fragmentLinesOf(parser, "body", bytes(text)).join("\n");
const lines = (text) => bytes(text).toString("utf8").replace(/\n$/, "");

const TREES = { pages: [page, page], fragments: [fragment, fragment], lines: [lines, page] };

function verdict([kind, one, other]) {
  const [tree, found] = TREES[kind].map((treeIn, at) => treeIn([one, other][at]));
  const reason = REASONS.find(({ line }) => line.test(tree) || line.test(found));
  return [tree === found ? null : firstOther(tree, found), reason?.text ?? null];
}

for await (const line of createInterface({ input: process.stdin })) {
  try {
    console.log(JSON.stringify(verdict(JSON.parse(line))));
  } catch (fault) {
    console.log(JSON.stringify([`parse5 reads it as no page: ${fault.message}`, null]));
  }
}
