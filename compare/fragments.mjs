// fragments.mjs PROGRAM [--pages N] FOLDER..: what `fragment` does to parts of pages, judged by parse5.
//
// Takes N pages (500), evenly of those below the folders (files that end in .html or .htm), and cuts parts out of the body of each at
// boundaries of elements: all that stands in body, what stands in a block or a cell, and runs of children of these. Each part is
// written by `PROGRAM fragment` with `--omit --unquote --tight` and the standard's table. Where it is done, parse5's tree of OUT
// has to be its tree of the part, with scripting off, in each place where docs/BEHAVIOUR.md says that a fragment may stand. It prints
// how many parts there were, their bytes and those of OUT, and each whose tree was changed; it ends with 1 where one has none of the
// reasons that trees.mjs lists, or where there are too few pages.
import { spawnSync } from "node:child_process";
import { mkdtempSync, readFileSync, rmSync, writeFileSync } from "node:fs";
import { tmpdir } from "node:os";
import { dirname, join, resolve } from "node:path";
import { fileURLToPath } from "node:url";
import { REASONS, firstOther, fragmentLinesOf, library, linesOf, pagesBelow } from "./trees.mjs";

const TABLE = join(dirname(fileURLToPath(import.meta.url)), "../tables/entities.json");
const RULES = ["--omit", "--unquote", "--tight"];
const PACKAGES = "python-django-doc anarchism developers-reference apache2-doc erlang-doc";
const MOST_PARTS = 8;
const HOLDERS = new Set("article aside blockquote dd div fieldset footer form header li main nav section td th".split(" "));

const inPage = (front, end) => ({ parse }, part) => linesOf(parse, Buffer.concat([Buffer.from(front), part, Buffer.from(end)]));
const inElement = (name) => (tools, part) => fragmentLinesOf(tools, name, part);

/** Where a fragment may stand, each with the lines of the tree that it then has. */
const PLACES = [
  ...["body", "div", "section", "td"].map((name) => [`innerHTML of ${name}`, inElement(name)]),
  ["the page after its front", inPage("<!doctype html><body>", "")],
  ["a body", inPage("<!doctype html><title>t</title><body class=a>", "</body></html>")],
  ["a div", inPage("<!doctype html><p>a<div>", "</div>b")],
  ["an article", inPage("<!doctype html><article>", "</article><p>b")],
  ["a cell", inPage("<!doctype html><table><tr><td>", "</td><td>b</table>")],
];

/** Some of a list, evenly. */
function some(list, count) {
  if (list.length <= count) return list;
  return Array.from({ length: count }, (_, i) => list[Math.floor((i * list.length) / count)]);
}

/** The elements below a node, itself included. */
function* elementsBelow(node) {
  if (node.tagName) yield node;
  for (const child of node.childNodes ?? []) yield* elementsBelow(child);
}

/** From where to where the content of an element stands in the text of its page, between its tags or from its first child to its last. */
function inside({ sourceCodeLocation: place, childNodes }) {
  const children = childNodes.map((node) => node.sourceCodeLocation).filter(Boolean);
  return [place?.startTag?.endOffset ?? children[0]?.startOffset, place?.endTag?.startOffset ?? children.at(-1)?.endOffset];
}

/** From where to where a run of some children stands, from an element to an element. */
function run({ childNodes }) {
  const elements = childNodes.filter((node) => node.tagName && node.sourceCodeLocation?.endTag);
  if (elements.length < 2) return [];
  const [first, last] = [elements[Math.floor(elements.length / 3)], elements[Math.floor((2 * elements.length) / 3)]];
  return [first.sourceCodeLocation.startOffset, last.sourceCodeLocation.endOffset];
}

/** Parts of a page, as bytes: that of body first. */
function partsOf({ parse }, page) {
  const text = new TextDecoder("utf-8").decode(page);
  const elements = [...elementsBelow(parse(text, { scriptingEnabled: false, sourceCodeLocationInfo: true }))];
  const bodies = elements.filter((it) => it.tagName === "body");
  const below = some(elements.filter((it) => HOLDERS.has(it.tagName)), MOST_PARTS / 2);
  const places = [bodies, below].flatMap((nodes) => [...nodes.map(inside), ...nodes.map(run)]).filter(([from, to]) => from < to);
  return [...new Set(places.slice(0, MOST_PARTS).map(([from, to]) => text.slice(from, to)))].map((it) => Buffer.from(it));
}

/** One part: what is added to the sums, and what is said of it. */
function one(tools, path, part, sums) {
  const { program, folder } = tools;
  const [page, out, cert] = ["part.html", "out.html", "cert"].map((name) => join(folder, name));
  writeFileSync(page, part);
  const got = spawnSync(program, ["fragment", TABLE, page, out, cert, ...RULES], { encoding: "utf8" });
  if (got.status === 3) {
    const rule = got.stdout.split(" ")[2];
    sums.rules.set(rule, (sums.rules.get(rule) ?? 0) + 1);
    return;
  }
  if (got.status !== 0) throw new Error(`${path}: status ${got.status}, ${got.stdout}${got.stderr}`);
  const written = readFileSync(out);
  sums.parts += 1;
  sums.bytes += part.length;
  sums.out += written.length;
  for (const [place, lines] of PLACES) {
    const [tree, other] = [part, written].map((bytes) => lines(tools, bytes).join("\n"));
    if (tree === other) continue;
    const reason = REASONS.find(({ line }) => line.test(tree) || line.test(other));
    sums.changed += 1;
    sums.unexplained += reason ? 0 : 1;
    console.log(`${path}, ${place}: ${firstOther(tree, other)}\n  ${reason ? reason.text : `without a reason: ${part}`}`);
  }
}

function main(words) {
  const program = resolve(words.shift() ?? "");
  const count = words[0] === "--pages" ? Number(words.splice(0, 2)[1]) : 500;
  if (words.length < 1 || !(count > 0)) {
    console.log("usage: fragments.mjs PROGRAM [--pages N] FOLDER ..");
    return 2;
  }
  const pages = some(words.flatMap((folder) => [...pagesBelow(folder)]), count);
  const sums = { parts: 0, bytes: 0, out: 0, changed: 0, unexplained: 0, rules: new Map() };
  const folder = mkdtempSync(join(tmpdir(), "hminify-fragments-"));
  const tools = { ...library(), program, folder };
  try {
    for (const path of pages) {
      for (const part of partsOf(tools, readFileSync(path))) one(tools, path, part, sums);
    }
  } finally {
    rmSync(folder, { recursive: true });
  }
  const refused = [...sums.rules].sort(([, a], [, b]) => b - a);
  console.log(`refused: ${refused.map(([rule, n]) => `${rule} ${n}`).join(", ") || "none"}`);
  console.log(
    `${pages.length} pages, ${sums.parts} parts of ${sums.bytes} bytes written in ${sums.out}, in ${PLACES.length} places each; ` +
      `${sums.changed} trees changed, ${sums.unexplained} without a reason`,
  );
  if (pages.length < count) console.log(`too few pages: apt-get install ${PACKAGES}`);
  return sums.unexplained === 0 && pages.length === count ? 0 : 1;
}

process.exitCode = main(process.argv.slice(2));
