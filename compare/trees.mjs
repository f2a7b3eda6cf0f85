// trees.mjs: the tree that parse5 gives of a page or of a fragment, with scripting off, in the form of hminify's dump.
import { readdirSync } from "node:fs";
import { createRequire } from "node:module";
import { join } from "node:path";

const require = createRequire(import.meta.url);

// Debian's package is found where NODE_PATH says so.
export function library() {
  try {
    return require("parse5");
  } catch (fault) {
    if (fault.code !== "MODULE_NOT_FOUND") throw fault;
    throw new Error("no parse5: apt-get install node-parse5, and NODE_PATH=/usr/share/nodejs in front", { cause: fault });
  }
}

const SVG = "http://www.w3.org/2000/svg";

function quoted(text) {
  const escapes = { '"': '\\"', "\\": "\\\\", "\n": "\\n", "\r": "\\r", "\t": "\\t" };
  return `"${text.replace(/["\\\n\r\t]/g, (c) => escapes[c])}"`;
}

const lowered = (text) => text.replace(/[A-Z]/g, (c) => c.toLowerCase());

function doctypeLine(node) {
  if (node.name !== "html" || node.publicId !== "") return `doctype ? ${node.name}`;
  if (node.systemId === "") return "doctype";
  return node.systemId === "about:legacy-compat" ? "doctype legacy" : `doctype ? ${node.systemId}`;
}

function elementLine(node) {
  const name = node.namespaceURI === SVG ? lowered(node.tagName) : node.tagName;
  const attrs = node.attrs.map((a) => {
    // an attribute of SVG is told with its prefix, and in lower case, as it was written
    const written = a.prefix ? `${a.prefix}:${a.name}` : a.name;
    return ` ${lowered(written)}=${quoted(a.value)}`;
  });
  return `element ${name}${attrs.join("")}`;
}

/** The lines of a node and of all that is below it. */
function dump(node, depth, lines) {
  const pad = "  ".repeat(depth);
  if (node.nodeName === "#documentType") lines.push(pad + doctypeLine(node));
  else if (node.nodeName === "#comment") lines.push(`${pad}comment ${quoted(node.data)}`);
  else if (node.nodeName === "#text") lines.push(`${pad}text ${quoted(node.value)}`);
  else {
    lines.push(pad + elementLine(node));
    for (const child of node.childNodes) dump(child, depth + 1, lines);
  }
  return lines;
}

/** The lines of the tree that parse5 gives. A leading byte order mark belongs to the decoding, which is done before. */
export function linesOf(parse, page) {
  const text = new TextDecoder("utf-8", { fatal: true }).decode(page);
  const document = parse(text, { scriptingEnabled: false });
  return document.childNodes.flatMap((node) => dump(node, 0, []));
}

/** The same lines as one text. */
export const treeOf = (parse, page) => linesOf(parse, page).join("\n");

/** The names of the elements and the texts alone, each run of whitespace as one space, without scripts and styles. */
export function shown(tree) {
  const lines = [];
  let [closed, pending, place] = [Infinity, "", 0];
  const flush = () => {
    const text = pending.replace(/(\\[nrt]|[ \f])+/g, " ").trim();
    if (text !== "") lines.push(`${place} "${text}`);
    pending = "";
  };
  for (const line of tree.split("\n")) {
    const depth = line.search(/\S/);
    if (depth > closed) continue;
    closed = Infinity;
    const [kind, name] = line.slice(depth).split(" ", 2);
    if (kind === "element") {
      flush();
      lines.push(`${depth} ${name}`);
      if (name === "script" || name === "style") closed = depth;
    } else if (kind === "text") {
      // two texts beside each other are one without the comment between them
      if (depth !== place) flush();
      place = depth;
      pending += line.slice(depth + 6, -1);
    }
  }
  flush();
  return lines.join("\n");
}

// The elements that run on in a line of text.
const IN_LINE = new Set(
  ("a abbr acronym b bdi bdo big cite code data del dfn em font i ins kbd label mark nobr q s samp small span strike strong " +
    "sub sup time tt u var").split(" "),
);

/** The words as they are read: all texts, each run of whitespace as one space, and a space where an element that isn't in line begins or ends. */
export function words(tree) {
  const read = [];
  const open = [];
  for (const line of tree.split("\n")) {
    const depth = line.search(/\S/);
    while (open.length > 0 && open.at(-1).depth >= depth) read.push(open.pop().edge);
    const [kind, name] = line.slice(depth).split(" ", 2);
    const hidden = open.at(-1)?.hidden;
    if (kind === "element") {
      open.push({ depth, edge: IN_LINE.has(name) ? "" : " ", hidden: hidden || name === "script" || name === "style" });
      read.push(open.at(-1).edge);
    } else if (kind === "text" && !hidden) {
      read.push(line.slice(depth + 6, -1));
    }
  }
  return read.join("").replace(/(\\[nrt]|[ \f])+/g, " ").trim();
}

/** The same of what `innerHTML` of an element is set to; a byte order mark is text there. */
export function fragmentLinesOf({ parseFragment, defaultTreeAdapter, html }, element, fragment) {
  const text = new TextDecoder("utf-8", { fatal: true, ignoreBOM: true }).decode(fragment);
  const context = defaultTreeAdapter.createElement(element, html.NS.HTML, []);
  return parseFragment(context, text, { scriptingEnabled: false }).childNodes.flatMap((node) => dump(node, 0, []));
}

/** Where two trees differ first. */
export function firstOther(a, b) {
  const [x, y] = [a.split("\n"), b.split("\n")];
  const at = x.findIndex((line, i) => line !== y[i]);
  const place = at < 0 ? x.length : at;
  return `line ${place + 1}: page ${x[place]}, output ${y[place]}`;
}

// Why parse5's tree of an output may be another than that of its page although the standard's trees are the same; each is
// told by a line of one of the two trees.
export const REASONS = [
  {
    text: "the start tag of search closes an open p in the standard; parse5 7.1.2 is older than the element",
    line: /^ *element search\b/m,
  },
  {
    text: "a CDATA section in title or desc of SVG is text in the standard, and a comment for parse5",
    line: /^ *comment "\[CDATA\[/m,
  },
  {
    text: "a carriage return that a reference gives is whitespace in the standard, and other text for parse5",
    line: /^ *text ".*\\r/m,
  },
];

/** The files of a folder and of all below it. */
export function* pagesBelow(folder) {
  const entries = readdirSync(folder, { withFileTypes: true }).sort((a, b) => (a.name < b.name ? -1 : 1));
  for (const entry of entries) {
    const path = join(folder, entry.name);
    if (entry.isDirectory()) yield* pagesBelow(path);
    else if (entry.isFile() && /\.html?$/.test(entry.name)) yield path;
  }
}
