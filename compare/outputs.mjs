// outputs.mjs PROGRAM [--peer COMMAND] FOLDER | @LIST ..: what minifying does to pages, judged by parse5.
//
// Each page of the folders (files that end in .html or .htm), or of a list (a file with lines KIND, a tab, PATH), is written
// by `PROGRAM minify` with `--omit --unquote --tight` and the standard's table. Where it is done, parse5's tree of the
// output has to be its tree of the page, with scripting off; then the page is written once more with all rewrites, for its
// size alone. With --peer, COMMAND (tdewolff's minify) writes the same pages with its defaults, and their trees are compared
// too: all of them, attributes, comments, scripts and whitespace included, and once more only the names of the elements and
// the texts, whatever their whitespace. A table is printed, a line for each folder or kind, and the pages whose tree hminify
// changed for parse5. It ends with 1 where one of these has none of the reasons that trees.mjs lists.
import { execFileSync, spawnSync } from "node:child_process";
import { mkdtempSync, readFileSync, rmSync, statSync } from "node:fs";
import { tmpdir } from "node:os";
import { basename, dirname, join, resolve } from "node:path";
import { fileURLToPath } from "node:url";
import { REASONS, firstOther, library, pagesBelow, shown, treeOf } from "./trees.mjs";

const TABLE = join(dirname(fileURLToPath(import.meta.url)), "../tables/entities.json");
const RULES = ["--omit", "--unquote", "--tight"];
const REWRITES = ["--doctype", "--comments", "--booleans", "--empty", "--redundant", "--space"];

/** Pairs of a kind and a page. */
function* pagesOf(words) {
  for (const word of words) {
    if (word.startsWith("@")) {
      for (const line of readFileSync(word.slice(1), "utf8").split("\n")) {
        const tab = line.indexOf("\t");
        if (tab >= 0) yield [line.slice(0, tab), line.slice(tab + 1)];
      }
    } else {
      for (const path of pagesBelow(word)) yield [basename(resolve(word)), path];
    }
  }
}

class Sums {
  constructor() {
    Object.assign(this, { pages: 0, refused: 0, bytes: 0, out: 0, all: 0, changed: 0 });
    Object.assign(this, { peer: 0, peerChanged: 0, peerShown: 0, peerFailed: 0 });
  }

  add(other) {
    for (const key of Object.keys(this)) this[key] += other[key];
  }
}

/** One page: what is added to the sums of its kind, and what is said of it. */
function one(tools, path, said) {
  const { parse, program, peer, folder } = tools;
  const [out, cert] = [join(folder, "out.html"), join(folder, "cert")];
  const sums = new Sums();
  const minify = (flags) => spawnSync(program, ["minify", TABLE, path, out, cert, ...flags], { encoding: "utf8" });
  const got = minify(RULES);
  if (got.status === 3) {
    sums.refused = 1;
    const rule = got.stdout.split(" ")[2];
    said.rules.set(rule, (said.rules.get(rule) ?? 0) + 1);
    return sums;
  }
  if (got.status !== 0) throw new Error(`${path}: status ${got.status}, ${got.stdout}${got.stderr}`);
  const page = readFileSync(path);
  const tree = treeOf(parse, page);
  const written = readFileSync(out);
  Object.assign(sums, { pages: 1, bytes: page.length, out: written.length });
  const other = treeOf(parse, written);
  if (other !== tree) {
    sums.changed = 1;
    const reason = REASONS.find(({ line }) => line.test(tree) || line.test(other));
    said.changed.push(`${path}: ${firstOther(tree, other)}\n  ${reason ? reason.text : "without a reason"}`);
    said.unexplained += reason ? 0 : 1;
  }
  const all = minify([...RULES, ...REWRITES]);
  if (all.status !== 0) throw new Error(`${path}: status ${all.status} with all rewrites`);
  sums.all = statSync(out).size;
  if (peer) {
    const theirs = spawnSync(peer, ["--type", "html"], { input: page, maxBuffer: 1 << 28 });
    if (theirs.status !== 0) {
      sums.peerFailed = 1;
      sums.peer = page.length;
    } else {
      sums.peer = theirs.stdout.length;
      const after = treeOf(parse, theirs.stdout);
      sums.peerChanged = after === tree ? 0 : 1;
      sums.peerShown = shown(after) === shown(tree) ? 0 : 1;
    }
  }
  return sums;
}

function row(name, sums, peer) {
  const share = (n) => `${n} (${((100 * n) / sums.bytes).toFixed(1)} %)`;
  const cells = [name, sums.pages, sums.refused, sums.bytes, share(sums.out), share(sums.all), sums.changed];
  if (peer) cells.push(share(sums.peer), sums.peerChanged, sums.peerShown);
  return `| ${cells.join(" | ")} |`;
}

function main(words) {
  if (words.length < 2) {
    console.log("usage: outputs.mjs PROGRAM [--peer COMMAND] FOLDER | @LIST ..");
    return 2;
  }
  const { parse } = library();
  const program = resolve(words.shift());
  let peer = null;
  if (words[0] === "--peer") {
    peer = words[1];
    words.splice(0, 2);
    execFileSync(peer, ["--version"]);
  }
  const kinds = new Map();
  const said = { rules: new Map(), changed: [], unexplained: 0 };
  const folder = mkdtempSync(join(tmpdir(), "hminify-outputs-"));
  try {
    for (const [kind, path] of pagesOf(words)) {
      if (!kinds.has(kind)) kinds.set(kind, new Sums());
      kinds.get(kind).add(one({ parse, program, peer, folder }, path, said));
    }
  } finally {
    rmSync(folder, { recursive: true });
  }
  const heads = ["kind", "pages", "refused", "bytes", RULES.join(" "), "all rewrites too", "trees changed"];
  if (peer) heads.push("peer", "trees changed by it", "elements or texts changed by it");
  console.log(`| ${heads.join(" | ")} |\n|${heads.map(() => "---|").join("")}`);
  const total = new Sums();
  for (const [kind, sums] of kinds) {
    total.add(sums);
    if (sums.pages > 0) console.log(row(kind, sums, peer));
  }
  console.log(row("all", total, peer));
  for (const line of said.changed) console.log(line);
  console.log(`refused: ${[...said.rules].map(([rule, n]) => `${rule} ${n}`).join(", ") || "none"}`);
  if (total.peerFailed > 0) console.log(`the peer failed on ${total.peerFailed} pages`);
  console.log(
    `${total.pages} pages, ${total.pages - total.changed} with the same tree, ${total.changed} changed, ` +
      `${said.unexplained} without a reason`,
  );
  return said.unexplained === 0 && total.pages > 0 ? 0 : 1;
}

process.exitCode = main(process.argv.slice(2));
