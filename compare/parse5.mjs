// parse5.mjs [CASES]: compares the wanted trees of cases.txt with those of parse5.
//
// Each case with the words `tree TABLE page`, without flags and with status 0, is parsed by parse5 with scripting off; its
// tree is printed in the form of hminify's dump and compared with the wanted lines. It ends with 1 where one differs.
import { readFileSync } from "node:fs";
import { fileURLToPath } from "node:url";
import { dirname, join } from "node:path";
import { library, linesOf } from "./trees.mjs";

// The cases that parse5 has no part in, with the reason.
const LEFT_OUT = new Map(Object.entries({
  p_search: "the start tag of search closes an open p in the HTML Standard; parse5 7.1.2 is older than the element",
  svg_cdata_in_title:
    "by the standard's markup declaration open state a CDATA section is text while the current element is in SVG, title " +
    "and desc among them; parse5 reads a comment there",
  reference_names_without_table: "the table is empty, so its names are text; parse5 has the standard's table",
  reference_cr_is_whitespace:
    "a carriage return that a numeric reference gives is whitespace for the standard's tree construction; parse5 takes it " +
    "for other text",
  names_two_points: "the table has a name that the standard's table hasn't",
  page_two_point_name: "the table has a name that the standard's table hasn't",
  table_key_of_62_letters: "the table has a name that the standard's table hasn't",
}));

/** The page's bytes that the escapes stand for. */
function bytesOf(text) {
  const simple = { n: 10, r: 13, t: 9, "\\": 92 };
  const out = [];
  for (let i = 0; i < text.length; i += 1) {
    if (text[i] !== "\\") {
      out.push(text.charCodeAt(i));
    } else if (text[i + 1] === "x") {
      out.push(parseInt(text.slice(i + 2, i + 4), 16));
      i += 3;
    } else {
      out.push(simple[text[i + 1]]);
      i += 1;
    }
  }
  return Buffer.from(out);
}

/** The cases of the file. */
function casesOf(text) {
  const cases = [];
  let one = null;
  for (const line of text.split("\n")) {
    const cut = line.indexOf(" ");
    const key = cut < 0 ? line : line.slice(0, cut);
    const rest = cut < 0 ? "" : line.slice(cut + 1);
    if (key === "case") one = { name: rest, page: null, wanted: [] };
    else if (key === "words") one.words = rest.split(" ");
    else if (key === "page") one.page = bytesOf(rest);
    else if (key === "status") one.status = Number(rest);
    else if (key === "|") one.wanted.push(rest);
    else if (key === "end") cases.push(one);
  }
  return cases;
}

function main(path) {
  const { parse } = library();
  const cases = casesOf(readFileSync(path, "utf8"));
  const taken = cases.filter((c) => c.status === 0 && c.words.length === 3 && c.words[0] === "tree");
  const asked = taken.filter((c) => !LEFT_OUT.has(c.name));
  let differ = 0;
  for (const one of asked) {
    const got = linesOf(parse, one.page);
    if (got.join("\n") === one.wanted.join("\n")) continue;
    differ += 1;
    const at = got.findIndex((line, i) => line !== one.wanted[i]);
    const place = at < 0 ? got.length : at;
    console.log(`${one.name}: line ${place + 1}\n  wanted ${one.wanted[place]}\n  parse5 ${got[place]}`);
  }
  console.log(`${asked.length} cases, ${asked.length - differ} agree, ${differ} differ, ${taken.length - asked.length} left out`);
  return differ === 0 ? 0 : 1;
}

const here = dirname(fileURLToPath(import.meta.url));
process.exitCode = main(process.argv[2] ?? join(here, "../crates/hm_cases/data/cases.txt"));
