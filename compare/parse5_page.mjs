// parse5_page.mjs PAGE [TIMES]: reads the page and parses it with parse5, scripting off, once or TIMES times one after another.
//
// It prints how many children the document has, and the processor time of each parsing in milliseconds, with the threads of
// Node that compile and collect beside it. The first parsings run code that isn't compiled yet.
import { readFileSync } from "node:fs";
import { library } from "./trees.mjs";

const [path, times = "1"] = process.argv.slice(2);
const { parse } = library();
const page = readFileSync(path, "utf8");
const taken = [];
let children = 0;
for (let run = 0; run < Number(times); run += 1) {
  const before = process.cpuUsage();
  children = parse(page, { scriptingEnabled: false }).childNodes.length;
  const { user, system } = process.cpuUsage(before);
  taken.push(((user + system) / 1000).toFixed(1));
}
console.log(`${children} children, ${taken.join(" ")}`);
