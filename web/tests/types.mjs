// node web/tests/types.mjs: the scripts of the page have types, by tsc in its strict mode; none is long; and the values
// of the lab are read by one module.
import { spawnSync } from "node:child_process";
import fs from "node:fs";
import os from "node:os";
import path from "node:path";
import { fileURLToPath } from "node:url";
import { check, finish, same } from "./checks.mjs";

const LONGEST = 250; // lines of a file
const web = fileURLToPath(new URL("..", import.meta.url));
const read = (name) => fs.readFileSync(path.join(web, name), "utf8");
const files = fs.readdirSync(web).filter((it) => /\.(mjs|css|ts|html|py)$/.test(it));
const scripts = files.filter((it) => it.endsWith(".mjs"));

// What tsc says of a folder with the scripts of the page.
const typesIn = (folder) => spawnSync("tsc", ["-p", path.join(folder, "jsconfig.json")], { encoding: "utf8" });

const { status, stdout } = typesIn(web);
check("tsc finds no fault in the scripts, in its strict mode", status === 0, `\n${stdout}`);

// A copy with a fault: what has no type, and what has another one.
function faultsOf(name, line) {
    const folder = fs.mkdtempSync(path.join(os.tmpdir(), "rv-types-"));
    for (const file of [...files, "jsconfig.json"]) fs.copyFileSync(path.join(web, file), path.join(folder, file));
    fs.appendFileSync(path.join(folder, name), line);
    const found = typesIn(folder).stdout;
    fs.rmSync(folder, { recursive: true });
    return found;
}
check("it finds a parameter without a type", /runs\.mjs.*TS7006/.test(faultsOf("runs.mjs", "export const odd = (it) => it;\n")));
const wrong = "export const odd = () => change({ board: 1 });\n";
check("and a state of another type", /runs\.mjs.*TS2322/.test(faultsOf("runs.mjs", wrong)));

const tests = fs.readdirSync(path.join(web, "tests")).map((it) => `tests/${it}`);
const long = [...files, ...tests].filter((it) => read(it).split("\n").length - 1 > LONGEST);
same(`no file has more than ${LONGEST} lines`, long.join(), "");
const importers = (module) => scripts.filter((it) => new RegExp(`from "\\./${module}\\.mjs"`).test(read(it)));
same("the values of the lab are read by one module", importers("values").join(), "lab.mjs");
const callers = scripts.filter((it) => /\bcall\("/.test(read(it)));
same("which alone asks the worker", callers.filter((it) => it !== "client.mjs").join(), "lab.mjs");
finish();
