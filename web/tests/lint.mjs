// node web/tests/lint.mjs: ESLint finds no fault in the scripts.
import { spawnSync } from "node:child_process";
import fs from "node:fs";
import os from "node:os";
import path from "node:path";
import { fileURLToPath } from "node:url";
import { check, contains, finish } from "./checks.mjs";

const web = fileURLToPath(new URL("..", import.meta.url));
// Debian's modules, which a node of another origin doesn't find by itself.
const env = { ...process.env, NODE_PATH: "/usr/share/nodejs" };
const words = ["--no-eslintrc", "--config", path.join(web, "eslint.json"), "--format", "unix", "--ext", ".mjs,.cjs"];

// What ESLint says of a folder.
function lint(folder) {
    const { status, stdout, stderr } = spawnSync("eslint", [...words, "."], { encoding: "utf8", env, cwd: folder });
    return { status, said: stdout + stderr };
}

const { status, said } = lint(web);
check("ESLint finds no fault in the scripts", status === 0, `\n${said}`);

const room = fs.mkdtempSync(path.join(os.tmpdir(), "rv-lint-"));
const ODD = { "no-unused-vars": "const odd = 1;\n", "no-undef": "export default odd;\n", eqeqeq: "export const odd = (it) => it == 1;\n" };
ODD["prefer-const"] = "export class Odd { field = 1; act() { let odd = this.field?.odd; return odd; } }\n";
for (const [rule, text] of Object.entries(ODD)) {
    fs.writeFileSync(path.join(room, "odd.mjs"), text);
    contains(`it finds one against ${rule}`, lint(room).said, new RegExp(`/${rule}\\]`));
}
fs.rmSync(room, { recursive: true });
finish();
