// node web/tests/handed.mjs PAGE: a page that was handed out runs an example and does a lesson, opened from disk.
import path from "node:path";
import { pathToFileURL } from "node:url";
import { ANSWERS } from "./answers.mjs";
import { check, contains, finish, same } from "./checks.mjs";
import { openPage } from "./chromium.mjs";
import { put, text } from "./source.mjs";

const url = pathToFileURL(path.resolve(process.argv[2])).href;
const page = await openPage(url);
await page.ready();

async function example() {
    await page.visit(`${url}#example=hello`);
    await page.click("#run");
    await page.until(`document.getElementById("answer").textContent.includes("halted with code 0")`);
    same("hello sends its letter", await page.text("#console"), "H");
    contains("in its steps", await page.text("#where"), /step 7$/);
}

async function lesson() {
    await page.visit(`${url}?lesson#lesson=first`);
    same("a lesson has its text", await page.text("#lesson-text h2"), "A first program");
    const given = await page.run(text), answer = ANSWERS.first.reduce((all, [old, new_]) => all.replace(old, new_), given);
    await page.run(put(answer));
    await page.click("#lesson-check");
    await page.until(`document.querySelectorAll("#lesson-results li").length > 0`);
    const results = `[...document.querySelectorAll("#lesson-results li")].map((it) => it.className).join()`;
    same("and is done with an answer", await page.run(results), "holds,holds");
}

for (const part of [example, lesson]) await part().catch((error) => check(part.name, false, error.message));
same("without an error", page.errors.join("\n"), "");
await page.close();
finish();
