// node web/tests/pictures.mjs FOLDER: writes pictures of the page to a folder, at four widths, light and dark: a program
// that has stopped at a breakpoint, and a lesson. Four of them stand in docs/pictures, with fewer colours.
import { fileURLToPath } from "node:url";
import { openPage } from "./chromium.mjs";
import { clickLine } from "./source.mjs";

const folder = process.argv[2];
const url = `file://${fileURLToPath(new URL("../../out/web/index.html", import.meta.url))}`;
const SIZES = [[390, 844], [800, 1000], [1280, 720], [1920, 1080]];
const TABS = { 390: "memory", 800: "stack", 1280: "memory", 1920: "memory" };

const click = (id) => `document.getElementById("${id}").click()`;

// Opens an example, sets a breakpoint, runs up to it, and takes a step.
async function stop(page, width) {
    await page.visit(`${url}#example=recursion`);
    await clickLine(page, 25);
    await page.until(`document.getElementById("answer").textContent.includes("breakpoint at line 25")`);
    await page.run(click("run"));
    await page.until(`document.getElementById("answer").textContent.includes("breakpoint after")`);
    await page.run(click("step"));
    await page.until(`document.getElementById("answer").textContent.startsWith("step")`);
    await page.run(`{
        document.getElementById("memory-where").value = "sp";
        document.getElementById("memory-where").dispatchEvent(new Event("change"));
    }`);
    await page.run(click(`tab-${TABS[width]}`));
    await page.until(`document.querySelector("#panel-${TABS[width]} tbody tr")`);
}

async function lesson(page) {
    await page.visit(`${url}?lesson#lesson=loop`);
    await page.run(click("lesson-check"));
    await page.until(`document.querySelector("#lesson-results li")`);
}

for (const [width, height] of SIZES) {
    for (const theme of ["light", "dark"]) {
        const page = await openPage(url, { width, height, dark: theme === "dark" });
        await page.ready();
        await stop(page, width);
        await new Promise((done) => setTimeout(done, 300));
        await page.picture(`${folder}/page-${width}-${theme}.png`);
        await lesson(page);
        await page.picture(`${folder}/lesson-${width}-${theme}.png`);
        await page.close();
    }
}
