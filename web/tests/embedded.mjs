// node web/tests/embedded.mjs: the page in a frame of another page that lets it run scripts alone, links that name an
// example, and what the page's policy lets it do. The page is served, so that what is asked of the server is seen.
import fs from "node:fs";
import http from "node:http";
import { fileURLToPath } from "node:url";
import { check, contains, finish, same } from "./checks.mjs";
import { openPage } from "./chromium.mjs";
import { put, text } from "./source.mjs";

const top = fileURLToPath(new URL("../..", import.meta.url));
const sourceOf = (name) => fs.readFileSync(`${top}/examples/${name}.s`, "utf8");
const HOST = `<!DOCTYPE html><title>A course</title><link rel="icon" href="data:,">
<iframe sandbox="allow-scripts" src="/index.html?embed#example=lab/task" width="900" height="600"></iframe>`;

const frame = (name) => `<iframe src="/index.html?embed#example=${name}"></iframe>`;
const TWO = `<!DOCTYPE html><title>A page</title><link rel="icon" href="data:,">${frame("hello")}${frame("timer")}`;

const asked = []; // of the server
const server = http.createServer(({ url }, response) => {
    asked.push(url);
    const text = { "/host.html": () => HOST, "/two.html": () => TWO, "/index.html": () => fs.readFileSync(`${top}/out/web/index.html`) };
    const found = text[url.split("?")[0]];
    response.writeHead(found ? 200 : 404, { "Content-Type": "text/html" });
    response.end(found?.());
});
await new Promise((done) => server.listen(0, "127.0.0.1", done));
const site = `http://127.0.0.1:${server.address().port}`;

const answer = `document.getElementById("answer").textContent`;
const ready = `document.body.dataset.ready === "yes"`;
const click = (id) => `document.getElementById("${id}").click()`;

const page = await openPage(`${site}/host.html`);
const run = (expression) => page.runInFrame(expression);
const until = (expression) => page.until(expression, 1, run);

async function framed() {
    await until(ready);
    same("a frame loads the example that its link names", await run(text), sourceOf("lab/task"));
    const all = `[...document.querySelectorAll("h1, #example, #open, #link")]`;
    const shown = await run(`${all}.filter((it) => it.checkVisibility()).map((it) => it.id)`);
    same("and leaves out what leads to others", shown, "link");
}

async function question() {
    await run(put("# mine\n        nop\n"));
    await run(`document.getElementById("example").value = "hello"`);
    await run(click("load"));
    await until(`document.getElementById("question")?.open`);
    const asks = await run(`document.getElementById("question").textContent`);
    contains("what isn't saved is asked for in the frame", asks, /aren't saved/);
    await run(`document.dispatchEvent(new KeyboardEvent("keydown", { key: "a", code: "KeyA", altKey: true }))`);
    await run(click("refuse"));
    same("and kept", await run(text), "# mine\n        nop\n");
    check("keys of controls wait for the answer", !(await run(answer)).includes("Assembled: 2 lines"));
    await run(click("load"));
    await run(click("agree"));
    await until(`${text} === ${JSON.stringify(sourceOf("hello"))}`);
    check("or replaced", true);
}

async function forms() {
    await until(`${answer}.includes("Assembled")`);
    await run(`document.getElementById("ask-line").value = "s 2"`);
    await run(`document.querySelector("#ask button").click()`);
    await until(`/step 2$/.test(document.getElementById("where").textContent)`);
    await run(`document.getElementById("ask-line").value = "u 1"`);
    await run(`document.getElementById("ask-line").dispatchEvent(
        new KeyboardEvent("keydown", { key: "Enter", bubbles: true, cancelable: true }))`);
    await until(`/step 1$/.test(document.getElementById("where").textContent)`);
    check("a command is done in a frame, by its button and by Enter", true);
}

async function shownLink() {
    await run(put("# in a frame\n"));
    await run(click("link"));
    await until(`document.getElementById("shown-link")?.open`);
    const link = await run(`document.getElementById("link-shown").value`);
    await run(click("link-close"));
    check("a frame shows the link", link.startsWith(`${site}/index.html#`), link);
    await page.visit(link);
    same("and it opens in a tab of its own", await page.run(text), "# in a frame\n");
}

// Two frames of one page, whose tab has one session.
async function besides() {
    const isReady = `[0, 1].every((it) => frames[it].document.body.dataset.ready === "yes")`;
    await page.call("Page.navigate", { url: `${site}/two.html` });
    await page.until(isReady);
    await page.run(`frames[0].${put("# one\n").replaceAll(" document.", " frames[0].document.")}`);
    await page.until(`Object.values(localStorage).some((it) => it.includes("# one"))`);
    await page.run("window.isOld = true");
    await page.call("Page.reload");
    await page.until(`!window.isOld && ${isReady}`);
    const texts = await page.run(`[0, 1].map((it) => frames[it].${text}).join()`);
    same("each of two frames keeps its own text", texts, `# one\n,${sourceOf("timer")}`);
}

async function named() {
    await page.visit(`${site}/index.html#example=lab/timer`);
    same("a link names an example", await page.run(text), sourceOf("lab/timer"));
    same("which is chosen in the list", await page.run(`document.getElementById("example").value`), "lab/timer");
    same("the link stays in the address bar", await page.run("location.hash"), "#example=lab/timer");
    await page.run(`location.hash = "example=hello"`);
    await page.until(`${text} === ${JSON.stringify(sourceOf("hello"))}`);
    check("another one is heeded", true);
    await page.visit(`${site}/index.html?embed#lesson=loop`);
    const lesson = `document.getElementById("lesson").checkVisibility()`;
    const button = `document.getElementById("lessons").checkVisibility()`;
    same("a frame may have a lesson, without the way to others", await page.run(`[${lesson}, ${button}]`), "true,false");
    for (const name of ["nowhere", "constructor", "%zz"]) {
        await page.visit(`${site}/index.html#example=${name}`);
        contains(`${name} is told as none`, await page.run(answer), /names an example that there isn't/);
    }
}

// What a script does that comes from elsewhere.
const INJECTED = `(async () => {
    const script = document.createElement("script");
    script.textContent = "window.isRun = true";
    document.body.append(script);
    const odd = '<p id="odd" style="color: red" onclick="window.isRun = true">odd</p>';
    document.body.insertAdjacentHTML("beforeend", odd);
    document.getElementById("odd").click();
    const colour = getComputedStyle(document.getElementById("odd")).color;
    const fetched = await fetch("/host.html").then(() => "fetched", () => "refused");
    const image = await new Promise((done) => {
        const it = new Image();
        it.onload = it.onerror = ({ type }) => done(type);
        it.src = "/picture.png";
    });
    document.getElementById("odd").remove();
    return [window.isRun ?? "not run", colour === "rgb(255, 0, 0)" ? "red" : "plain", fetched, image].join();
})()`;

async function policy() {
    const heed = `document.addEventListener("securitypolicyviolation", ({ violatedDirective: it }) => {
        (window.refused ??= []).push(it);
    })`;
    await page.call("Page.addScriptToEvaluateOnNewDocument", { source: heed });
    await page.visit(`${site}/index.html?x#example=hello`);
    await page.run(click("run"));
    await page.until(`${answer}.includes("halted with code 0")`);
    same("the page does nothing that its policy refuses", await page.run("window.refused ?? ''"), "");
    same("and lets nothing from elsewhere run or be fetched", await page.run(INJECTED), "not run,plain,refused,error");
    check("not even a picture", !asked.includes("/picture.png"));
    const others = asked.filter((url) => !/^\/(index|host|two)\.html/.test(url));
    same("the server is asked for the page alone", others.join(), "");
    check("with an icon in it", await page.run(`document.querySelector("link[rel=icon]")?.href === "data:,"`));
}

for (const part of [framed, question, forms, shownLink, besides, named, policy]) {
    await part().catch((error) => check(part.name, false, error.message));
}
same("the page has no error", page.errors.join("\n"), "");
await page.close();
server.close();
finish();
