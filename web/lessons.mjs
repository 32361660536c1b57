// The path of lessons: a panel with a text, a program to complete, and a check by a lab of its own.
import { $, field } from "./dom.mjs";
import { examine } from "./lab.mjs";
import { escaped } from "./language.mjs";
import { judge, readLesson } from "./lesson.mjs";
import { linkedName, readValue } from "./links.mjs";
import { recall, remember } from "./remembered.mjs";
import { say } from "./said.mjs";
import { change, state, view } from "./state.mjs";
import { fail } from "./work.mjs";

/** @type {Record<string, string>} */
const LESSONS = JSON.parse($("lessons-data").textContent ?? "{}");
const LESSON_NAMES = Object.keys(LESSONS);

/** @type {() => Program} */
let texts; // tells what is typed
/** @type {(program: Program, name: string, link: string) => Promise<boolean>} */
let put; // puts a program into the page

/** @param {string} name */
const nextOf = (name) => LESSON_NAMES[LESSON_NAMES.indexOf(name) + 1];

const doneLessons = () => /** @type {string[]} */ (recall("lessons") ?? []);

/** @param {string} text */
function paragraphHtml(text) {
    const withCode = escaped(text).replace(/`([^`]*)`/g, "<code>$1</code>");
    return `<p>${withCode.replace(/\*\*([^*]*)\*\*/g, "<b>$1</b>").replace(/\*([^*]*)\*/g, "<i>$1</i>")}</p>`;
}

/** @param {CheckResult} result */
const resultHtml = ({ line, holds, found }) =>
    `<li class="${holds ? "holds" : "fails"}"><span aria-hidden="true">${holds ? "✓" : "✗"}</span>
    <span class="unseen">${holds ? "done" : "not yet"}</span> <code>${escaped(line)}</code>
    ${holds ? "" : `<span class="hint">there is: ${escaped(found)}</span>`}</li>`;

/** @param {CheckResult} result */
const resultText = ({ line, holds, found }) => (holds ? `✓ ${line}` : `✗ ${line} (there is: ${found})`);

/** @param {State["lesson"]} open */
function showLesson(open) {
    $("lesson").hidden = !open;
    if (!open) return;
    const { name, lesson, results } = open, done = doneLessons();
    const titles = LESSON_NAMES.map((it, i) => {
        const title = `${i + 1}. ${readLesson(LESSONS[it]).title}${done.includes(it) ? " ✓" : ""}`;
        return `<option value="${it}">${escaped(title)}</option>`;
    });
    const own = LESSON_NAMES.includes(name) ? "" : `<option value="${escaped(name)}">${escaped(lesson.title)}</option>`;
    $("lesson-choice").innerHTML = own + titles.join("");
    field("lesson-choice").value = name;
    $("lesson-text").innerHTML = `<h2>${escaped(lesson.title)}</h2>${lesson.text.map(paragraphHtml).join("")}`;
    $("lesson-results").innerHTML = (results ?? []).map(resultHtml).join("");
    $("lesson-next").hidden = !nextOf(name) || !results?.every(({ holds }) => holds);
}

/**
 * The lesson that a name or a link means: its name, and its text.
 * @param {string} name
 */
async function textOfLesson(name) {
    if (Object.hasOwn(LESSONS, name)) return LESSONS[name];
    const text = await readValue(name);
    if (typeof text !== "string") throw new Error("it is no text");
    return text;
}

/**
 * Opens the lesson of a name, or of a link that holds one; its program replaces what is typed, unless that is kept.
 * Returns why it can't.
 * @param {string} name
 */
export async function openLesson(name, keepsText = false) {
    try {
        const lesson = readLesson(await textOfLesson(name));
        const { program: source, inputs } = lesson;
        const isThere = keepsText || (await put({ source, inputs }, name, `lesson=${name}`));
        if (isThere) change({ lesson: { name, lesson, results: null } });
        return "";
    } catch (error) {
        return `The link holds no lesson: ${error instanceof Error ? error.message : error}.`;
    }
}

/** Runs what is typed in a lab of its own, and says what is done of the lesson. */
async function checkLesson() {
    const open = state.lesson;
    if (!open) return;
    const { name, lesson } = open, { checks } = lesson;
    const places = checks.flatMap(({ kind, where }) => (kind === "memory" && where ? [where] : []));
    const values = checks.flatMap(({ kind, value }) => (kind !== "sends" && typeof value === "string" ? [value] : []));
    const { faults, run, names, words } = await examine(texts(), values, places);
    if (state.lesson !== open) return;
    if (!run) return say(`The source is refused: ${faults[0].sentence}`);
    const results = checks.map((check) => ({ line: check.line, ...judge(check, run, { names, words }) }));
    const left = results.filter(({ holds }) => !holds).length;
    if (!left) remember("lessons", [...new Set([...doneLessons(), name])]);
    change({ lesson: { ...open, results } });
    const all = `Not yet: ${left} of ${results.length} aren't as the lesson asks.`;
    say([left ? all : "Done: all is as the lesson asks.", ...results.map(resultText)].join("\n"));
}

/**
 * Begins the lessons: `readProgram` tells what is typed, `putProgram` puts a program into the page, and `mayReplace`
 * asks where something would be lost.
 * @param {{ readProgram: () => Program, putProgram: typeof put, mayReplace: () => Promise<boolean> }} page
 */
export function makeLessons({ readProgram, putProgram, mayReplace }) {
    [texts, put] = [readProgram, putProgram];
    const openOnce = async (/** @type {string} */ name) => {
        if (!(await mayReplace())) return showLesson(state.lesson);
        const why = await openLesson(name);
        if (why) say(why);
    };
    $("lessons").addEventListener("click", () => {
        if (state.lesson) return change({ lesson: null });
        openOnce(LESSON_NAMES.find((it) => !doneLessons().includes(it)) ?? LESSON_NAMES[0]);
    });
    $("lesson-choice").addEventListener("change", () => openOnce(field("lesson-choice").value));
    $("lesson-check").addEventListener("click", () => checkLesson().catch(fail));
    $("lesson-again").addEventListener("click", () => state.lesson && openOnce(state.lesson.name));
    $("lesson-next").addEventListener("click", () => openOnce(nextOf(state.lesson?.name ?? "")));
    $("lesson-close").addEventListener("click", () => change({ lesson: null }));
    view(({ lesson }) => [lesson], showLesson);
    view(({ lesson }) => [lesson !== null], (is) => $("lessons").setAttribute("aria-expanded", String(is)));
}

/** What the page's address asks for as a lesson, or nothing. */
export const linkedLesson = () => linkedName(location.hash.slice(1), "lesson");
