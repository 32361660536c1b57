// A lesson: its text, a program to complete, and what a check asks of a run of that. It is a file of web/lessons, or
// the text of one in a link.

/**
 * The value of a check: a number, or the address of a name.
 * @typedef {number | string} Value
 */

/**
 * What is asked of the run of a program.
 * @typedef {object} Check
 * @property {"halts" | "sends" | "register" | "memory" | "trap" | "no trap" | "steps"} kind
 * @property {string} line as it stands in the lesson
 * @property {string} [where] of a register or memory
 * @property {Value} [value]
 */

/** @typedef {{ title: string, text: string[], program: string, inputs: string, checks: Check[] }} Lesson */

const PART = /^== (program|inputs|check)$/m;
/** @type {[Check["kind"], RegExp][]} */
const CHECKS = [
    ["halts", /^halts (?<value>\d+)$/],
    ["sends", /^sends (?<value>".*")$/],
    ["register", /^register (?<where>\w+) = (?<value>\S+)$/],
    ["memory", /^memory (?<where>\S+) = (?<value>\S+)$/],
    ["trap", /^trap (?<value>\d+)$/],
    ["no trap", /^no trap$/],
    ["steps", /^steps (?<value>\d+)$/],
];

/**
 * @param {string} line
 * @returns {Check}
 */
function readCheck(line) {
    for (const [kind, pattern] of CHECKS) {
        const groups = line.match(pattern)?.groups, found = pattern.test(line);
        if (!found) continue;
        const text = groups?.value, isNumber = text !== undefined && /^-?(0x[\da-f]+|\d+)$/i.test(text);
        const number = isNumber ? Number(text.replace("-", "")) * (text.startsWith("-") ? -1 : 1) : text;
        return { kind, line, where: groups?.where, value: kind === "sends" ? JSON.parse(text ?? '""') : number };
    }
    throw new Error(`this is no check: ${line}`);
}

const linesOf = (/** @type {string} */ text) => text.split("\n").map((it) => it.trim()).filter(Boolean);

/**
 * Reads a lesson, or throws why it is none.
 * @param {string} text
 * @returns {Lesson}
 */
export function readLesson(text) {
    const [head, ...rest] = text.replaceAll("\r\n", "\n").split(PART);
    const parts = Object.fromEntries(rest.flatMap((it, i) => (i % 2 ? [] : [[it, rest[i + 1].slice(1)]])));
    const title = head.match(/^title: (.*)/)?.[1];
    if (!title) throw new Error("a lesson begins with a line `title: ..`");
    if (parts.program === undefined || parts.check === undefined) throw new Error("a lesson has a program and a check");
    const paragraphs = head.slice(head.indexOf("\n") + 1).split(/\n\s*\n/).map((it) => it.trim()).filter(Boolean);
    const program = `${parts.program.trimEnd()}\n`;
    return { title, text: paragraphs, program, inputs: parts.inputs ?? "", checks: linesOf(parts.check).map(readCheck) };
}

/** @typedef {{ halted: number | null, steps: number, console: string, registers: Register[], traps: Trap[] }} Run */

/** @param {number | undefined} word */
const wordText = (word) => (word === undefined ? "nothing" : `${word | 0} (0x${word.toString(16)})`);

/**
 * How a check came out: whether it holds, and what there is instead. `valueOf` gives the value of a name, and the word
 * of memory at a place.
 * @param {Check} check
 * @param {Run} run
 * @param {{ names: Map<string, number>, words: Map<string, number> }} found
 */
export function judge({ kind, where = "", value = 0 }, run, { names, words }) {
    const wanted = typeof value === "number" ? value >>> 0 : names.get(value);
    const register = run.registers.find(({ name }) => name === where)?.value, word = words.get(where);
    const causes = run.traps.map(({ cause }) => cause), last = causes.length ? `trap ${causes[causes.length - 1]}` : "no trap";
    switch (kind) {
        case "halts":
            return { holds: run.halted === wanted, found: run.halted === null ? "no halt" : `code ${run.halted}` };
        case "sends":
            return { holds: run.console === value, found: JSON.stringify(run.console) };
        case "register":
            return { holds: wanted !== undefined && register === wanted, found: wordText(register) };
        case "memory":
            return { holds: wanted !== undefined && word === wanted, found: wordText(word) };
        case "trap":
            return { holds: causes.includes(Number(value)), found: last };
        case "no trap":
            return { holds: !causes.length, found: last };
        default:
            return { holds: run.steps <= Number(value), found: `${run.steps} steps` };
    }
}
