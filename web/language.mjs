// The colours of the language, for the editor and as HTML, and the labels of a source.

const REGISTER = /^(?:zero|ra|sp|gp|tp|fp|[tsa]\d+|x\d+)$/;
/** @type {[string, RegExp][]} */
const KINDS = [
    ["comment", /(?:#|\/\/).*/],
    ["string", /"(?:[^"\\]|\\.)*"?|'(?:[^'\\]|\\.)*'?/],
    ["label", /(?:[A-Za-z_.$][\w.$]*|0|[1-9]\d{0,3})[ \t]*:/],
    ["directive", /\.[A-Za-z]\w*/],
    ["word", /[A-Za-z_$][\w.$]*/],
    ["number", /-?(?:0[xX][0-9a-fA-F]+|0b[01]+|\d+[bf]?)/],
];
const TOKEN = new RegExp(KINDS.map(([kind, pattern]) => `(?<${kind}>${pattern.source})`).join("|"), "g");
const LABEL = new RegExp(/^[ \t]*/.source + Object.fromEntries(KINDS).label.source);
const COLOURED = 2000; // characters of a line
/** @type {Record<string, string>} */
const ENTITIES = { "&": "&amp;", "<": "&lt;", ">": "&gt;" };

export const escaped = (/** @type {string} */ text) => text.replace(/[&<>]/g, (it) => ENTITIES[it]);

/**
 * The first word of a line is its mnemonic, the others are registers or names.
 * @param {string} word
 * @param {boolean} isFirst
 */
function kindOfWord(word, isFirst) {
    if (isFirst) return "mnemonic";
    return REGISTER.test(word) ? "register" : "name";
}

/**
 * What stands in a line from a place on: its kind, and its text, which has none of blanks and signs.
 * @param {string} line
 * @param {number} at
 * @param {boolean} isFirst whether no word stands before it but labels
 */
function tokenAt(line, at, isFirst) {
    TOKEN.lastIndex = at;
    const found = TOKEN.exec(line);
    if (!found || found.index > at) return { kind: "", text: line.slice(at, found?.index) };
    const [kind] = Object.entries(found.groups ?? {}).find(([, part]) => part !== undefined) ?? [""];
    return { kind: kind === "word" ? kindOfWord(found[0], isFirst) : kind, text: found[0] };
}

/** How the editor reads the language: each line by itself, and of a long one the beginning. */
export function assembly() {
    const startState = () => ({ isFirst: true });
    /**
     * @param {{ string: string, pos: number, sol: () => boolean }} stream
     * @param {{ isFirst: boolean }} state
     */
    function token(stream, state) {
        if (stream.sol()) state.isFirst = true;
        if (stream.pos > COLOURED) {
            stream.pos = stream.string.length;
            return null;
        }
        const { kind, text } = tokenAt(stream.string, stream.pos, state.isFirst);
        if (kind && kind !== "label") state.isFirst = false;
        stream.pos += text.length;
        return kind || null;
    }
    return { startState, token, lineComment: "#" };
}

/**
 * A line as HTML. What comes after so many characters that nobody reads it has no colours.
 * @param {string} line
 */
export function colourLine(line) {
    const end = Math.min(line.length, COLOURED);
    let html = "", isFirst = true;
    for (let at = 0, text = ""; at < end; at += text.length) {
        const token = tokenAt(line.slice(0, end), at, isFirst), { kind } = token;
        text = token.text;
        if (kind && kind !== "label") isFirst = false;
        html += kind ? `<span class="cm-${kind}">${escaped(text)}</span>` : escaped(text);
    }
    return html + escaped(line.slice(end));
}

/**
 * The labels of a line that have names.
 * @param {string} line
 */
function labelsOfLine(line) {
    const names = [];
    for (let rest = line, found; (found = rest.match(LABEL)); rest = rest.slice(found[0].length)) {
        names.push(found[0].slice(0, -1).trim());
    }
    return names.filter((name) => !/^\d/.test(name));
}

/**
 * The names in some lines, `most` at most, by what gives those of a line.
 * @param {string[]} lines
 * @param {number} most
 * @param {(line: string) => string[]} namesOfLine
 */
function collect(lines, most, namesOfLine) {
    /** @type {Set<string>} */
    const names = new Set();
    for (const line of lines) {
        for (const name of namesOfLine(line)) names.add(name);
        if (names.size >= most) break;
    }
    return [...names].slice(0, most);
}

/**
 * The names of the labels of a source, `most` at most.
 * @param {string} source
 * @param {number} most
 */
export const labelsOf = (source, most) => collect(source.split("\n"), most, labelsOfLine);

const CONSTANT = /^[ \t]*\.(?:equ|set)[ \t]+([A-Za-z_$][\w.$]*)/;

/**
 * The names of the labels and constants of some lines, `most` at most.
 * @param {string[]} lines
 * @param {number} most
 */
export function namesOf(lines, most) {
    return collect(lines, most, (line) => [...labelsOfLine(line), ...(line.match(CONSTANT)?.slice(1) ?? [])]);
}
