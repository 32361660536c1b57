// Examples, files that are opened and saved, links, and what is restored when the page is opened again.
import { agrees, showLink } from "./dialogs.mjs";
import { $, field } from "./dom.mjs";
import { Kept } from "./kept.mjs";
import { asShown, decodeAll, encode, standIns, withEndsOf } from "./lines.mjs";
import { addressOf, isEmbedded, isFramed, isSandboxed, linkedName, setAddress } from "./links.mjs";
import { download, readFragment, writeFragment } from "./links.mjs";
import { linkedLesson, openLesson } from "./lessons.mjs";
import { say, sayMore } from "./said.mjs";
import { change } from "./state.mjs";

/** @type {Record<string, Example>} */
const EXAMPLES = JSON.parse($("examples").textContent ?? "{}");
const NAME = "program.s"; // of a source that has none
const LARGEST = 16777216; // bytes of a source that rvboard reads

const isLesson = (/** @type {string} */ name) => name.startsWith("lab/");

/**
 * @param {string} title
 * @param {string[]} names
 */
function groupHtml(title, names) {
    return `<optgroup label="${title}">${names.map((name) => `<option>${name}</option>`).join("")}</optgroup>`;
}

export class Files {
    kept = new Kept();
    name = NAME; // of the file
    file = ""; // its text
    /** @type {{ source?: string, inputs?: string }} */
    saved = { source: "", inputs: "" }; // the texts as they are kept elsewhere

    /**
     * `texts` tells what is typed in the page, and `state` what a link of it holds; `load` puts a state there, and
     * returns whether it did.
     * @param {{ texts: () => Program, state: () => Program, load: (program: Program) => Promise<boolean> }} page
     */
    constructor({ texts, state, load }) {
        this.texts = texts;
        this.state = state;
        this.load = load;
    }

    listen() {
        const names = Object.keys(EXAMPLES);
        const lessons = groupHtml("Lessons: find the fault", names.filter(isLesson));
        $("example").innerHTML = groupHtml("Examples", names.filter((name) => !isLesson(name))) + lessons;
        const onceMay = (/** @type {() => unknown} */ act) => async () => (await this.mayReplace()) && act();
        $("load").addEventListener("click", onceMay(() => this.example(field("example").value)));
        $("open").addEventListener("click", onceMay(() => $("file").click()));
        $("file").addEventListener("change", () => this.read());
        $("save").addEventListener("click", () => this.save());
        $("link").addEventListener("click", () => this.copyLink());
        addEventListener("hashchange", onceMay(() => this.loadLink()));
        addEventListener("pagehide", () => this.keep());
        addEventListener("beforeunload", (event) => {
            if (!this.keep() && this.isEdited()) event.preventDefault(); // the browser asks
        });
    }

    /**
     * Notes what the page has: its texts as they are kept elsewhere, its name, and the file's text.
     * @param {{ source?: string, inputs?: string }} texts
     * @param {{ name?: string, file?: string }} names
     */
    note({ source, inputs }, { name = NAME, file = source ?? "" } = {}) {
        Object.assign(this, { saved: { source, inputs }, name, file });
    }

    /** Whether something is typed that is kept nowhere else. */
    isEdited() {
        const { source, inputs } = this.texts();
        return source !== this.saved.source || inputs !== this.saved.inputs;
    }

    /** Keeps what is typed for when the page is opened again; returns whether there was room. */
    keep() {
        const texts = this.texts(), { name, file } = this, edited = this.isEdited();
        const ends = file.includes("\r") ? { file } : {}; // the line ends that no text area has
        return this.kept.write({ ...texts, name, edited, link: location.hash, ...ends });
    }

    /** Whether the source may be replaced: it is kept elsewhere, or the user agrees. */
    async mayReplace() {
        const isSaved = this.texts().source === this.saved.source;
        return isSaved || agrees("The source has changes that aren't saved. Replace it?");
    }

    /**
     * Puts a state into the page.
     * @param {Program} state
     * @param {{ name?: string, file?: string }} [names]
     */
    async put(state, names) {
        if (!(await this.load(state))) return false;
        change({ lesson: null });
        this.note(state, names);
        this.keep();
        return true;
    }

    /**
     * Puts a state into the page that is none of its link.
     * @param {Program} state
     * @param {{ name?: string, file?: string }} [names]
     */
    async putOwn(state, names) {
        if (await this.put(state, names)) setAddress(location.href.split("#")[0]);
    }

    /** @param {string} name */
    example(name, isLinked = false) {
        const names = { name: `${name.split("/").pop()}.s` };
        field("example").value = name;
        return isLinked ? this.put(EXAMPLES[name], names) : this.putOwn(EXAMPLES[name], names);
    }

    /** Reads the file that was chosen. */
    async read() {
        const [file] = field("file").files ?? [];
        field("file").value = "";
        if (!file) return;
        if (file.size > LARGEST) return say(`${file.name} has ${file.size} bytes: rvboard reads at most ${LARGEST}.`);
        const text = decodeAll(new Uint8Array(await file.arrayBuffer())), source = asShown(text);
        await this.putOwn({ source, inputs: "" }, { name: file.name, file: text });
        const { count, line, column } = standIns(source);
        if (!count) return;
        const what = `no text, the first in line ${line}, column ${column}`;
        sayMore(`Bytes that are ${what}: ${count}. They are shown as marks, and run and saved as they are.`);
    }

    save() {
        const { source } = this.texts();
        this.file = withEndsOf(source, this.file);
        if (!isSandboxed()) this.saved.source = source;
        download(this.name, encode(this.file));
        this.keep();
        const provided = isSandboxed() ? ", if the page round this one lets it save files" : "";
        say(`Saved as ${this.name}, where the browser puts files${provided}.`);
    }

    /** Copies a link of what is in the page. It stands in the address bar, or is shown where a frame has none. */
    async copyLink() {
        const link = addressOf(await writeFragment(this.state()));
        if (!isFramed()) setAddress(link);
        const copied = await navigator.clipboard?.writeText(link).then(() => true, () => false);
        const places = [copied && "copied", isFramed() ? "shown" : "in the address bar"].filter(Boolean);
        const what = "it holds the source, the inputs, the breakpoints and the size of memory.";
        say(`The link is ${places.join(", and ")}: ${what}`);
        if (isFramed()) showLink(link, `The link, which opens in a tab of its own: ${what}`);
    }

    /** Loads what the page's link holds or names, or an example. */
    async loadLink() {
        const fragment = location.hash.slice(1), name = linkedName(fragment, "example"), lesson = linkedLesson();
        if (lesson !== undefined) return this.loadLesson(lesson);
        if (name !== undefined && Object.hasOwn(EXAMPLES, name)) return this.example(name, true);
        const linked = fragment && name === undefined ? await readFragment(fragment).catch(() => null) : null;
        await (linked ? this.put(linked) : this.example("hello"));
        if (linked?.unset) sayMore(`Of its breakpoints ${linked.unset} are left out.`);
        if (name !== undefined) say(`The link names an example that there isn't: ${name}.`);
        else if (fragment && !linked) say("The link holds no program that can be read.");
    }

    /**
     * Opens the lesson of a link, or an example.
     * @param {string} lesson
     */
    async loadLesson(lesson) {
        const why = await openLesson(lesson);
        if (!why) return;
        await this.example("hello", true);
        say(why);
    }

    /**
     * Puts the program of a lesson into the page, whose address then is the lesson's link.
     * @param {Program} program
     * @param {string} name
     * @param {string} fragment
     */
    async putLesson(program, name, fragment) {
        const isPut = await this.put(program, { name: `${name.length < 40 ? name : "lesson"}.s` });
        if (isPut && !isEmbedded()) setAddress(`${location.href.split("#")[0]}#${fragment}`);
        if (isPut) this.keep();
        return isPut;
    }

    /** Loads what was typed when the page was left, or what its link holds, or an example. */
    async begin() {
        const entry = await this.kept.open(location.hash, isEmbedded());
        if (!entry) return this.loadLink();
        const { name, source, file = source } = entry;
        this.note(entry.edited ? {} : entry, { name, file });
        const lesson = linkedLesson();
        if (lesson !== undefined) await openLesson(lesson, true);
        await this.load(entry);
        const where = entry.closed ? "a tab that was closed" : "this tab";
        if (entry.edited) sayMore(`Restored: ${name} as it was typed in ${where}, and not saved.`);
        this.keep();
    }
}
