// The tabs of the views of the board. What the open one shows is a question with a number, so that an answer that comes
// late is known as one.
import { $ } from "./dom.mjs";
import { PANELS } from "./panels.mjs";

const NAMES = Object.keys(PANELS);

class Tabs {
    name = NAMES[0]; // of the open one
    number = 0; // of the question that is asked now
    shown = 0; // the number of the question whose answer is shown
    onChange = () => {}; // is called when something else is to be shown

    /** Asks another question. */
    changed() {
        this.number++;
        this.onChange();
    }

    /** @param {string} name */
    open(name, takesFocus = false) {
        this.name = name;
        for (const it of NAMES) {
            $(`tab-${it}`).setAttribute("aria-selected", String(it === name));
            $(`tab-${it}`).tabIndex = it === name ? 0 : -1;
            $(`panel-${it}`).hidden = it !== name;
        }
        if (takesFocus) $(`tab-${name}`).focus();
        this.changed();
    }

    /** What the open tab asks. */
    question() {
        const { name, number } = this;
        return { name, number, ask: PANELS[name].ask };
    }

    /**
     * Whether something else was asked after a question.
     * @param {{ number: number }} question
     */
    isLate({ number }) {
        return number !== this.number;
    }

    /** Whether the open tab shows the words of the program. */
    get isListing() {
        return this.name === "listing" || this.name === "instruction";
    }

    /** Whether what is asked isn't shown yet. */
    get isWaiting() {
        return this.shown !== this.number;
    }

    /** Says that the answer comes later, or that none will. */
    wait(is = true) {
        $("panels").setAttribute("aria-busy", String(is));
    }

    /**
     * @param {{ name: string, number: number }} question
     * @param {unknown} answer
     * @param {State} state
     */
    show({ number, name }, answer, state) {
        this.shown = number;
        this.wait(false);
        PANELS[name].show($(`panel-${name}`), answer, state);
    }
}

export const tabs = new Tabs();

/** @param {string} name */
const tabHtml = (name) =>
    `<button role="tab" id="tab-${name}" aria-controls="panel-${name}">${PANELS[name].title}</button>`;

/** @param {string} name */
function panelHtml(name) {
    const words = `role="tabpanel" id="panel-${name}" aria-labelledby="tab-${name}" tabindex="0" hidden`;
    return `<div ${words}>${PANELS[name].html ?? ""}</div>`;
}

/**
 * Begins the tabs: `onChange` is called when another tab, or another part of one, is to be shown.
 * @param {() => void} onChange
 */
export function makeTabs(onChange) {
    $("tabs").innerHTML = NAMES.map(tabHtml).join("");
    $("panels").innerHTML = NAMES.map(panelHtml).join("");
    for (const name of NAMES) $(`tab-${name}`).addEventListener("click", () => tabs.open(name));
    $("tabs").addEventListener("keydown", ({ key }) => {
        const move = { ArrowRight: 1, ArrowLeft: -1 }[key];
        if (move) tabs.open(/** @type {string} */ (NAMES.at((NAMES.indexOf(tabs.name) + move) % NAMES.length)), true);
    });
    tabs.onChange = onChange;
    tabs.open(tabs.name);
}
