// The search in the source: Control+F in it, Enter for the next place, Shift and Enter for the one before, Escape to end.
import { $, field } from "./dom.mjs";
import { editor } from "./editor.mjs";

const LISTED_PLACES = 10000; // that are counted

/**
 * The places of a text in another one, whatever the case.
 * @param {string} all
 * @param {string} text
 */
export function placesOf(all, text) {
    const places = [], lower = all.toLowerCase(), wanted = text.toLowerCase();
    for (let at = lower.indexOf(wanted); wanted && at >= 0 && places.length < LISTED_PLACES; ) {
        places.push(at);
        at = lower.indexOf(wanted, at + wanted.length);
    }
    return places;
}

/**
 * Goes to the next place from one on, or to the one before it, and tells which one it is.
 * @param {number} from
 */
function findFrom(from, isBack = false) {
    const text = field("find-text").value, places = placesOf(editor.source, text);
    editor.find(text);
    $("find-count").textContent = text && !places.length ? "not found" : "";
    if (!places.length) return;
    const next = places.findIndex((at) => at >= from), before = (next < 0 ? places.length : next) - 1;
    const index = isBack ? (before + places.length) % places.length : Math.max(0, next);
    editor.select(places[index], places[index] + text.length);
    $("find-count").textContent = `${index + 1} of ${places.length}`;
}

const findNext = () => findFrom(editor.selection.to);
const findBack = () => findFrom(editor.selection.from, true);

function openFinder() {
    const { from, text } = editor.selection;
    $("finder").hidden = false;
    if (text && !text.includes("\n")) field("find-text").value = text;
    field("find-text").select();
    findFrom(from);
}

function closeFinder() {
    $("finder").hidden = true;
    editor.find("");
    editor.cm.focus();
}

export function makeFinder() {
    $("find").addEventListener("click", openFinder);
    $("find-next").addEventListener("click", findNext);
    $("find-back").addEventListener("click", findBack);
    $("find-close").addEventListener("click", closeFinder);
    $("find-text").addEventListener("input", () => findFrom(editor.selection.from));
    $("finder").addEventListener("keydown", (event) => {
        if (event.key === "Escape") closeFinder();
        if (event.key !== "Enter" || event.target !== $("find-text")) return;
        event.preventDefault();
        if (event.shiftKey) findBack();
        else findNext();
    });
    editor.cm.addKeyMap({ "Ctrl-F": openFinder, "Cmd-F": openFinder });
}
