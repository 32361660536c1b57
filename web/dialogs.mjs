// Dialogs of the page itself: a frame may not open those of the browser.
import { $, dialog, field } from "./dom.mjs";

/** @type {(isYes: boolean) => void} */
let settle = () => {}; // gets the answer to the question that is asked

/**
 * Asks a question, and returns whether the answer was yes.
 * @param {string} question
 * @returns {Promise<boolean>}
 */
export function agrees(question) {
    give(false);
    $("question-text").textContent = question;
    dialog("question").showModal();
    return new Promise((resolve) => (settle = resolve));
}

/** @param {boolean} isYes */
function give(isYes) {
    dialog("question").close();
    settle(isYes);
}

/**
 * Shows a link with a sentence, so that it can be copied by hand.
 * @param {string} link
 * @param {string} sentence
 */
export function showLink(link, sentence) {
    $("link-text").textContent = sentence;
    field("link-shown").value = link;
    dialog("shown-link").showModal();
    field("link-shown").select();
}

export function makeDialogs() {
    $("agree").addEventListener("click", () => give(true));
    $("refuse").addEventListener("click", () => give(false));
    $("question").addEventListener("cancel", () => give(false)); // by Escape
    $("link-close").addEventListener("click", () => dialog("shown-link").close());
}
