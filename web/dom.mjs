// The elements of the page by their ids.

/** @param {string} id */
export const $ = (id) => /** @type {HTMLElement} */ (document.getElementById(id));

/** @param {string} id */
export const field = (id) => /** @type {HTMLInputElement} */ ($(id));

/** @param {string} id */
export const dialog = (id) => /** @type {HTMLDialogElement} */ ($(id));

/**
 * The nearest element of a kind at or round the place of an event.
 * @param {Event} event
 * @param {string} kind
 */
export function targetOf({ target }, kind) {
    return target instanceof Element ? /** @type {HTMLElement | null} */ (target.closest(kind)) : null;
}

export const isAsking = () => document.querySelector("dialog[open]") !== null;
