// What is chosen of the page's looks is remembered, where the browser lets the page keep something.
const LOOKS = "rvboard.looks";

/** @returns {Record<string, unknown>} */
function readLooks() {
    try {
        return JSON.parse(localStorage.getItem(LOOKS) ?? "{}");
    } catch {
        return {};
    }
}

/** @param {string} name */
export const recall = (name) => readLooks()[name];

/**
 * @param {string} name
 * @param {unknown} value
 */
export function remember(name, value) {
    try {
        localStorage.setItem(LOOKS, JSON.stringify({ ...readLooks(), [name]: value }));
    } catch {
        // it holds for as long as the page is open
    }
}
