// Files that are saved, and links that hold a state or name an example.
import { asShown, countLines } from "./lines.mjs";

const KEPT = 10000; // milliseconds for which a saved file can be fetched
const MARKS = 1000; // the most breakpoints that are taken from a link

/**
 * @param {string} name
 * @param {BlobPart} bytes
 */
export function download(name, bytes) {
    const link = document.createElement("a");
    link.href = URL.createObjectURL(new Blob([bytes], { type: "text/plain" }));
    link.download = name;
    link.click();
    setTimeout(() => URL.revokeObjectURL(link.href), KEPT);
}

// Whether the page stands in a frame, and whether in one that may do little.
export const isFramed = () => window.top !== window;
export const isSandboxed = () => isFramed() && window.origin === "null";

// Whether the page is to be a part of another one.
export const isEmbedded = () => new URLSearchParams(location.search).has("embed");

/**
 * The page's address with a fragment, for a tab of its own. A frame whose text came without an address has none.
 * @param {string} fragment
 */
export function addressOf(fragment) {
    if (!/^(https?|file):$/.test(location.protocol)) return `#${fragment}`;
    const address = new URL(location.href);
    address.searchParams.delete("embed");
    address.hash = fragment;
    return address.href;
}

/**
 * Shows an address as the page's own, where the browser lets the page do so.
 * @param {string} address
 */
export function setAddress(address) {
    try {
        history.replaceState(null, "", address);
    } catch {
        // a frame keeps the address that it has
    }
}

/**
 * What a fragment names after a word and `=`, or nothing.
 * @param {string} fragment
 * @param {string} word
 */
export function linkedName(fragment, word) {
    if (!fragment.startsWith(`${word}=`)) return undefined;
    const name = fragment.slice(word.length + 1);
    try {
        return decodeURIComponent(name);
    } catch {
        return name;
    }
}

/**
 * @param {"CompressionStream" | "DecompressionStream"} name
 * @param {Uint8Array} bytes
 */
async function through(name, bytes) {
    const stream = new (/** @type {any} */ (globalThis)[name])("deflate-raw");
    const piped = new Blob([bytes]).stream().pipeThrough(/** @type {ByteStream} */ (stream));
    return new Uint8Array(await new Response(piped).arrayBuffer());
}

/**
 * A value as a part of an address: JSON, compressed, in the alphabet of addresses.
 * @param {unknown} value
 */
export async function writeFragment(value) {
    const text = new TextEncoder().encode(JSON.stringify(value));
    const bytes = await through("CompressionStream", text);
    const all = btoa(Array.from(bytes, (byte) => String.fromCharCode(byte)).join(""));
    return all.replaceAll("+", "-").replaceAll("/", "_").replaceAll("=", "");
}

/**
 * The value of such a part.
 * @param {string} fragment
 * @returns {Promise<any>}
 */
export async function readValue(fragment) {
    const all = atob(fragment.replaceAll("-", "+").replaceAll("_", "/"));
    const bytes = Uint8Array.from(all, (it) => it.charCodeAt(0));
    return JSON.parse(new TextDecoder().decode(await through("DecompressionStream", bytes)));
}

/**
 * The program that a fragment holds, and how many of its breakpoints are left out.
 * @param {string} fragment
 */
export async function readFragment(fragment) {
    const { source, inputs = "", breakpoints = [], pages } = await readValue(fragment);
    if (typeof source !== "string") throw new Error("no source");
    const shown = asShown(source), size = Number.isInteger(pages) ? { pages } : {};
    return { source: shown, inputs: asShown(String(inputs)), ...marksOf(breakpoints, countLines(shown)), ...size };
}

/**
 * The breakpoints of a link that are at lines of the source, and how many of these are left out.
 * @param {number[]} breakpoints
 * @param {number} lines
 */
function marksOf(breakpoints, lines) {
    const marks = new Set(breakpoints.filter((line) => Number.isInteger(line) && 1 <= line && line <= lines));
    return { breakpoints: [...marks].slice(0, MARKS), unset: Math.max(0, marks.size - MARKS) };
}
