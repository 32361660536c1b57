// The map of memory: what each mode may do where, and where the last refusal was.
import { hex8, joined, table } from "./views.mjs";

// Where things are on the board (docs/BOARD.md).
export const MEMORY = 0x80000000;
/** @type {[number, number, string][]} */
const PLACES = [
    [0x00100000, 0x00100fff, "halt register"],
    [0x02000000, 0x0200ffff, "timer"],
    [0x0c000000, 0x0fffffff, "interrupt controller"],
    [0x10000000, 0x10000fff, "serial port"],
];
/** @type {Record<number, string>} */
const REFUSALS = { 1: "fetch", 5: "load", 7: "store" };

/**
 * The parts of the address space: what is there, and what each mode may do by the first entry that has bytes.
 * @param {Region[]} regions
 * @param {number} pages
 */
function partsOf(regions, pages) {
    /** @type {[number, number, string][]} */
    const places = [...PLACES, [MEMORY, MEMORY + pages * 4096 - 1, "memory"]];
    const ranges = [...places, ...regions.map(({ first, last }) => [first, last])];
    const starts = new Set([0, ...ranges.flatMap(([first, last]) => [Number(first), Number(last) + 1])]);
    const sorted = [...starts].filter((at) => at < 2 ** 32).sort((a, b) => a - b);
    return sorted.map((first, i) => {
        const last = (sorted[i + 1] ?? 2 ** 32) - 1;
        const place = places.find(([from, to]) => from <= first && first <= to)?.[2];
        const region = regions.find((it) => it.first <= first && first <= it.last);
        return { user: "---", machine: "rwx", isLocked: false, entry: -1, ...region, first, last, place };
    });
}

/** @param {string} letters */
const grants = (letters) => `<span class="grants ${letters.replaceAll("-", "") || "none"}">${letters}</span>`;

/**
 * A row for each part that has something, and where the last refusal was.
 * @param {Region[]} regions
 * @param {number} pages
 * @param {Trap[]} traps
 */
export function protectionHtml(regions, pages, traps) {
    const refused = traps.findLast(({ cause }) => cause in REFUSALS);
    const refusalIn = (/** @type {{ first: number, last: number }} */ { first, last }) =>
        refused && first <= refused.tval && refused.tval <= last ? refused : undefined;
    const shown = partsOf(regions, pages).filter((part) => part.place || part.entry >= 0 || refusalIn(part));
    const rows = shown.map((part) => {
        const here = refusalIn(part);
        return [
            `${hex8(part.first)} – ${hex8(part.last)}`,
            joined([part.place, part.entry >= 0 && `entry ${part.entry}`]),
            grants(part.user),
            grants(part.machine) + (part.isLocked ? " locked" : ""),
            here ? `✗ ${REFUSALS[here.cause]} at ${hex8(here.tval)}` : "",
        ];
    });
    const none = "No entry is on: machine mode may do all, user mode nothing";
    const title = regions.length ? "What each mode may do where" : none;
    return table(title, ["Addresses", "What is there", "User", "Machine", "Last refused"], rows);
}
