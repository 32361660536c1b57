// What a word may mean: a number, or a place in the program or in its memory.
import { MEMORY } from "./protection.mjs";

const NEAR = 4096; // bytes behind a label

/**
 * The label at an address or before it, with the distance, or nothing.
 * @param {number} value
 * @param {Label[]} labels
 */
function labelText(value, labels) {
    const near = labels.filter(({ at }) => at <= value && value < at + NEAR);
    const { name, at } = near.reduce((last, it) => (it.at >= last.at ? it : last), { name: "", at: 0 });
    return value > at && name ? `${name}+${value - at}` : name;
}

/**
 * What a word means: of an address in the memory the label or the line there, or the nearest label before it; of what is
 * no such address the signed number.
 * @param {number} value
 * @param {State} state
 */
export function meaningOf(value, { board: { listing }, labels, pages }) {
    if (value < MEMORY || value >= MEMORY + pages * 4096) return String(value | 0);
    const label = labels.find(({ at }) => at === value)?.name, line = listing.find(({ address }) => address === value)?.number;
    return label ?? (line === undefined ? labelText(value, labels) : `line ${line}`);
}
