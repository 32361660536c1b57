// What of a source's listing is known: its addresses stay, and the words are those of the last look at them.

export class Listed {
    /** @type {Row[]} */
    rows = []; // those that were listed together
    /** @type {Map<number, number | undefined>} */
    addresses = new Map(); // by line, of those that were listed

    /** @param {string} source */
    constructor(source) {
        this.source = source;
        this.lines = source.split("\n");
    }

    /**
     * Takes rows: as a listing, or in the place of those of the listing that have their numbers.
     * @param {Row[]} rows
     */
    take(rows, isWhole = false) {
        for (const { number, address } of rows) this.addresses.set(number, address);
        const fresh = new Map(rows.map((row) => [row.number, row]));
        this.rows = isWhole ? rows : this.rows.map((row) => fresh.get(row.number) ?? row);
    }

    /**
     * Whether a line is in the listing, where a listing has all lines that it can have. No line, 0, needs none.
     * @param {number} line
     */
    has(line) {
        return line === 0 || this.rows.some(({ number }) => number === line);
    }

    /**
     * The lines of places that were never listed.
     * @param {Place[]} places
     */
    unknown(places) {
        return places.flatMap(({ line }) => (line !== null && !this.addresses.has(line) ? [line] : []));
    }

    /**
     * The lines with one of these places at their address.
     * @param {Place[]} places
     */
    marks(places) {
        return places.flatMap(({ line, address }) => (line !== null && this.addresses.get(line) === address ? [line] : []));
    }

    /**
     * The listing with the line at pc, or 0, and those with a breakpoint.
     * @param {number} here
     * @param {number[]} marks
     * @returns {Row[]}
     */
    listing(here, marks) {
        const marked = new Set(marks);
        return this.rows.map((row) => ({ ...row, isHere: row.number === here, isMarked: marked.has(row.number) }));
    }
}
