// What changes in the page, in one place, and the views of it. A view names what it shows, and draws it anew whenever
// one of these is another one.

export const PAGES = 256; // of memory, unless others are asked for, as rvboard has them

/** @type {Look} */
const NOTHING = {
    steps: 0,
    registers: [],
    pc: 0,
    label: "",
    mode: "",
    listing: [],
    marks: [],
    saved: { inputs: "", commands: "", options: "" },
    levels: {},
    console: "",
};

/** @type {State} */
export const state = {
    assembled: null,
    given: "",
    pages: PAGES,
    labels: [],
    board: NOTHING,
    done: [],
    undone: 0,
    isSame: false,
    here: 0,
    breakpoints: new Set(),
    faults: [],
    told: { parts: [], goesOn: false, files: {} },
    said: [],
    progress: null,
    began: { time: 0, steps: 0 },
    isBusy: false,
    turn: 0,
    turns: 0,
    runFrom: 0,
    holds: 0,
    isStopped: false,
    isLooking: false,
    isPressed: false,
    lesson: null,
    format: "hex and meaning",
};

/** @type {(() => void)[]} */
const views = [];

/**
 * Adds a view: what it shows of the state, and how it draws that. It is drawn at once.
 * @template {unknown[]} T
 * @param {(state: State) => [...T]} of
 * @param {(...shown: T) => void} draw
 */
export function view(of, draw) {
    /** @type {unknown[]} */
    let last = [];
    const show = () => {
        const now = of(state), isSame = now.length === last.length && now.every((it, i) => it === last[i]);
        last = now;
        if (!isSame) draw(...now);
    };
    views.push(show);
    show();
}

/**
 * Changes the state, and draws the views of what has changed.
 * @param {Partial<State>} parts
 */
export function change(parts) {
    Object.assign(state, parts);
    for (const show of views) show();
}
