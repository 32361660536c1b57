// The types of the page's values. The scripts name them in their comments, and `web/test` checks them by tsc.

// ---- What the lab answers (lab.mjs)

/** A fault of a source: its line, or 0; how many bytes of that precede it, and how many it has. */
interface Fault { line: number; before: number; length: number; sentence: string; advice: string }

/** An address in the lab's answers: the label at it or before it, how far before, and the line that has a byte there. */
interface Place { address: number; label: string | null; distance: number | null; line: number | null; word: number | null }

/** A part of what is said: the page's or the lab's own words, or what the program has sent. */
interface Said { text: string; isSent: boolean }

/** The answer to a command, whether it left a run that may go on, and files that are to be saved, by name. */
interface Told { parts: Said[]; goesOn: boolean; files: Record<string, string> }

/** With which step a register last changed, where pc was before it, and the value then; or that a run is too long. */
interface Changed { isLong: boolean; step?: number; here?: Place; value?: number }

interface Register { name: string; value: number; isChanged: boolean }

/** A line of the source with what the image has of it. A line without bytes has no address. */
interface Row { number: number; text: string; address?: number; word?: number; isHere: boolean; isMarked: boolean }

/** Why there is no lab: as text, and where the source is refused as a value. */
interface Refused { text: string; value: { faults: any[] } | null }

/** Why a run is over or goes on: what the lab has answered to a command, where the page reads it. */
interface Answer { kind: string; ending?: string; aim?: string; standing?: { halted: number | null; here: Place } }

/** What is done so far, in the forms of files that repeat it, and with which options. */
interface Saved { inputs: string; commands: string; options: string }

/** All that a click may change. */
interface Look {
    steps: number;
    registers: Register[];
    pc: number;
    label: string; // the nearest one before pc, with the distance
    mode: string;
    listing: Row[];
    marks: number[]; // the lines with a breakpoint
    saved: Saved;
    levels: Record<number, boolean>; // of the interrupt lines
    console: string;
}

interface Label { name: string; at: number }

/** Bytes of memory from an address on, none where there is no memory; or why they can't be shown. */
interface Memory { at: number; bytes: (number | undefined)[]; refused: string }

interface Control { name: string; word: string; fields: string }

interface Trap { cause: number; tval: number }

/** A source of the interrupt controller. */
interface Source { number: number; request: string; isEnabled: boolean; priority: number; edges: number }

/** An entry of protection with its range, and what the modes may do there. */
interface Region { entry: number; first: number; last: number; user: string; machine: string; isLocked: boolean }

interface Devices { text: string; sources: Record<number, Source>; regions: Region[] }

// ---- What the page keeps

/** A source, a timed list, breakpoints and a size of memory. */
interface Program { source: string; inputs: string; breakpoints?: number[]; pages?: number }

/** How a check of a lesson came out, and what there is where it doesn't hold. */
interface CheckResult { line: string; holds: boolean; found: string }

interface Example { source: string; inputs: string }

/** What is kept of a tab. */
interface Entry extends Program { name: string; edited: boolean; link: string; file?: string; time?: number; closed?: boolean }

/** All that changes in the page (state.mjs). */
interface State {
    assembled: string | null; // the source that is on the board, or nothing
    given: string; // the timed list that it was assembled with
    pages: number; // of the memory that it was assembled with
    labels: Label[]; // of the assembled source
    board: Look; // what the last look at the board found
    done: string[]; // the commands that were given
    undone: number; // the step to which Undo goes back: the one before the last command that took steps
    isSame: boolean; // whether the source is still the one on the board
    here: number; // the line at pc, or 0
    breakpoints: Set<number>;
    faults: Fault[];
    told: Told; // the lab's last answer to a command
    said: Said[];
    progress: { steps: number; rate: number } | null; // of what is done
    began: { time: number; steps: number }; // where the command began
    isBusy: boolean; // whether something is done with the board
    turn: number; // the number of the run that is on, or 0
    turns: number; // how many runs there were
    runFrom: number; // the step at which the last run began
    holds: number; // how often a run was to end
    isStopped: boolean; // whether Pause was pressed since a run was interrupted
    isLooking: boolean; // whether a run is interrupted only to show a tab
    isPressed: boolean; // whether a control waits for what is at work
    lesson: { name: string; lesson: import("./lesson.mjs").Lesson; results: CheckResult[] | null } | null; // that is open
    format: string; // of the registers
}

// ---- What Debian's TypeScript doesn't know

interface ByteStream { readable: ReadableStream<Uint8Array>; writable: WritableStream<Uint8Array> }
interface Array<T> { findLast(holds: (it: T) => boolean): T | undefined }
interface Element { checkVisibility(): boolean }
