// What is done with the board, one thing after another: works, which move it, and looks, which only ask.
const SOON = 200; // milliseconds for which something waits for what is at work

export class Queue {
    isBusy = false; // whether a work is under way
    /** @type {Promise<unknown>} */
    current = Promise.resolve(); // the work that was begun last
    /** @type {Promise<unknown> | null} */
    look = null; // the look that is under way while nothing is at work, or nothing
    /** @type {Promise<unknown>} */
    turns = Promise.resolve(); // what waits for its turn

    /**
     * `onBusy` is called as a work begins and ends, and `onError` gets what a work or a look throws.
     * @param {{ onBusy: (is: boolean) => void, onError: (error: Error) => void }} calls
     */
    constructor({ onBusy, onError }) {
        this.onBusy = onBusy;
        this.onError = onError;
    }

    /** @param {boolean} is */
    setBusy(is) {
        this.isBusy = is;
        this.onBusy(is);
    }

    /**
     * Does a work after the look that is under way, if no other work is.
     * @param {() => unknown} act
     */
    async work(act) {
        if (this.isBusy) return;
        this.setBusy(true);
        await (this.current = Promise.resolve(this.look).then(act).catch(this.onError));
        this.setBusy(false);
    }

    /**
     * Looks at the board while nothing is at work, unless a look is under way.
     * @param {() => Promise<unknown>} look
     */
    lookNow(look) {
        this.look ??= look().catch(this.onError).finally(() => (this.look = null));
    }

    /**
     * Does something after all that was given here before, whatever is at work.
     * @template T
     * @param {() => Promise<T>} act
     * @returns {Promise<T>}
     */
    inTurn(act) {
        const done = this.turns.then(act);
        this.turns = done.catch(this.onError);
        return done;
    }

    /**
     * Waits until the present work has ended, if that is soon.
     * @param {Promise<unknown>[]} others
     */
    soon(...others) {
        const late = new Promise((wake) => setTimeout(wake, SOON));
        return Promise.race([Promise.all([this.current, ...others]), late]);
    }
}
