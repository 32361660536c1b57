// What is typed outlives a reload, a closed tab and a crash: each tab has an entry of the local storage. A tab holds a lock
// with the name of its entry, so an entry whose lock nobody holds was left by a tab that is closed.

const KEY = "rvboard "; // how the names of entries begin, and their names in the tab's session
const WAIT = 500; // milliseconds in which the page before a reload gives its lock back

/**
 * Holds the lock of an entry for as long as the page is open; returns whether it does. Without locks no other page is
 * known.
 * @param {string} name
 * @param {LockOptions} options
 * @returns {Promise<boolean>}
 */
async function hold(name, options) {
    if (!navigator.locks) return true;
    return new Promise((resolve) => {
        const held = (/** @type {Lock | null} */ lock) => {
            resolve(lock !== null);
            return lock ? new Promise(() => {}) : undefined;
        };
        navigator.locks.request(name, options, held).catch(() => resolve(false));
    });
}

/**
 * The entry of a name, or nothing where there is none that can be read.
 * @param {string} name
 * @returns {Entry | null}
 */
function read(name) {
    try {
        const entry = JSON.parse(localStorage.getItem(name) ?? "null");
        return typeof entry.source === "string" ? entry : null;
    } catch {
        return null;
    }
}

/** The entries of closed tabs that have changes, the latest first, by their names; those without are removed. */
async function leftEntries() {
    if (!navigator.locks) return [];
    const names = ((await navigator.locks.query()).held ?? []).map(({ name }) => name);
    const left = Object.keys(localStorage).filter((name) => name.startsWith(KEY) && !names.includes(name));
    const entries = left.map((key) => ({ key, entry: read(key) }));
    for (const { key, entry } of entries) if (!entry?.edited) localStorage.removeItem(key);
    const edited = entries.flatMap(({ key, entry }) => (entry?.edited ? [{ key, entry }] : []));
    return edited.sort((a, b) => (b.entry.time ?? 0) - (a.entry.time ?? 0));
}

export class Kept {
    name = ""; // of the entry; nothing is kept before there is one
    key = KEY; // what has that name in the tab's session, which is one for all frames of a page

    /**
     * Takes an entry for this tab, and returns what is to be restored from it, or nothing: what the tab itself held under
     * the same link; or without a link what was typed in the tab that was closed last, unless the page is embedded.
     * @param {string} link
     * @param {boolean} isEmbedded
     */
    async open(link, isEmbedded) {
        if (isEmbedded) this.key = KEY + link;
        try {
            return (await this.openOwn(link)) ?? (await this.openLeft(link !== "" || isEmbedded));
        } catch {
            return null; // the browser lets this page keep nothing
        }
    }

    /**
     * The entry of a tab that is reloaded, opened again or copied; a copy gets an entry of its own.
     * @param {string} link
     */
    async openOwn(link) {
        const name = sessionStorage.getItem(this.key), entry = name && read(name);
        if (!name || !entry || (link && entry.link !== link)) return null;
        this.take((await hold(name, { signal: /** @type {any} */ (AbortSignal).timeout(WAIT) })) ? name : await this.newName());
        return entry;
    }

    /** @param {boolean} isOther */
    async openLeft(isOther) {
        for (const { key, entry } of isOther ? [] : await leftEntries()) {
            if (!(await hold(key, { ifAvailable: true }))) continue;
            this.take(key);
            return { ...entry, closed: true };
        }
        this.take(await this.newName());
        return null;
    }

    async newName() {
        const name = `${KEY}${Date.now()} ${Math.random()}`;
        await hold(name, {});
        return name;
    }

    /** @param {string} name */
    take(name) {
        this.name = name;
        sessionStorage.setItem(this.key, name);
    }

    /**
     * Keeps an entry; returns whether there was room for it. What can't be kept is kept in no older form either.
     * @param {Entry} entry
     */
    write(entry) {
        if (!this.name) return false;
        try {
            localStorage.removeItem(this.name);
            localStorage.setItem(this.name, JSON.stringify({ ...entry, time: Date.now() }));
            return true;
        } catch {
            return false;
        }
    }
}
