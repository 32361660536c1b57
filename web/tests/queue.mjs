// node web/tests/queue.mjs: what is done with the board is done one after another, in Node and without a board.
import { check, finish, same } from "./checks.mjs";
import { Queue } from "../queue.mjs";

const log = [];
const wait = (milliseconds) => new Promise((done) => setTimeout(done, milliseconds));
const queue = new Queue({ onBusy: () => log.push(queue.isBusy ? "busy" : "idle"), onError: ({ message }) => log.push(message) });

// Something that takes some milliseconds, and notes its beginning and its end.
const takes = (name, milliseconds) => async () => {
    log.push(name);
    await wait(milliseconds);
    log.push(`/${name}`);
};

// What is noted while something is done.
async function noted(act) {
    log.length = 0;
    await act();
    return log.join(" ");
}

const both = () => Promise.all([queue.work(takes("a", 20)), queue.work(takes("b", 1))]);
same("a work while another one is at work is left out", await noted(both), "busy a /a idle");

const looked = async () => {
    queue.lookNow(takes("look", 20));
    queue.lookNow(takes("more", 1));
    await queue.work(takes("work", 1));
};
same("a look at a time, and a work after it", await noted(looked), "look busy /look work /work idle");

const turns = () => Promise.all([queue.inTurn(takes("a", 20)), queue.inTurn(takes("b", 10)), queue.inTurn(takes("c", 1))]);
same("what waits for its turn is done in order", await noted(turns), "a /a b /b c /c");

const fails = async () => {
    const lost = () => Promise.reject(new Error("lost"));
    await queue.work(lost);
    queue.lookNow(lost);
    await queue.inTurn(lost).catch(() => log.push("told"));
    await queue.work(takes("a", 1));
};
same("after an error the others are done", await noted(fails), "busy lost idle lost lost told busy a /a idle");

const long = queue.work(takes("long", 600)), began = performance.now();
await queue.soon();
check("what is long isn't waited for", performance.now() - began < 500 && queue.isBusy);
await long;
queue.work(takes("short", 20));
await queue.soon();
check("what is short is, to its end", !queue.isBusy);
finish();
