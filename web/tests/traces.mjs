// node web/tests/traces.mjs: a trace takes no more steps in a call than any other command, by out/web/board.wasm in Node;
// its pieces are together what one call answers; and another command ends it between two of them, as a pause does.
import { MORE, RUNNING } from "../board.mjs";
import { encode } from "../lines.mjs";
import { open } from "../run.mjs";
import { check, finish } from "./checks.mjs";

const LOOP = "again:  j again\n";
const ENDS = `        lui     t0,0x10000
        li      t1,65
        sb      t1,(t0)
        lui     t0,0x100
        li      t1,0x5555
        sw      t1,(t0)
`;

const started = (source, piece) => open(encode(source), encode(""), 256, piece).board;

// The replies of the calls of a command, and the most steps that one of them took.
function calls(board, line) {
    const replies = [];
    let most = 0;
    for (let reply; reply?.next !== MORE; replies.push(reply)) {
        const before = board.steps();
        reply = reply ? board.goOn() : board.command(encode(line));
        most = Math.max(most, board.steps() - before);
    }
    return { replies, most };
}

const texts = ({ replies }) => replies.map(({ text }) => text).join("");
const sent = ({ replies }) => replies.flatMap((it) => [...it.sent]).join(" ");
const steps = ({ replies }) => JSON.stringify(replies.flatMap(({ answer }) => answer.steps));

for (const [name, source] of [["a loop", LOOP], ["a program that ends", ENDS]]) {
    const whole = calls(started(source, 1000000), "trace 1000");
    check(`${name}: a call takes all of it where a piece is long`, whole.replies.length === 1);
    for (const piece of [1, 7, 400]) {
        const cut = calls(started(source, piece), "trace 1000"), many = `${name}, ${piece} steps a call`;
        check(`${many}: no call takes more`, cut.most <= piece, `one took ${cut.most}`);
        check(`${many}: the calls before the last tell that the run goes on`,
            cut.replies.every(({ next }, i) => next === (i + 1 < cut.replies.length ? RUNNING : MORE)));
        check(`${many}: the lines are the same`, texts(cut) === texts(whole), texts(cut));
        check(`${many}: so are the steps`, steps(cut) === steps(whole));
        check(`${many}: so is what was sent`, sent(cut) === sent(whole), sent(cut));
    }
}

const board = started(LOOP, 7);
board.command(encode("trace 1000"));
board.goOn();
check("a pause after two calls leaves 14 steps", board.steps() === 14, `${board.steps()}`);
check("a command comes through", board.ask("w").includes("step 14"), board.ask("w"));
check("and ends the trace", board.goOn().next === MORE && board.steps() === 14);
finish();
