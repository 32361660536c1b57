// Counts checks, and prints a line for each.
let passed = 0, failed = 0;

export function check(name, holds, detail = "") {
    if (holds) passed++;
    else failed++;
    console.log(holds ? `ok      ${name}` : `FAILED  ${name} ${detail}`);
}

export function same(name, got, want) {
    check(name, String(got) === String(want), `\n  got  ${JSON.stringify(got)}\n  want ${JSON.stringify(want)}`);
}

export function contains(name, got, pattern) {
    check(name, pattern.test(got), `\n  got  ${JSON.stringify(got)}\n  want ${pattern}`);
}

export function finish() {
    console.log(`${passed} passed, ${failed} failed`);
    process.exitCode = failed ? 1 : 0;
}
