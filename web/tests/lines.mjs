// node web/tests/lines.mjs: any bytes of a file come back as they were, and their text is one that a text area keeps.
import { check, finish, same } from "./checks.mjs";
import { asShown, decodeAll, encode, withEndsOf } from "../lines.mjs";

// Bytes that begin, continue and end characters and lines, and any others.
const SOME = [0x00, 0x09, 0x0a, 0x0d, 0x41, 0x80, 0x8f, 0x90, 0x9f, 0xa0, 0xbb, 0xbf, 0xc2, 0xe0, 0xed, 0xef, 0xf0, 0xf4, 0xff];
let random = 1;

function below(most) {
    random = (random * 16807) % 2147483647;
    return Math.floor(random / 8) % most;
}

const randomBytes = () => Buffer.from(Array.from({ length: below(12) }, () => SOME[below(20)] ?? below(256)));

function isUtf8(bytes) {
    try {
        new TextDecoder("utf-8", { fatal: true }).decode(bytes);
        return true;
    } catch {
        return false;
    }
}

// Why some bytes don't come back, or nothing.
function wrong(bytes) {
    const text = decodeAll(bytes), shown = asShown(text);
    if (!bytes.equals(encode(text))) return "bytes";
    if (/[\udc00-\udcff]/u.test(text) === isUtf8(bytes)) return "stand-ins";
    if (shown.includes("\r")) return "returns";
    return bytes.equals(encode(withEndsOf(shown, text))) ? "" : "ends";
}

const all = Array.from({ length: 20000 }, randomBytes).filter(wrong);
check("20,000 texts of random bytes come back", !all.length, all.map((it) => `${it.toString("hex")} ${wrong(it)}`));
same("a changed line has the first line's end", withEndsOf("a\nX\nY\nc\n", "a\r\nb\nc\n"), "a\r\nX\r\nY\r\nc\n");
same("and the others keep theirs", withEndsOf("X\nb\nc\n", "a\r\nb\nc\r\n"), "X\r\nb\nc\r\n");
same("a return at the end of a text is none of a longer one", withEndsOf("a\nb", "a\r"), "a\nb");
finish();
