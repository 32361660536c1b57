// node web/lesson_link.mjs FILE [ADDRESS]: web/lesson.
import fs from "node:fs";
import { readLesson } from "./lesson.mjs";
import { writeFragment } from "./links.mjs";

const [file, address = "index.html"] = process.argv.slice(2);
try {
    const text = fs.readFileSync(file ?? "/dev/stdin", "utf8");
    readLesson(text);
    console.log(`${address}#lesson=${await writeFragment(text)}`);
} catch (error) {
    console.error(`web/lesson: ${error.message}`);
    process.exitCode = 3;
}
