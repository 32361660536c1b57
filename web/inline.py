"""inline.py TOP OUT: writes OUT/index.html, which is web/index.html with the style, the scripts, the examples
and OUT/board.wasm in it, so that the page is one file and fetches nothing."""

import base64
import hashlib
import json
import pathlib
import re
import subprocess
import sys

top, out = map(pathlib.Path, sys.argv[1:])
web = top / "web"


# The editor, of Debian's package libjs-codemirror.
CODEMIRROR = pathlib.Path("/usr/share/javascript/codemirror")
# The lessons of the path, in their order.
LESSONS = ["first", "loop", "function", "trap", "protection"]


STYLES = [CODEMIRROR / "lib/codemirror.css", *(web / name for name in ["style.css", "layout.css"])]


def licence():
    """The licence of the editor, which goes with each copy of it."""
    text = pathlib.Path("/usr/share/doc/libjs-codemirror/copyright").read_text()
    owner = re.search(r"^Files: \*\nCopyright: (.*)$", text, re.M).group(1)
    terms = re.search(r"^License: Expat\n((?: .*\n)+)", text, re.M).group(1)
    return f"CodeMirror, copyright {owner}\n\n{terms}".replace("\n .\n", "\n\n").replace("-->", "")


def script(name):
    """A module with all that it imports, as one script."""
    words = ["esbuild", str(web / f"{name}.mjs"), "--bundle", "--format=esm", "--charset=utf8", "--log-level=warning"]
    words += [f"--alias:codemirror={CODEMIRROR}", "--minify"] if name == "page" else []
    text = subprocess.run(words, check=True, capture_output=True, text=True, encoding="utf-8").stdout
    assert "</script" not in text, name
    return text


def examples():
    """Each example and each lesson (`lab/NAME`) with its timed list, by its name."""
    found = {}
    for path in [*sorted(top.glob("examples/*.s")), *sorted(top.glob("examples/lab/*.s"))]:
        inputs = path.with_name(path.name + ".input")
        timed = inputs.read_text() if inputs.exists() else ""
        name = str(path.relative_to(top / "examples").with_suffix(""))
        found[name] = {"source": path.read_text(), "inputs": timed}
    return json.dumps(found).replace("</", "<\\/")


def lessons():
    """Each lesson of the path by its name, in its order."""
    found = {name: (web / f"lessons/{name}.lesson").read_text() for name in LESSONS}
    return json.dumps(found).replace("</", "<\\/")


def reference():
    """The lines of the language's reference about each word: a cell with the word, and those beside it."""
    text = (top / "docs/ASSEMBLER.md").read_text()
    found = {}
    for title in ["Instructions", "Pseudo-instructions", "Directives"]:
        section = text.split(f"\n## {title}\n")[1]
        for row in re.search(r"(?:^\|.*\n)+", section, re.M).group().splitlines():
            cells = [cell.strip() for cell in row.strip("| ").split(" | ")]
            for word in re.findall(r"`([a-z.][^\s`]*)[^`]*`", cells[0]) if row.startswith("| `") else []:
                line = " · ".join([cells[0], *filter(None, cells[1:])])
                if line not in found.setdefault(word, []):
                    found[word].append(line)
    return json.dumps(found).replace("</", "<\\/")


def hash_of(text, tag):
    """The hash by which the page's policy lets an element run: of all that stands in it."""
    inside = re.search(f"<{tag}>(.*?)</{tag.split()[0]}>", text, re.S).group(1)
    return "sha256-" + base64.b64encode(hashlib.sha256(inside.encode()).digest()).decode()


parts = {
    "licence": licence(),
    "style": "\n".join(path.read_text() for path in STYLES),
    "worker": script("worker"),
    "page": script("page"),
    "examples": examples(),
    "reference": reference(),
    "lessons": lessons(),
    "wasm": base64.b64encode((out / "board.wasm").read_bytes()).decode(),
}
text = (web / "index.html").read_text()
for name, part in parts.items():
    mark = f"/* {name} */"
    assert text.count(mark) == 1, mark
    text = text.replace(mark, part.rstrip("\n"))
text = text.replace("/* script-hash */", hash_of(text, 'script type="module"'))
text = text.replace("/* style-hash */", hash_of(text, "style"))
(out / "index.html").write_text(text)
