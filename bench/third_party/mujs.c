#include <stdio.h>
#include "mujs.h"
static const char script[] =
    "function queens(n) {\n"
    "  var columns = [], found = 0;\n"
    "  function fits(row, column) {\n"
    "    for (var r = 0; r < row; ++r) {\n"
    "      var c = columns[r];\n"
    "      if (c == column || c - column == r - row || c - column == row - r) return false;\n"
    "    }\n"
    "    return true;\n"
    "  }\n"
    "  function place(row) {\n"
    "    if (row == n) { ++found; return; }\n"
    "    for (var column = 0; column < n; ++column)\n"
    "      if (fits(row, column)) { columns[row] = column; place(row + 1); }\n"
    "  }\n"
    "  place(0);\n"
    "  return found;\n"
    "}\n"
    "function letters(n) {\n"
    "  var parts = [], seen = {}, i;\n"
    "  for (i = 1; i <= n; ++i) parts.push(i + ':' + (i * i).toString(16));\n"
    "  var text = parts.join(' '), words = text.split(/[^a-z0-9]+/);\n"
    "  for (i = 0; i < words.length; ++i) seen[words[i]] = (seen[words[i]] || 0) + 1;\n"
    "  parts.sort();\n"
    "  return [text.length, seen['100'] || 0, parts[0]];\n"
    "}\n"
    "var solutions = 0, length = 0;\n"
    "for (var round = 0; round < 8; ++round) {\n"
    "  solutions += queens(5);\n"
    "  length += letters(30)[0];\n"
    "}\n"
    "print([queens(6), solutions, length].concat(letters(100)).join(' '));\n";
static void print(js_State *js) {
    puts(js_tostring(js, 1));
    js_pushundefined(js);
}
int main(void) {
    js_State *js = js_newstate(NULL, NULL, JS_STRICT);
    if (!js) return 1;
    js_newcfunction(js, print, "print", 1);
    js_setglobal(js, "print");
    if (js_dostring(js, script)) return 1;
    js_freestate(js);
    return 0;
}
