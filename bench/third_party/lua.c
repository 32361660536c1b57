#include <stdio.h>
#include "lua.h"
#include "lauxlib.h"
#include "lualib.h"
static const char script[] =
    "local function queens(n)\n"
    "  local columns, found = {}, 0\n"
    "  local function fits(row, column)\n"
    "    for r = 1, row - 1 do\n"
    "      local c = columns[r]\n"
    "      if c == column or c - column == r - row or c - column == row - r then return false end\n"
    "    end\n"
    "    return true\n"
    "  end\n"
    "  local function place(row)\n"
    "    if row > n then found = found + 1 return end\n"
    "    for column = 1, n do\n"
    "      if fits(row, column) then columns[row] = column place(row + 1) end\n"
    "    end\n"
    "  end\n"
    "  place(1)\n"
    "  return found\n"
    "end\n"
    "local function letters(n)\n"
    "  local parts, seen = {}, {}\n"
    "  for i = 1, n do parts[#parts + 1] = string.format('%d:%x', i, i * i) end\n"
    "  local text = table.concat(parts, ' ')\n"
    "  for word in string.gmatch(text, '%w+') do seen[word] = (seen[word] or 0) + 1 end\n"
    "  table.sort(parts)\n"
    "  return #text, seen['100'] or 0, parts[1]\n"
    "end\n"
    "local solutions, length = 0, 0\n"
    "for round = 1, 16 do\n"
    "  solutions = solutions + queens(6)\n"
    "  length = length + letters(100)\n"
    "end\n"
    "print(queens(7), solutions, length, letters(300))\n";
static const luaL_Reg libraries[] = {
    {LUA_GNAME, luaopen_base}, {LUA_TABLIBNAME, luaopen_table}, {LUA_STRLIBNAME, luaopen_string}
};
int main(void) {
    lua_State *lua = luaL_newstate();
    if (!lua) return 1;
    for (unsigned i = 0; i < sizeof libraries / sizeof *libraries; i++) {
        luaL_requiref(lua, libraries[i].name, libraries[i].func, 1);
        lua_pop(lua, 1);
    }
    if (luaL_dostring(lua, script)) {
        printf("%s\n", lua_tostring(lua, -1));
        return 1;
    }
    lua_close(lua);
    return 0;
}
