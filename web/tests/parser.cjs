// Reads scripts for ESLint by Debian's acorn: the parser of Debian's ESLint knows no class fields.
const { parse } = require("acorn");
const { KEYS } = require("eslint-visitor-keys");

// The parts of what ESLint doesn't know. The name of a field is no variable.
const OTHERS = { PropertyDefinition: ["value"], ChainExpression: ["expression"], PrivateIdentifier: [], StaticBlock: ["body"] };
const NAMES = { name: "Identifier", num: "Numeric", string: "String", regexp: "RegularExpression", template: "Template" };

function kindOf({ label, keyword }) {
    if (keyword === "null") return "Null";
    if (keyword === "true" || keyword === "false") return "Boolean";
    return keyword ? "Keyword" : NAMES[label] ?? "Punctuator";
}

exports.parseForESLint = (text) => {
    const tokens = [], comments = [], places = { locations: true, ranges: true, onToken: tokens, onComment: comments };
    const ast = parse(text, { ecmaVersion: 2022, sourceType: "module", allowHashBang: true, ...places });
    const words = tokens.filter(({ type }) => type.label !== "eof");
    ast.tokens = words.map(({ type, ...place }) => ({ ...place, type: kindOf(type), value: text.slice(place.start, place.end) }));
    ast.comments = comments;
    return { ast, visitorKeys: { ...KEYS, ...OTHERS } };
};
