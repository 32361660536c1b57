// Rules of accessibility, as axe and others check them: what the page breaks of them now. It is evaluated in the page.
export function broken() {
    const found = [], all = [...document.querySelectorAll("body *")].filter((it) => it.checkVisibility());
    const named = (it) => `${it.tagName.toLowerCase()}${it.id ? `#${it.id}` : ""} ${it.textContent.trim().slice(0, 20)}`;
    const rule = (name, those) => found.push(...those.map((it) => `${name}: ${named(it)}`));
    const controls = all.filter((it) => it.matches("button, select, input, textarea, [role=textbox], [tabindex='0']"));

    const ids = [...document.querySelectorAll("[id]")].map(({ id }) => id);
    rule("an id stands twice", all.filter(({ id }) => id && ids.indexOf(id) !== ids.lastIndexOf(id)));
    const references = ["aria-labelledby", "aria-describedby", "aria-controls", "aria-activedescendant", "for"];
    const leadsNowhere = (it) => references.some((name) => {
        const names = it.getAttribute(name)?.split(/\s+/).filter(Boolean) ?? [];
        return names.some((id) => !document.getElementById(id));
    });
    rule("a reference leads nowhere", all.filter(leadsNowhere));
    rule("an order of focus of its own", all.filter((it) => it.tabIndex > 0));
    rule("hidden from readers, and focused", controls.filter((it) => it.closest("[aria-hidden=true]")));
    rule("a control within another", controls.filter((it) => it.parentElement.closest("button, select, [role=tab], [role=switch]")));

    // What is read contains what is seen (WCAG 2.5.3).
    const words = (text) => text.toLowerCase().replace(/[^\p{L}\p{N} ]/gu, " ").split(/\s+/).filter(Boolean).join(" ");
    const seen = (it) => words([...it.childNodes].filter((node) => node.nodeName !== "KBD").map((node) => node.textContent).join(" "));
    const isNamed = (it) => it.ariaLabel && it.matches("button:not([role=switch])"); // a switch shows its state
    const isNamedOtherwise = (it) => isNamed(it) && !words(it.ariaLabel).includes(seen(it));
    rule("a name without the words that are seen", all.filter(isNamedOtherwise));

    // A target has 24 pixels, with its label (WCAG 2.5.8).
    const box = (it) => (it.type === "checkbox" ? it.closest("label") : it).getBoundingClientRect();
    const isSmall = (it) => it.matches("button, select, input") && Math.min(box(it).width, box(it).height) < 23.5;
    rule("a small target", controls.filter(isSmall));

    const levels = all.filter((it) => /^H[1-6]$/.test(it.tagName));
    const isSkipped = (it, i) => Number(it.tagName[1]) > Number(levels[i - 1]?.tagName[1] ?? 0) + 1;
    rule("a heading of a level that is skipped", levels.filter(isSkipped));
    const chosen = all.filter((it) => it.matches("[role=tab][aria-selected=true]"));
    if (chosen.length !== 1) found.push(`${chosen.length} tabs are chosen`);
    rule("a list with what is no item", all.filter((it) => it.matches("ul") && [...it.children].some(({ tagName }) => tagName !== "LI")));
    rule("a table without heads", all.filter((it) => it.matches("table:not(.fields)") && !it.querySelector("th")));
    if (document.documentElement.lang !== "en") found.push("no language");
    if (!document.title) found.push("no title");
    return found;
}
