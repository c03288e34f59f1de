"use strict";
// What the marks mean, each with a small drawing.
function addLegend(list) {
    const rail = { class: "rail", d: "M8 26H76" };
    const ends = ["path", { class: "gap", d: "M8 20V32M76 20V32" }];
    const held = (d, more = "") => ["g", { class: "hold on c0" + more },
        ["path", { class: "casing", d }], ["path", { class: "colour s", d }]];
    const tag = (kind, colour, name, x) => ["g", { class: `tag ${kind} ${colour}` },
        ["rect", { class: "f s", x: x - 11, y: 3, width: 22, height: 14, rx: kind === "here" ? 4 : 7 }],
        ["text", { x, y: 14 }, name]];
    const train = (colour, x) => ["g", { class: "train " + colour },
        ["path", { class: "casing", d: `M${x - 22} 26h32` }], ["path", { class: "bar s", d: `M${x - 22} 26h32` }],
        ["path", { class: "windows", d: `M${x - 17} 26h25` }],
        ["path", { class: "head f", d: `M${x + 10} 18.5l12 7.5l-12 7.5Z` }]];
    const ring = ["g", { class: "lock c0" },
        ["circle", { class: "casing", cx: 42, cy: 22, r: 15 }], ["circle", { class: "ring s", cx: 42, cy: 22, r: 15 }],
        ["path", { class: "casing", d: "M27 22H53" }], ["path", { class: "path s", d: "M27 22H53" }],
        ["path", { class: "tip f", d: "M62 22l-11 7v-14Z" }]];
    const fork = blade => ["g", { class: "box" }, ["path", { class: "rail", d: "M8 30H38M56 30H76M52 16L62 6H76" }],
        ["path", { class: "blade", d: blade }], ["circle", { class: "toe", cx: 38, cy: 30, r: 3.5 }]];
    const moving = ["g", { class: "box moving" }, ...fork("M38 30L53 24").slice(2)];
    const cross = ["g", { class: "cross" }, ["path", { class: "casing", d: "M16 21l10 10m0 -10l-10 10" }],
        ["path", { class: "line", d: "M16 21l10 10m0 -10l-10 10" }]];
    const items = [
        [[["path", rail], ends, train("c0", 42), tag("here", "c0", "T1", 42)],
            "a train on a segment, with its name; the point is its head"],
        [[["path", rail], held("M8 26H30"), ends, tag("held", "c0", "T1", 22)],
            "the end of a segment at one box, held by T1"],
        [[held("M8 26H76"), ends, tag("held", "c0", "T1", 42)], "held by T1 at both ends: T1 may enter it"],
        [[["path", { class: "rail", d: "M8 22H76" }], ring], "a box locked for T1, and the way it is locked for"],
        [[fork("M38 30H56")], "points, with the branch they connect"],
        [[moving], "points that move connect nothing"],
        [[["path", rail], held("M8 26H76"), ends, cross, tag("held", "c0", "T1", 56)],
            "a train was refused this end, which T1 holds; above its name it says so, until it gets on"],
    ];
    const add = (parent, [tagName, attributes, ...rest]) => {
        const made = make(tagName, attributes, parent);
        for (const part of rest) {
            if (typeof part === "string") made.textContent = part;
            else add(made, part);
        }
    };
    for (const [drawing, meaning] of items) {
        const item = element("li");
        const svg = make("svg", { viewBox: "0 0 84 40", "aria-hidden": "true" }, item);
        drawing.forEach(part => add(svg, part));
        item.append(element("span", meaning));
        list.append(item);
    }
}
