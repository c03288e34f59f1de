"use strict";
// Tests of the page in headless Chromium: node test.js CHROMIUM FOLDER. The folder holds the pages of networks, each
// with its tables and report, and the pages of damaged texts, each with its sentence. The last line is
// "N passed, M failed".
const assert = require("node:assert/strict");
const fs = require("node:fs");
const path = require("node:path");
const { Browser } = require("./browser.js");

const [chromium, folder, built] = process.argv.slice(2);
const read = (...parts) => fs.readFileSync(path.join(folder, ...parts), "utf8");
const listed = (kind, end) => fs.readdirSync(path.join(folder, kind)).filter(file => file.endsWith(end)).sort()
    .map(file => file.slice(0, -end.length));
const page = name => path.join(folder, "pages", name + ".html");
const few = Boolean(process.env.VIEW_FEW);
let browser;
let passed = 0, failed = 0;

async function test(name, act) {
    const begun = Date.now();
    try {
        await act();
        const thrown = browser.events.filter(event => event.method === "Runtime.exceptionThrown"
            || event.method === "Log.entryAdded" && event.params.entry.level === "error");
        assert.deepEqual(thrown.map(event => JSON.stringify(event.params).slice(0, 400)), [], "the page threw");
        passed++;
        if (process.env.TIMES) console.log(`${Date.now() - begun} ms ${name}`);
    } catch (error) {
        failed++;
        console.log(`view/test: failed: ${name}: ${error.message.slice(0, 1500)}`);
        if (few) throw new Error("ended at the first failure");
    }
}

// What the tables say, read line by line.
function tablesOf(text) {
    const tables = { segments: new Set(), boxes: {}, trains: {}, steps: {} };
    let box, train;
    for (const [word, , name, kind, side] of text.split("\n").map(line => line.split(" "))) {
        if (word === "box") tables.boxes[box = name] = { kind, side, arms: [] };
        if (word === "arm") {
            tables.segments.add(name);
            tables.boxes[box].arms.push([name, kind]);
        }
        if (word === "train") {
            tables.trains[train = name] = Number(kind);
            tables.steps[train] = [];
        }
    }
    for (const line of text.split("\n")) {
        const words = line.split(" ");
        if (words[0] === "train") train = words[2];
        if (words[0] !== "step") continue;
        const arms = tables.boxes[words[2]].arms;
        tables.steps[train].push({ box: words[2], from: arms[words[3]][0], to: arms[words[4]][0] });
    }
    return tables;
}

// The world after so many moves of a report.
function worldAfter(tables, report, count) {
    const world = { holds: {}, locks: {}, points: {}, trains: {}, made: {}, refused: {} };
    const waits = {};
    for (const [name, { kind, side, arms }] of Object.entries(tables.boxes)) {
        world.locks[name] = "*";
        if (kind === "point") world.points[name] = side;
        for (const [segment, holder] of arms) {
            world.holds[`${segment} ${name}`] = holder;
            if (holder !== "*") world.trains[holder] = segment;
        }
    }
    for (const name in tables.trains) world.made[name] = world.refused[name] = 0;
    for (const line of report.split("\n").slice(2, 2 + count)) {
        const [verb, a, b, c, d] = line.split(" ");
        if (verb === "reserve") world.holds[`${b} ${c}`] = a;
        if (verb === "release") world.holds[`${b} ${c}`] = "*";
        if (verb === "lock") world.locks[b] = a;
        if (verb === "unlock") world.locks[b] = "*";
        if (verb === "throw") world.points[a] = "moving";
        if (verb === "settle") world.points[a] = b;
        if (verb === "enter") world.trains[a] = `${c} ${d}`;
        if (verb === "leave") {
            world.trains[a] = world.trains[a].split(" ").filter(segment => segment !== b).join(" ");
            world.made[a]++;
        }
        if (verb === "refuse" || verb === "bar") {
            world.refused[a]++;
            waits[a] = { verb, what: verb === "bar" ? b : `${b} ${c}`, by: verb === "bar" ? c : d };
        }
        const got = waits[a] && (verb === "reserve" ? waits[a].what === `${b} ${c}`
            : verb === "lock" ? waits[a].verb === "bar" && waits[a].what === b : verb === "enter");
        if (got) delete waits[a];
    }
    world.now = {};
    for (const train in tables.trains) world.now[train] = nowOf(tables, world, train, waits[train]);
    return world;
}

// What the page says of a train before the end of the run.
function nowOf(tables, world, train, wait) {
    if (wait && wait.verb === "bar") {
        return `waits: ${wait.what} ${world.locks[wait.what] === wait.by ? "is" : "was"} locked by ${wait.by}`;
    }
    if (wait) {
        const [segment, box] = wait.what.split(" ");
        return `waits: ${segment} ${world.holds[wait.what] === wait.by ? "is" : "was"} held by ${wait.by} at ${box}`;
    }
    const step = tables.steps[train][world.made[train]];
    if (!step) return tables.steps[train].length ? "at the end of its route" : "stays";
    return world.trains[train].includes(" ") ? `passes ${step.box} to ${step.to}` : `goes to ${step.to} by ${step.box}`;
}

// A move of the report in words.
function toldOf(line) {
    const [verb, a, b, c, d] = line.split(" ");
    return {
        reserve: `${a} takes ${b} at its end at ${c}`, release: `${a} gives ${b} back at ${c}`,
        lock: `${a} locks ${b} for its way from ${c} to ${d}`, unlock: `${a} gives back the lock of ${b}`,
        throw: `The points of ${a} begin to move`, settle: `The points of ${a} stand at ${b}`,
        enter: `${a} enters ${d} from ${c}, across ${b}`, leave: `${a} has left ${b}`,
        refuse: `${a} is refused ${b} at ${c}: ${d} holds it there`,
        bar: `${a} is refused the lock of ${b}: ${c} has it`,
    }[verb];
}

// The world as the page draws it.
function drawnWorld() {
    const world = { holds: {}, locks: {}, points: {}, trains: {}, made: {}, refused: {},
        now: {} };
    for (const { dataset } of document.querySelectorAll("#picture .holds [data-box]")) {
        world.holds[`${dataset.segment} ${dataset.box}`] = dataset.train;
    }
    for (const { dataset } of document.querySelectorAll("#picture .boxes > g")) {
        world.locks[dataset.box] = dataset.lock;
        if (dataset.points) world.points[dataset.box] = dataset.points;
    }
    for (const { dataset } of document.querySelectorAll("#picture .trains > g")) {
        world.trains[dataset.train] = dataset.on;
    }
    for (const row of document.querySelectorAll("#trains tbody tr")) {
        world.made[row.dataset.train] = parseInt(row.cells[3].textContent, 10);
        world.refused[row.dataset.train] = Number(row.cells[4].textContent);
        world.now[row.dataset.train] = row.cells[1].textContent;
    }
    return world;
}

function drawnParts() {
    const all = selector => [...document.querySelectorAll("#picture " + selector)];
    const names = selector => all(selector).map(text => text.textContent).sort();
    const count = selector => all(selector).length;
    const kinds = ["buffer", "joint", "point", "crossing"].map(kind => [kind, count(".boxes > ." + kind)]);
    return {
        segments: names(".labels .name"), boxes: names(".labels .box-name"), rails: count(".rails > .segment"),
        trains: all(".trains > g").map(train => train.dataset.train).sort(),
        ends: count(".holds [data-box]"), kinds: Object.fromEntries(kinds),
        rows: document.querySelectorAll("#trains tbody tr").length,
        moves: Number(document.querySelector("#rows [aria-setsize]").getAttribute("aria-setsize")) - 1,
    };
}

// What of the picture isn't where, or in the colour, that its state says: trains on their segments, coloured ends at
// their boxes and in the colour of the holder, blades toward the branch.
function misdrawn(arms, steps) {
    const svg = document.getElementById("picture");
    const u = Math.max(1, Number(svg.style.getPropertyValue("--u")));
    const all = selector => [...svg.querySelectorAll(selector)];
    const placed = (path, point) => point.matrixTransform(svg.getScreenCTM().inverse().multiply(path.getScreenCTM()));
    const points = path => {
        const length = path.getTotalLength();
        const at = i => placed(path, path.getPointAtLength(length * i / 120));
        return Array.from({ length: 121 }, (_, i) => at(i));
    };
    const way = {};
    for (const segment of all(".segment")) way[segment.dataset.segment] = points(segment.querySelector(".reach"));
    const near = (p, others) => Math.min(...others.map(q => Math.hypot(p.x - q.x, p.y - q.y)));
    const colour = {};
    for (const row of document.querySelectorAll("#trains tbody tr")) {
        colour[row.dataset.train] = getComputedStyle(row.querySelector(".chip")).backgroundColor;
    }
    const centre = {};
    for (const box of all(".boxes > g")) {
        centre[box.dataset.box] = placed(box.querySelector(".reach"), new DOMPoint(0, 0));
    }
    const found = [];
    for (const train of all(".trains > g")) {
        const on = train.dataset.on.split(" ").flatMap(segment => way[segment]);
        const bar = train.querySelector(".bar");
        const off = points(bar).some(p => near(p, on) > 6 * u);
        if (off) found.push(`${train.dataset.train} isn't on ${train.dataset.on}`);
        if (getComputedStyle(bar).stroke !== colour[train.dataset.train]) found.push(`${train.dataset.train}'s colour`);
        const across = train.dataset.on.includes(" ");
        const atBox = points(bar).some(p => near(p, Object.values(centre)) < (across ? 6 * u : 6));
        if (atBox !== across) found.push(`${train.dataset.train} is ${atBox ? "" : "not "}at a box`);
        for (const segment of train.dataset.on.split(" ")) {
            const touches = points(bar).some(p => near(p, way[segment]) < 3 * u);
            if (!touches) found.push(`${train.dataset.train} isn't on ${segment}`);
        }
        const row = document.querySelector(`tr[data-train="${train.dataset.train}"]`);
        const made = parseInt(row.cells[3].textContent, 10);
        const step = steps[train.dataset.train][made];
        if (!step || across) continue;
        const track = way[step.from];
        const place = p => track.indexOf(track.reduce((a, q) => {
            return Math.hypot(a.x - p.x, a.y - p.y) <= Math.hypot(q.x - p.x, q.y - p.y) ? a : q;
        }));
        const [head, tail] = [place(points(train.querySelector(".head"))[0]), place(points(bar)[0])];
        const toEnd = near(centre[step.box], [track[120]]) < near(centre[step.box], [track[0]]);
        if ((head > tail) !== toEnd) found.push(`${train.dataset.train} looks away from ${step.box}`);
    }
    for (const { dataset: { segment } } of all(".tags")) {
        const tags = [...svg.querySelectorAll(`.tags[data-segment="${segment}"] .tag`)];
        const here = all(".trains > g").filter(train => train.dataset.on.split(" ")[0] === segment)
            .map(train => train.dataset.train);
        const holders = [...svg.querySelectorAll(`.holds [data-segment="${segment}"][data-box]`)]
            .map(hold => hold.dataset.train).filter(train => train !== "*" && !here.includes(train));
        const wanted = [...new Set(here.concat(holders))].sort();
        const said = [...new Set(tags.map(tag => tag.textContent))].sort();
        if (String(said) !== String(wanted)) found.push(`the tags of ${segment} are ${said}, not ${wanted}`);
        for (const tag of tags) {
            const stroke = getComputedStyle(tag.querySelector("rect")).stroke;
            if (stroke !== colour[tag.textContent]) found.push(`the colour of the tag ${tag.textContent}`);
        }
    }
    const shown = all(".holds > g").filter(hold => getComputedStyle(hold).display !== "none").map(hold => {
        const path = hold.querySelector(".colour");
        const [first, last] = [path.getPointAtLength(0), path.getPointAtLength(path.getTotalLength())];
        return { segment: hold.dataset.segment, ends: [first, last], colour: getComputedStyle(path).stroke };
    });
    for (const { dataset: { segment, box, train } } of all(".holds [data-box]")) {
        const here = shown.filter(hold => hold.segment === segment && near(centre[box], hold.ends) < 20 * u);
        const wanted = train === "*" ? [] : [colour[train]];
        const isRight = String(here.map(hold => hold.colour)) === String(wanted);
        if (!isRight) found.push(`${segment} at ${box} isn't ${train}'s`);
    }
    for (const box of all(".boxes > .point")) {
        const blade = box.querySelector(".blade");
        const tip = placed(blade, blade.getPointAtLength(blade.getTotalLength()));
        const [left, right] = [1, 2].map(arm => near(tip, way[arms[box.dataset.box][arm]]));
        const side = left < 2 && right > 5 ? "left" : right < 2 && left > 5 ? "right" : "moving";
        if (side !== box.dataset.points) found.push(`the blade of ${box.dataset.box} is ${side}`);
    }
    for (const box of all(".boxes > g")) {
        const ring = box.querySelector(".ring");
        const wanted = box.dataset.lock === "*" ? undefined : colour[box.dataset.lock];
        if ((ring && getComputedStyle(ring).stroke) !== (wanted || null)) found.push(`the ring of ${box.dataset.box}`);
    }
    return found;
}

// Goes through some moves, and answers the pairs of labels of which one lies over the other.
function overlaps(step) {
    const slider = document.getElementById("slider");
    const found = new Set();
    for (let move = 0; move <= Number(slider.max); move += step) {
        slider.value = move;
        slider.dispatchEvent(new Event("input"));
        const labels = [...document.querySelectorAll("#picture .labels text, #picture .tag rect, #picture .reason")]
            .filter(label => getComputedStyle(label).visibility === "visible")
            .map(label => ({ label, box: label.getBoundingClientRect() })).sort((a, b) => a.box.left - b.box.left);
        labels.forEach(({ label, box }, i) => {
            for (let j = i + 1; j < labels.length && labels[j].box.left < box.right - 2.5; j++) {
                const other = labels[j].box;
                if (other.top > box.bottom - 4 || other.bottom < box.top + 4) continue;
                const says = element => element.textContent || element.parentNode.textContent;
                found.add(`${says(label)} over ${says(labels[j].label)} at ${move}`);
            }
        });
    }
    return [...found].slice(0, 10);
}

const at = () => Number(document.documentElement.dataset.move);
const goTo = move => new Promise(resolve => {
    if (location.hash === "#move=" + move) return resolve();
    addEventListener("hashchange", () => setTimeout(resolve, 0), { once: true });
    location.hash = "#move=" + move;
});
const picture = () => document.getElementById("picture").innerHTML;
const wait = time => new Promise(resolve => setTimeout(resolve, time));
const middleOf = selector => {
    const { left, top, width, height } = document.querySelector(selector).getBoundingClientRect();
    return [left + width / 2, top + height / 2];
};

async function testNetwork(name) {
    const tables = tablesOf(read("pages", name + ".tables"));
    const report = read("pages", name + ".report");
    const moves = report.split("\n").filter(line => !/^(relis|tries|train|end|$)/.test(line)).length;

    await test(`${name}: the drawn parts are those of the tables`, async () => {
        await browser.visit(page(name));
        const kinds = Object.values(tables.boxes).map(box => box.kind);
        assert.deepEqual(await browser.run(drawnParts), {
            segments: [...tables.segments].sort(), boxes: Object.keys(tables.boxes).sort(), rails: tables.segments.size,
            trains: Object.keys(tables.trains).sort(), ends: 2 * tables.segments.size,
            kinds: Object.fromEntries(["buffer", "joint", "point", "crossing"]
                .map(kind => [kind, kinds.filter(other => other === kind).length])),
            rows: Object.keys(tables.trains).length, moves,
        });
        assert.equal(await browser.run(() => document.title), `${name} - relis`);
    });
    await test(`${name}: the first, a middle and the last state are those of the report`, async () => {
        const middle = Math.floor(moves / 2);
        const arms = {};
        for (const box in tables.boxes) arms[box] = tables.boxes[box].arms.map(([segment]) => segment);
        await browser.visit(page(name), "#move=" + middle);
        for (const move of new Set([middle, 0, Math.min(7, moves), moves])) {
            await browser.run(goTo, move);
            assert.equal(await browser.run(at), move);
            const [drawn, wanted] = [await browser.run(drawnWorld), worldAfter(tables, report, move)];
            if (move === moves) drawn.now = wanted.now;
            assert.deepEqual(drawn, wanted, `after ${move} moves`);
            assert.deepEqual(await browser.run(misdrawn, arms, tables.steps), [], `after ${move} moves`);
            const caption = await browser.run(() => document.getElementById("caption").textContent);
            const line = report.split("\n")[move + 1];
            const told = move ? toldOf(line) : "At the start";
            assert.equal(caption, move ? `${move}. ${told}` : told);
        }
        const now = train => document.querySelector(`tr[data-train="${train}"]`).cells[1].textContent;
        for (const line of report.split("\n").filter(line => line.startsWith("train"))) {
            const [, train, fate] = line.split(" ");
            const said = await browser.run(now, train);
            assert.ok(said.startsWith(fate), `${train}: ${said}`);
        }
    });
    await test(`${name}: no label lies over another`, async () => {
        assert.deepEqual(await browser.run(overlaps, Math.ceil((moves + 1) / (moves > 3000 ? 20 : 60))), []);
    });
    await test(`${name}: fits 360 pixels`, async () => {
        await browser.size(360, 740);
        assert.ok(await browser.run(() => document.documentElement.scrollWidth) <= 360);
        await browser.size(1280, 900);
    });
}

async function testWays(name) {
    await test("the state doesn't depend on the way to it", async () => {
        await browser.visit(page(name), "#move=20");
        const linked = await browser.run(picture);
        const same = async () => {
            const now = await browser.run(picture);
            const from = [...now].findIndex((sign, i) => sign !== linked[i]);
            const about = text => text.slice(Math.max(0, from - 100), from + 100);
            assert.ok(now === linked, `${about(now)}\nin place of\n${about(linked)}`);
        };
        await browser.key("End");
        await browser.key("Home");
        for (let i = 0; i < 20; i++) await browser.key("ArrowRight");
        await browser.run(wait, 400);
        await same();
        for (let i = 0; i < 3; i++) await browser.key("ArrowRight");
        for (let i = 0; i < 3; i++) await browser.key("ArrowLeft");
        await same();
    });
    await test("keys, and the address", async () => {
        const moves = await browser.run(() => Number(document.getElementById("slider").max));
        await browser.key("Home");
        assert.equal(await browser.run(at), 0);
        await browser.key("ArrowLeft");
        assert.equal(await browser.run(at), 0);
        await browser.key("ArrowRight");
        await browser.key("ArrowRight");
        assert.equal(await browser.run(at), 2);
        await browser.run(wait, 900);
        assert.equal(await browser.run(() => location.hash), "#move=2");
        await browser.key("End");
        await browser.key("ArrowRight");
        assert.equal(await browser.run(at), moves);
        await browser.run(goTo, 12);
        assert.equal(await browser.run(at), 12);
        await browser.run(() => { location.hash = "#move=nonsense"; });
        await browser.run(wait, 50);
        assert.equal(await browser.run(at), 0);
    });
    await test("space plays and pauses", async () => {
        await browser.key("Home");
        await browser.run(() => { document.getElementById("speed").value = "60"; });
        await browser.key(" ", "Space", " ");
        await browser.run(wait, 500);
        await browser.key(" ", "Space", " ");
        const stopped = await browser.run(at);
        assert.ok(stopped > 3, `after half a second at ${stopped}`);
        await browser.run(wait, 900);
        assert.equal(await browser.run(at), stopped);
        assert.equal(await browser.run(() => location.hash), `#move=${stopped}&speed=60`);
    });
    await test("the slider, the buttons and the list", async () => {
        const moves = await browser.run(() => Number(document.getElementById("slider").max));
        await browser.click(...await browser.run(middleOf, "#slider"));
        const middle = await browser.run(at);
        assert.ok(Math.abs(middle - moves / 2) < moves / 10, `the slider's middle is ${middle} of ${moves}`);
        await browser.key("ArrowRight");
        assert.equal(await browser.run(at), middle + 1);
        await browser.key(" ", "Space", " ");
        await browser.key(" ", "Space", " ");
        for (const [button, wanted] of [["first", 0], ["forward", 1], ["back", 0], ["last", moves]]) {
            await browser.click(...await browser.run(middleOf, "#" + button));
            assert.equal(await browser.run(at), wanted, button);
        }
        await browser.key("Home");
        await browser.click(...await browser.run(middleOf, '#rows [data-move="5"]'));
        assert.equal(await browser.run(at), 5);
        const chosen = () => {
            const row = document.querySelector('[aria-selected="true"]');
            return [row.dataset.move, row.lastChild.textContent];
        };
        assert.deepEqual(await browser.run(chosen), ["5", read("pages", name + ".report").split("\n")[6]]);
    });
    await test("every line of the list is that of the report", async () => {
        const lines = read("pages", name + ".report").split("\n").slice(2);
        for (let i = 0; i < 12; i++) await browser.key("ArrowRight");
        const rows = await browser.run(() => [...document.querySelectorAll("#rows [data-move]")]
            .map(row => [Number(row.dataset.move), row.lastChild.textContent]));
        for (const [move, line] of rows) assert.equal(line, move ? lines[move - 1] : "the start");
    });
}

async function testView(name) {
    await test("closer, farther, drag and the whole network", async () => {
        await browser.visit(page(name), "#move=12");
        const view = () => document.getElementById("picture").getAttribute("viewBox").split(" ").map(Number);
        const before = await browser.run(view);
        await browser.key("+", "Equal", "+");
        assert.ok((await browser.run(view))[2] < before[2]);
        const [x, y] = await browser.run(middleOf, "#picture");
        const at = await browser.run(view);
        for (const [type, by] of [["mousePressed", 0], ["mouseMoved", 60], ["mouseReleased", 60]]) {
            const mouse = { type, x: x + by, y, button: "left", buttons: 1, clickCount: 1 };
            await browser.send("Input.dispatchMouseEvent", mouse);
        }
        assert.ok((await browser.run(view))[0] < at[0]);
        await browser.key("0", "Digit0", "0");
        await browser.run(wait, 50);
        const [left, top, width, height] = await browser.run(view);
        const inside = (left, top, right, bottom) => {
            const boxes = [...document.querySelectorAll("#picture .labels text")].map(text => text.getBBox());
            return boxes.every(({ x, y, width, height }) => {
                return x >= left && y >= top && x + width <= right && y + height <= bottom;
            });
        };
        assert.ok(await browser.run(inside, left, top, left + width, top + height), "all names are seen");
    });
    await test("light and dark", async () => {
        const paper = () => getComputedStyle(document.getElementById("stage")).backgroundColor;
        const light = await browser.run(paper);
        await browser.media([{ name: "prefers-color-scheme", value: "dark" }]);
        assert.notEqual(await browser.run(paper), light);
        await browser.media([]);
    });
    await test("no motion where the system asks for none", async () => {
        const report = read("pages", name + ".report").split("\n").slice(2);
        const enter = report.findIndex(line => line.startsWith("enter"));
        const bar = () => [...document.querySelectorAll("#picture .bar")].map(path => path.getAttribute("d")).join();
        const seen = async () => {
            await browser.run(goTo, enter);
            await browser.key("ArrowRight");
            const first = await browser.run(bar);
            await browser.run(wait, 500);
            return [first, await browser.run(bar)];
        };
        await browser.media([{ name: "prefers-reduced-motion", value: "reduce" }]);
        const [still, stands] = await seen();
        assert.equal(still, stands);
        const blade = () => getComputedStyle(document.querySelector("#picture .blade")).animationName;
        assert.equal(await browser.run(blade), "none");
        await browser.media([{ name: "prefers-reduced-motion", value: "no-preference" }]);
        const [moves, ends] = await seen();
        assert.notEqual(moves, ends);
        assert.equal(ends, stands);
        await browser.media([]);
    });
    await test("the picture saved as SVG stands alone", async () => {
        const saved = await browser.run(() => {
            let link;
            HTMLAnchorElement.prototype.click = function () { link = this; };
            document.getElementById("save").click();
            const text = decodeURIComponent(link.href.slice(link.href.indexOf(",") + 1));
            const parsed = new DOMParser().parseFromString(text, "image/svg+xml");
            return { name: link.download, text, trains: parsed.querySelectorAll(".trains > g").length,
                fault: parsed.querySelector("parsererror")?.textContent };
        });
        assert.equal(saved.fault, undefined);
        assert.match(saved.name, /^[A-Za-z0-9_-]+-move-[0-9]+\.svg$/);
        assert.equal(saved.trains, Object.keys(tablesOf(read("pages", name + ".tables")).trains).length);
        assert.doesNotMatch(saved.text, /var\(|<script|href|url\(/);
    });
    await test("nothing is asked of any place", async () => {
        await browser.visit(page(name));
        const asked = browser.events.filter(event => event.method === "Network.requestWillBeSent")
            .map(event => event.params.request.url).filter(url => !/^(data:|about:)/.test(url));
        assert.deepEqual(asked, ["file://" + page(name)]);
    });
}

const text = selector => document.querySelector(selector)?.textContent;
const changed = (selector, value) => {
    const select = document.querySelector(selector);
    select.value = value;
    select.dispatchEvent(new Event("change"));
};

async function testPlay(name) {
    await test("Play plays from thirty fresh loads, also where a frame's time lies before the clock's", async () => {
        for (let i = 0; i < (few ? 4 : 30); i++) {
            await browser.visit(page(name));
            await browser.run(early => {
                const now = performance.now.bind(performance);
                if (early) performance.now = () => now() + 600;
                document.getElementById("play").click();
            }, i % 2 === 0);
            await browser.run(() => new Promise(resolve => {
                requestAnimationFrame(() => requestAnimationFrame(() => requestAnimationFrame(resolve)));
            }));
            assert.equal(await browser.run(text, "#play"), "Pause", `load ${i}`);
        }
        await browser.run(wait, 1800);
        assert.ok(await browser.run(at) >= 1, "nothing was played");
    });
    await test("the speed is the one that was chosen", async () => {
        const after = async speed => {
            await browser.visit(page(name));
            await browser.run(changed, "#speed", speed);
            await browser.run(() => document.getElementById("play").click());
            await browser.run(wait, 1500);
            return browser.run(at);
        };
        const [slow, fast] = [await after("2"), await after("15")];
        assert.ok(slow >= 1 && slow <= 4, `at 2 a second ${slow}`);
        assert.ok(fast >= 9 && fast <= 24, `at 15 a second ${fast}`);
    });
}

async function testVerdict() {
    const said = { safe: ["safe", "audit: safe, 2 moves"],
        unsafe: ["unsafe", "audit: not safe: line 3, guard 23: the other train doesn't hold the segment there"
            + "Show line 3"],
        faulty: ["unsafe", "audit: line 4 isn't a line of a report here"],
        fails: ["none", 'not audited: the audit answered "audited 6"'] };
    for (const [kind, wanted] of Object.entries(said)) {
        await test(`the verdict: ${kind}`, async () => {
            await browser.visit(path.join(folder, `audited-${kind}.html`), "#move=2");
            assert.deepEqual(await browser.run(() => {
                const told = document.getElementById("verdict");
                return [told.className, told.textContent];
            }), wanted);
            if (kind !== "unsafe") return;
            await browser.run(() => document.getElementById("faulty").click());
            assert.equal(await browser.run(at), 1);
            assert.match(await browser.run(text, "#caption"), /this is the line that isn't safe/);
        });
    }
    await test("two trains on one segment are both seen, and it is said", async () => {
        await browser.visit(path.join(folder, "crash.html"), "#move=4");
        const seen = await browser.run(() => {
            const bars = [...document.querySelectorAll("#picture .bar")].map(bar => bar.getBoundingClientRect());
            return [bars[0].right <= bars[1].left + 1 || bars[1].right <= bars[0].left + 1,
                document.querySelector(".crashed")?.textContent];
        });
        assert.deepEqual(seen, [true, "T1 and T2 are both on B"]);
        assert.match(await browser.run(text, "#caption"), /T1 and T2 are both on B/);
        assert.equal((await browser.run(text, "#verdict")).slice(0, 12), "not audited:");
    });
}

async function testLarge(name) {
    await test("names and trains keep their size, and the cut picture has a map", async () => {
        await browser.visit(page(name));
        const seen = await browser.run(() => {
            const visible = [...document.querySelectorAll("#picture .labels text")]
                .filter(label => getComputedStyle(label).visibility === "visible");
            const least = Math.min(...visible.map(label => label.getBoundingClientRect().height));
            const casing = document.querySelector("#picture .train .casing");
            const wide = parseFloat(getComputedStyle(casing).strokeWidth) * casing.getScreenCTM().a;
            const map = !document.getElementById("map").hasAttribute("hidden");
            return { many: visible.length > 20, least, wide, map,
                cut: document.getElementById("cut").hidden };
        });
        assert.ok(seen.many && seen.least >= 11 && seen.wide > 13 && seen.map && !seen.cut, JSON.stringify(seen));
    });
    await test("a hidden name is shown near the pointer", async () => {
        const [x, y, label] = await browser.run(() => {
            for (const label of document.querySelectorAll("#picture .labels .out .box-name")) {
                const box = document.querySelector(`#picture .boxes [data-box="${label.dataset.box}"] .reach`);
                const { left, top, width, height } = box.getBoundingClientRect();
                const frame = document.getElementById("picture").getBoundingClientRect();
                const [x, y] = [left + width / 2, top + height / 2];
                if (x > frame.left && x < frame.right && y > frame.top && y < Math.min(innerHeight, frame.bottom)) {
                    return [x, y, label.dataset.box];
                }
            }
            return [];
        });
        await browser.send("Input.dispatchMouseEvent", { type: "mouseMoved", x, y });
        await browser.run(wait, 60);
        const shown = label => !document.querySelector(`#picture [data-box="${label}"].box-name`).closest(".out");
        assert.ok(await browser.run(shown, label), label);
    });
    await test("a train that is followed stays in view", async () => {
        for (let i = 0; i < 4; i++) await browser.key("+", "Equal", "+");
        for (const train of ["T0", "T7"]) {
            await browser.run(train => document.querySelector(`tr[data-train="${train}"] .chip`).click(), train);
            for (const move of [1, 200, 400, 600, 800]) {
                await browser.run(goTo, move);
                const inside = await browser.run(train => {
                    const bar = document.querySelector(`#picture [data-train="${train}"] .bar`).getBoundingClientRect();
                    const frame = document.getElementById("picture").getBoundingClientRect();
                    return bar.left >= frame.left && bar.right <= frame.right && bar.top >= frame.top
                        && bar.bottom <= frame.bottom;
                }, train);
                assert.ok(inside, `${train} at ${move}`);
            }
            await browser.key("Escape");
        }
    });
    await test("panning has bounds, and one button drags", async () => {
        await browser.key("0", "Digit0", "0");
        await browser.run(wait, 500);
        const [x, y] = await browser.run(middleOf, "#picture");
        const box = () => document.getElementById("picture").getAttribute("viewBox");
        const drag = async (button, buttons) => {
            for (const [type, by] of [["mousePressed", 0], ["mouseMoved", 300], ["mouseReleased", 300]]) {
                await browser.send("Input.dispatchMouseEvent", { type, x: x + by, y, button, buttons, clickCount: 1 });
            }
        };
        const before = await browser.run(box);
        await drag("middle", 4);
        assert.equal(await browser.run(box), before);
        for (let i = 0; i < 8; i++) await drag("left", 1);
        const [left, , width] = (await browser.run(box)).split(" ").map(Number);
        const least = await browser.run(() => page.view.bounds.x);
        assert.ok(left + width / 2 >= least - 1, `${left} of ${least}`);
    });
}

async function testChoice() {
    await test("a train, a segment and a box can be chosen", async () => {
        await browser.visit(page("terminus"), "#move=20");
        const report = read("pages", "terminus.report").split("\n").slice(2);
        await browser.click(...await browser.run(middleOf, '#picture [data-train="Tram4"] .bar'));
        assert.equal(await browser.run(text, "#chosen h2"), "Train Tram4");
        await browser.key("Escape");
        assert.equal(await browser.run(() => document.getElementById("chosen").hidden), true);
        await browser.run(changed, "#of", "train:Tram3");
        assert.match(await browser.run(text, "#chosen p"), /to plat1; [0-9]+ of 100 tries; route .*\[/);
        const mine = line => / Tram3( |$)/.test(line) && !/^train/.test(line);
        const next = report.findIndex((line, i) => i >= 20 && mine(line)) + 1;
        await browser.run(() => document.getElementById("after").click());
        assert.equal(await browser.run(at), next);
        await browser.run(() => document.getElementById("before").click());
        assert.equal(await browser.run(at), report.slice(0, next - 1).findLastIndex(mine) + 1);
        const rows = () => [...document.querySelectorAll("#rows [data-move]")].slice(1)
            .map(row => row.lastChild.textContent);
        assert.ok((await browser.run(rows)).every(mine), "the list shows its moves only");
        await browser.run(wait, 900);
        assert.match(await browser.run(() => location.hash), /&chosen=train:Tram3$/);
        for (const [kind, name] of [["segment", "mid"], ["box", "P2"]]) {
            await browser.run(changed, "#of", `${kind}:${name}`);
            assert.match(await browser.run(text, "#chosen h2"), new RegExp(name));
            assert.ok((await browser.run(rows)).every(line => line.split(" ").includes(name)), name);
        }
        await browser.visit(page("terminus"), "#move=20&chosen=box:P2&flip=1&speed=5");
        assert.deepEqual(await browser.run(() => [document.querySelector("#chosen h2").textContent,
            document.getElementById("speed").value]), ["Box P2", "5"]);
    });
    await test("the next refusal and entry, kinds, tries, flip", async () => {
        await browser.visit(page("terminus"));
        const report = read("pages", "terminus.report").split("\n").slice(2);
        const no = report.findIndex(line => /^(refuse|bar)/.test(line)) + 1;
        await browser.key("r", "KeyR", "r");
        assert.equal(await browser.run(at), no);
        await browser.key("e", "KeyE", "e");
        assert.equal(await browser.run(at), report.findIndex((line, i) => i >= no && line.startsWith("enter")) + 1);
        await browser.run(changed, "#kind", "lock");
        const rows = () => [...document.querySelectorAll("#rows [data-move]")].slice(1)
            .map(row => row.lastChild.textContent);
        assert.ok((await browser.run(rows)).every(line => line.startsWith("lock ")));
        const x = () => document.querySelector('#picture [data-box="E1"] .reach').getBoundingClientRect().left;
        const before = await browser.run(x);
        await browser.key("m", "KeyM", "m");
        assert.ok(await browser.run(x) > before + 200);
        const tries = await browser.run(() => page.net.trains.map((_, t) => page.play.train(t).tries));
        const move = await browser.run(at);
        const asks = page => report.slice(0, move).filter(line => line.startsWith(`refuse ${page} `)).length;
        assert.ok(tries.every((count, i) => count >= asks("Tram" + (i + 1))), String(tries));
    });
    await test("a click on the chart goes to the move that is drawn there", async () => {
        await browser.visit(page("terminus"));
        await browser.run(() => document.querySelector("#chart canvas").scrollIntoView({ block: "center" }));
        await browser.run(wait, 400);
        const { top, ticks, x } = await browser.run(() => {
            const canvas = document.querySelector("#chart canvas");
            const { left, top } = canvas.getBoundingClientRect();
            return { top, ticks: page.chart.drawn.ticks, x: left + page.chart.placeOf(63) };
        });
        const report = read("pages", "terminus.report").split("\n");
        assert.equal(ticks, report.filter(line => /^(refuse|bar)/.test(line)).length);
        await browser.click(x, top + 5);
        assert.equal(await browser.run(at), 63);
        await browser.run(changed, "#rows-of", "segments");
        const stretches = report.filter(line => line.startsWith("reserve")).length + 2 * 4;
        assert.equal(await browser.run(() => page.chart.drawn.stretches), stretches);
    });
}

async function testJam() {
    await test("a jam is shown as a ring of trains", async () => {
        await browser.visit(page("circle-of-3"));
        assert.match(await browser.run(text, "#jam"), /A jam is ahead/);
        await browser.run(() => document.querySelector("#jam button").click());
        assert.equal(await browser.run(at), 3);
        assert.match(await browser.run(text, "#jam"),
            /^Jam: T0 waits for T1, T1 waits for T2, T2 waits for T0: since move 3 /);
        assert.equal(await browser.run(() => document.querySelectorAll("#picture .awaits").length), 3);
        await browser.key("ArrowLeft");
        assert.equal(await browser.run(() => document.querySelectorAll("#picture .awaits").length), 0);
    });
    await test("a run in which all arrive has no jam", async () => {
        await browser.visit(page("terminus"), "#move=9999");
        assert.equal(await browser.run(() => document.getElementById("jam").hidden), true);
    });
}

async function testAlone() {
    await test("a network alone, and what is dropped on it", async () => {
        await browser.visit(path.join(folder, "alone.html"));
        assert.equal(await browser.run(() => getComputedStyle(document.getElementById("controls")).display), "none");
        assert.equal(await browser.run(() => document.querySelectorAll("#picture .boxes > g").length), 11);
        const dropped = async (...texts) => browser.run(async texts => {
            await drop(texts.map((text, i) => new File([text], `dropped-${i}.txt`)));
            return [document.querySelector("#slider")?.max, document.getElementById("fault")?.textContent];
        }, texts);
        const report = read("pages", "terminus.report");
        const moves = report.split("\n").filter(line => !/^(relis|tries|train|end|$)/.test(line)).length;
        assert.deepEqual(await dropped(report), [String(moves), null]);
        assert.match(await browser.run(text, "#verdict"), /not audited/);
        assert.deepEqual(await dropped(report.replace("tries 100", "tries 0")),
            [null, 'This can\'t be drawn: report, line 2: expected "tries N", N from 1 to 1000, found "tries 0"']);
        assert.deepEqual(await dropped(read("pages", "ring.tables"), read("pages", "ring.report")),
            [String(read("pages", "ring.report").split("\n").length - 5), null]);
        await browser.key("End");
        assert.equal(await browser.run(at), read("pages", "ring.report").split("\n").length - 5);
    });
    await test("without trains the drawing runs as the file does", async () => {
        const tables = read("pages", "straight.tables").replace(/^(train|step).*\n/gm, "").replace(/T1$/gm, "*");
        const places = await browser.run(tables => {
            open("straight", tables);
            return page.picture.boxes.map(box => box.x);
        }, tables);
        assert.deepEqual(places, [...places].sort((a, b) => a - b));
    });
    await test("each crossing is an X of straight arms", async () => {
        for (const name of ["lattice-of-3", "crossing"]) {
            await browser.visit(page(name));
            assert.deepEqual(await browser.run(() => page.net.boxes.flatMap((box, i) => {
                if (box.kind !== "crossing") return [];
                const d = page.picture.boxes[i].directions;
                const bent = [[0, 1], [2, 3]].filter(([a, b]) => d[a][0] * d[b][0] + d[a][1] * d[b][1] > -0.99);
                return bent.length || Math.abs(d[0][0] * d[2][1] - d[0][1] * d[2][0]) < 0.5 ? [box.name] : [];
            })), []);
        }
    });
}

async function testLook() {
    await test("rails, outlines and edges of controls have a contrast of 3", async () => {
        for (const scheme of ["light", "dark"]) {
            await browser.media([{ name: "prefers-color-scheme", value: scheme }]);
            const least = await browser.run(() => {
                const style = getComputedStyle(document.documentElement);
                const light = name => {
                    const value = style.getPropertyValue(name).trim();
                    const [r, g, b] = [1, 3, 5].map(i => parseInt(value.slice(i, i + 2), 16) / 255)
                        .map(c => c <= 0.04045 ? c / 12.92 : ((c + 0.055) / 1.055) ** 2.4);
                    return 0.2126 * r + 0.7152 * g + 0.0722 * b;
                };
                const contrast = (...names) => {
                    const lights = names.map(light);
                    return (Math.max(...lights) + 0.05) / (Math.min(...lights) + 0.05);
                };
                return Math.min(...["--rail", "--edge", "--alarm", "--accent", "--soft", "--good"]
                    .map(name => contrast(name, "--paper")), contrast("--edge", "--ground"));
            });
            assert.ok(least >= 3, `${scheme}: ${least}`);
        }
        await browser.media([]);
    });
    await test("a swipe scrolls, forced colours keep the marks, print leaves the controls out", async () => {
        await browser.visit(page("terminus"), "#move=63");
        const style = (selector, name) => getComputedStyle(document.querySelector(selector))[name];
        assert.equal(await browser.run(style, "#picture", "touchAction"), "pan-y");
        await browser.media([{ name: "forced-colors", value: "active" }]);
        assert.equal(await browser.run(style, "#picture", "forcedColorAdjust"), "none");
        await browser.send("Emulation.setEmulatedMedia", { media: "print" });
        assert.equal(await browser.run(style, "#controls", "display"), "none");
        await browser.send("Emulation.setEmulatedMedia", { media: "", features: [] });
        assert.match(await browser.run(() => document.querySelector("meta[http-equiv]").content),
            /base-uri 'none'; form-action 'none'/);
    });
    await test("ArrowUp on the slider goes on, and on the list back; the columns stay", async () => {
        await browser.run(goTo, 20);
        const widths = () => [...document.querySelectorAll("#trains th")]
            .map(cell => cell.getBoundingClientRect().width);
        const before = await browser.run(widths);
        await browser.run(() => document.getElementById("slider").focus());
        await browser.key("ArrowUp");
        assert.equal(await browser.run(at), 21);
        await browser.run(() => document.getElementById("list").focus());
        await browser.key("ArrowUp");
        assert.equal(await browser.run(at), 20);
        for (const move of [0, 50, 63, 119]) {
            await browser.run(goTo, move);
            assert.deepEqual(await browser.run(widths), before);
        }
    });
    await test("the address isn't written too often", async () => {
        const written = await browser.run(async () => {
            let times = 0;
            const replace = history.replaceState.bind(history);
            history.replaceState = (...words) => { times++; replace(...words); };
            for (let i = 0; i < 300; i++) page.show(i % 100, false);
            await new Promise(resolve => setTimeout(resolve, 900));
            return [times, location.hash];
        });
        assert.deepEqual(written, [1, "#move=99"]);
    });
}

// A report whose moves break the rules is drawn as it says.
async function testWrong() {
    await test("a wrong report is drawn as it says", async () => {
        const report = ["relis report 1", "tries 1", "enter T1 J1 A B", "leave T1 A", "leave T1 A", "unlock T2 E",
            "train T1 spent 7 7", "train T2 underway 0 0", "end", ""].join("\n");
        const wrong = read("faults", "101.html").replace(/(id="report">)[^<]*/, "$1" + report);
        fs.writeFileSync(path.join(folder, "pages", "wrong.html"), wrong);
        await browser.visit(page("wrong"), "#move=2");
        assert.deepEqual((await browser.run(drawnWorld)).trains, { T1: "B", T2: "B" });
        for (const key of ["ArrowRight", "ArrowRight", "Home", "End"]) await browser.key(key);
        assert.equal(await browser.run(at), 4);
    });
}

// The sentence of each damaged text; some of the pages are opened, and of the others only the texts are read.
async function testFaults() {
    for (const [i, fault] of listed("faults", ".html").entries()) {
        const sentence = read("faults", fault + ".txt").trimEnd();
        const html = read("faults", fault + ".html");
        await test("the page says: " + sentence, async () => {
            if (i % 9 && !/script|100000/.test(sentence)) {
                const text = id => html.split(`id="${id}">`)[1].split("</script>")[0];
                const says = await browser.run((tables, report) => {
                    try {
                        readReport(report, readTables(tables));
                    } catch (fault) {
                        return fault.message;
                    }
                }, text("tables"), text("report"));
                assert.equal(says, sentence);
                return;
            }
            await browser.visit(path.join(folder, "faults", fault + ".html"));
            const shown = await browser.run(() => [document.querySelector("#fault")?.textContent,
                document.querySelectorAll("main, svg, button").length]);
            assert.deepEqual(shown, ["This can't be drawn: " + sentence, 0]);
        });
    }
}

// A report of 100,000 moves: those of a run again and again. It is no run, but costs what one costs.
function longReport(name) {
    const lines = read("pages", name + ".report").split("\n");
    const moves = lines.slice(2).filter(line => !/^(train|end|$)/.test(line));
    const all = Array.from({ length: 100000 }, (_, i) => moves[i % moves.length]);
    return [...lines.slice(0, 2), ...all, ...lines.filter(line => /^(train|end)/.test(line)), ""].join("\n");
}

async function testSpeed(name) {
    await test("100,000 moves are there soon, step quickly and take little memory", async () => {
        const html = fs.readFileSync(page(name), "utf8");
        const long = html.replace(/(id="report">)[^<]*/, (_, tag) => tag + longReport(name));
        fs.writeFileSync(path.join(folder, "long.html"), long);
        await browser.send("Performance.enable");
        const busy = async () => {
            const { metrics } = await browser.send("Performance.getMetrics");
            return name => metrics.find(metric => metric.name === name).value;
        };
        const idle = await busy();
        await browser.visit(path.join(folder, "long.html"));
        const load = await busy();
        const there = await browser.run(() => performance.getEntriesByType("navigation")[0].loadEventEnd);
        const parts = ["ScriptDuration", "LayoutDuration", "RecalcStyleDuration"];
        const between = (from, to) => 1000 * parts.reduce((sum, part) => sum + to(part) - from(part), 0);
        const taken = between(idle, load);
        const before = await busy();
        await browser.run(async () => {
            const slider = document.getElementById("slider");
            const frame = () => new Promise(resolve => requestAnimationFrame(resolve));
            for (let move = 1; move <= 100; move++) {
                slider.value = move;
                slider.dispatchEvent(new Event("input"));
                await frame();
            }
        });
        const after = await busy();
        const step = between(before, after) / 100;
        await browser.send("HeapProfiler.collectGarbage");
        const heap = (await browser.send("Runtime.getHeapUsage")).usedSize / 1e6;
        console.log(`view/test: 100,000 moves on ${name}: there after ${there.toFixed(0)} ms, ${taken.toFixed(0)} ms of`
            + ` script and layout; a step takes ${step.toFixed(1)} ms of both; the heap has ${heap.toFixed(1)} MB`);
        assert.ok(there < 8000 && step < 60 && heap < 20);
    });
}

async function main() {
    browser = new Browser(chromium);
    await browser.open();
    await browser.size(1280, 900);
    const names = listed("pages", ".html");
    for (const name of names) await testNetwork(name);
    await testPlay("terminus");
    await testVerdict();
    await testLarge("ring-of-32");
    await testChoice();
    await testJam();
    await testAlone();
    await testLook();
    await testWays("ring-of-4");
    await testView("ring-of-4");
    await testWrong();
    await testFaults();
    await testSpeed("ring-of-32");
    await browser.close();
    console.log(`${passed} passed, ${failed} failed`);
}

const limit = setTimeout(() => {
    console.log("view/test: failed: the browser's tests took too long");
    console.log(`${passed} passed, ${failed + 1} failed`);
    process.exit(1);
}, 300000);
main().then(() => clearTimeout(limit), error => {
    console.log(`view/test: failed: ${error.stack}`);
    console.log(`${passed} passed, ${failed + 1} failed`);
    browser?.child.kill();
    process.exit(1);
});
