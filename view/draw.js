"use strict";
// Draws the network and the state of a play as SVG. Places are those of the layout; what is drawn there keeps its size
// on the screen, so every length is one on the screen times `u`, the layout's unit for a pixel of the screen.

const TRIM = 18;        // a branch of a point begins so far from the point; the blade bridges it
const HELD = 30;        // so much of an end is coloured
const BAR = 46;         // the length of a train
const HEAD = 12;        // of which the pointed head takes so much
const RING = 15;        // the ring of a lock
const COLOURS = 8;

function make(tag, attributes, parent, text) {
    const element = document.createElementNS("http://www.w3.org/2000/svg", tag);
    for (const name in attributes) element.setAttribute(name, attributes[name]);
    if (text !== undefined) element.textContent = text;
    if (parent) parent.append(element);
    return element;
}

function round(number) {
    return Math.round(number * 100) / 100;
}

function scaled(number) {
    return Math.round(number * 10000) / 10000;
}

function pathOf(points) {
    return "M" + points.map(([x, y]) => `${round(x)} ${round(y)}`).join("L");
}

function lengthOf(points) {
    return points.slice(1).reduce((sum, [x, y], i) => sum + Math.hypot(x - points[i][0], y - points[i][1]), 0);
}

// The part of a way between two lengths from its beginning.
function cut(points, from, to) {
    const part = [];
    let sum = 0;
    for (let i = 1; i < points.length; i++) {
        const [p, q] = [points[i - 1], points[i]];
        const length = Math.hypot(q[0] - p[0], q[1] - p[1]);
        const at = share => [p[0] + (q[0] - p[0]) * share, p[1] + (q[1] - p[1]) * share];
        if (sum + length >= from && !part.length) part.push(at(length ? Math.max(0, (from - sum) / length) : 0));
        if (sum + length >= to) {
            part.push(at(length ? (to - sum) / length : 0));
            return part;
        }
        if (part.length) part.push(q);
        sum += length;
    }
    part.push(points[points.length - 1]);
    return part;
}

// How far along a way the place (x, y) on it lies.
function lengthAt(points, x, y) {
    let sum = 0;
    for (let i = 1; i < points.length; i++) {
        const [p, q] = [points[i - 1], points[i]];
        const length = Math.hypot(q[0] - p[0], q[1] - p[1]);
        const to = Math.hypot(x - p[0], y - p[1]);
        if (Math.abs(to + Math.hypot(q[0] - x, q[1] - y) - length) < 0.01) return sum + to;
        sum += length;
    }
    return sum / 2;
}

function directionOf(points) {
    const [p, q] = points;
    const length = Math.hypot(q[0] - p[0], q[1] - p[1]) || 1;
    return [(q[0] - p[0]) / length, (q[1] - p[1]) / length];
}

// The classes of a train's colour, and of the dashes on it where colours are used again.
function colourOf(train) {
    return `c${train % COLOURS} v${Math.floor(train / COLOURS)}`;
}

// The pairs of segments that cross in the drawing away from their ends: the one above, and where on it.
function crossingsOf(segments) {
    const boxes = segments.map(({ way }) => {
        const [xs, ys] = [way.map(p => p[0]), way.map(p => p[1])];
        return [Math.min(...xs), Math.min(...ys), Math.max(...xs), Math.max(...ys)];
    });
    const found = [];
    segments.forEach((over, j) => {
        for (let i = 0; i <= j; i++) {
            const [a, b] = [boxes[i], boxes[j]];
            if (a[0] > b[2] || b[0] > a[2] || a[1] > b[3] || b[1] > a[3]) continue;
            for (const at of meetings(over.way, segments[i].way, i === j)) {
                if (at > 3 && at < over.length - 3) found.push({ over: j, at });
            }
        }
    });
    return found;
}

// The lengths along a way at which another way, or the same, crosses it.
function meetings(way, other, same) {
    const found = [];
    let sum = 0;
    for (let i = 1; i < way.length; i++) {
        const [p, q] = [way[i - 1], way[i]];
        const length = Math.hypot(q[0] - p[0], q[1] - p[1]);
        for (let j = 1; j < other.length; j++) {
            if (same && j >= i - 1) break;
            const [r, s] = [other[j - 1], other[j]];
            const level = (q[0] - p[0]) * (s[1] - r[1]) - (q[1] - p[1]) * (s[0] - r[0]);
            if (Math.abs(level) < 1e-6) continue;
            const t = ((r[0] - p[0]) * (s[1] - r[1]) - (r[1] - p[1]) * (s[0] - r[0])) / level;
            const v = ((r[0] - p[0]) * (q[1] - p[1]) - (r[1] - p[1]) * (q[0] - p[0])) / level;
            if (t >= 0 && t < 1 && v >= 0 && v < 1) found.push(sum + t * length);
        }
        sum += length;
    }
    return found;
}

function mirrored(drawn) {
    const turn = x => drawn.right - x;
    drawn.boxes = drawn.boxes.map(({ x, y }) => ({ x: turn(x), y }));
    drawn.segments = drawn.segments.map(({ way, clear: { x0, x1, y } }) => (
        { way: way.map(([px, py]) => [turn(px), py]), clear: { x0: turn(x1), x1: turn(x0), y } }));
    return drawn;
}

class Picture {
    constructor(svg, net, play, flip) {
        this.svg = svg;
        this.net = net;
        this.play = play;
        this.u = 1;
        this.near = {};
        this.chosen = null;
        svg.replaceChildren();
        const pen = document.createElement("canvas").getContext("2d");
        const family = getComputedStyle(svg).fontFamily;
        const known = new Map();
        this.width = (text, size, weight = 400) => {
            const key = `${weight} ${size}px ${text}`;
            pen.font = `${weight} ${size}px ${family}`;
            if (!known.has(key)) known.set(key, pen.measureText(text).width);
            return known.get(key);
        };
        this.tagWidth = net.trains.map(train => Math.ceil(this.width(train.name, 11, 600)) + 12);
        this.drawn = layOut(net, this.room());
        if (flip) mirrored(this.drawn);
        this.layers = {};
        const layers = ["under", "rails", "holds", "bridges", "boxes", "trains", "jams", "labels", "tags", "marks"];
        for (const name of layers) {
            this.layers[name] = make("g", { class: name }, svg);
        }
        this.halo = make("path", { class: "halo" }, this.layers.under);
        this.choice = make("g", { class: "choice" }, this.layers.under);
        this.jam = make("g", { class: "jam" }, this.layers.jams);
        this.crash = make("g", { class: "crash" }, this.layers.marks);
        this.crashes = [];
        this.segments = net.segments.map((_, i) => this.addSegment(i));
        this.boxes = net.boxes.map((_, i) => this.addBox(i));
        this.segments.forEach((segment, i) => this.addRails(segment, i));
        crossingsOf(this.segments).forEach(crossing => this.addBridge(crossing));
        this.trains = net.trains.map((_, i) => this.addTrain(i));
        this.bounds = this.measureBounds();
        this.rescale(1);
    }

    // What the labels need. A long name of one train or segment doesn't widen the others: then some are hidden.
    room() {
        const { net } = this;
        const widest = (items, size) => Math.max(0, ...items.map(item => this.width(item.name, size)));
        const train = widest(net.trains, 11);
        const reason = net.trains.length > 1
            ? Math.max(widest(net.segments, 11), widest(net.boxes, 11)) + train + this.width("✕  is 's", 11) + 4 : 0;
        const shared = Math.min(132, Math.max(60, 2 * Math.max(0, ...this.tagWidth) + 8, reason));
        return {
            segment: number => Math.max(shared, this.width(net.segments[number].name, 12) + 4),
            box: number => this.width(net.boxes[number].name, 11),
        };
    }

    // A label at a place of the layout; what it takes there is a rectangle on the screen. Lower ranks stay.
    addLabel(group, x, y, rank, [left, top, width, height]) {
        const label = { group, x, y, rank, left, top, width, height, out: false };
        this.putLabel(label);
        return label;
    }

    putLabel({ group, x, y }) {
        group.setAttribute("transform", `translate(${round(x)} ${round(y)}) scale(${scaled(this.u)})`);
    }

    addSegment(number) {
        const { name } = this.net.segments[number];
        const { way, clear } = this.drawn.segments[number];
        const length = lengthOf(way);
        const middle = (clear.x0 + clear.x1) / 2;
        const group = make("g", {}, this.layers.labels);
        make("text", { y: 20, class: "name", "data-segment": name }, group, name);
        const width = this.width(name, 12);
        const label = this.addLabel(group, middle, clear.y, 5, [-width / 2, 9, width, 14]);
        return { way, clear, length, middle, centre: lengthAt(way, middle, clear.y), label, labels: [], bridges: [] };
    }

    addRails(segment, number) {
        const { name, ends } = this.net.segments[number];
        const rail = make("g", { class: "segment", "data-segment": name }, this.layers.rails);
        segment.title = make("title", {}, rail);
        make("path", { d: pathOf(segment.way), class: "reach" }, rail);
        segment.rail = make("path", { class: "rail" }, rail);
        segment.holds = [0, 1, 2].map(i => {
            const hold = make("g", { class: "hold", "data-segment": name }, this.layers.holds);
            if (i < 2) hold.setAttribute("data-box", this.net.boxes[ends[i].box].name);
            for (const kind of ["casing", "colour s", "over"]) make("path", { class: kind }, hold);
            return hold;
        });
        segment.tags = make("g", { class: "tags", "data-segment": name }, this.layers.tags);
    }

    addBridge({ over, at }) {
        const { name } = this.net.segments[over];
        const group = make("g", { class: "crossed", "data-segment": name }, this.layers.bridges);
        const gap = make("path", { class: "bridge" }, group);
        const rail = make("path", { class: "rail" }, group);
        const hold = make("g", { class: "hold" }, group);
        for (const kind of ["casing", "colour s", "over"]) make("path", { class: kind }, hold);
        this.segments[over].bridges.push({ at, gap, rail, hold });
    }

    addBox(number) {
        const { name, kind, arms } = this.net.boxes[number];
        const { x, y } = this.drawn.boxes[number];
        const directions = arms.map(segment => {
            const { way } = this.segments[segment];
            return directionOf(this.net.segments[segment].ends[0].box === number ? way : [...way].reverse());
        });
        const group = make("g", { class: `box ${kind}`, "data-box": name }, this.layers.boxes);
        const space = Math.min(...arms.map(segment => this.segments[segment].length));
        const box = { x, y, directions, group, space, title: make("title", {}, group) };
        make("circle", { r: RING + 4, class: "reach" }, group);
        const across = (half, className) => {
            const [dx, dy] = directions[0];
            make("path", { d: pathOf([[-half * dy, half * dx], [half * dy, -half * dx]]), class: className }, group);
        };
        if (kind === "buffer") across(9, "stop");
        else if (kind === "joint") across(6, "gap");
        else if (kind === "point") {
            box.blade = make("path", { class: "blade" }, group);
            make("circle", { r: 3.5, class: "toe" }, group);
        }
        box.ring = make("g", { class: "lock" }, group);
        this.nameBox(name, box, kind);
        return box;
    }

    // The name stands where no track leaves the box: above it, below it, or beside.
    nameBox(name, box, kind) {
        const { x, y, directions } = box;
        const up = directions.filter(([, dy]) => dy < -0.1), down = directions.filter(([, dy]) => dy > 0.1);
        let place = { x: 0, y: -23 };
        if (kind === "crossing") place = { x: 0, y: -32 };
        else if (up.length && !down.length) place = { x: 0, y: 30 };
        else if (up.length) {
            const east = up.every(([dx]) => dx < 0);
            const west = up.every(([dx]) => dx > 0);
            if (east) place = { x: 4, y: -23, "text-anchor": "start" };
            else if (west) place = { x: -4, y: -23, "text-anchor": "end" };
            else place = { x: 0, y: -40 };
        }
        const group = make("g", {}, this.layers.labels);
        make("text", { ...place, class: "box-name", "data-box": name }, group, name);
        const width = this.width(name, 11);
        const left = { start: place.x, end: place.x - width }[place["text-anchor"]] ?? place.x - width / 2;
        box.label = this.addLabel(group, x, y, 4, [left, place.y - 10, width, 13]);
    }

    addTrain(number) {
        const { name } = this.net.trains[number];
        const group = make("g", { class: `train ${colourOf(number)}`, "data-train": name }, this.layers.trains);
        const title = make("title", {}, group);
        const parts = ["casing", "bar s", "windows"].map(kind => make("path", { class: kind }, group));
        const head = make("path", { class: "head f" }, group);
        const mark = make("g", { class: "refusal", "data-train": name }, this.layers.marks);
        return { group, title, parts, head, mark, labels: [] };
    }

    // Draws what keeps its size on the screen for so many pixels of the screen to the layout's unit.
    rescale(scale) {
        this.scale = scale;
        this.u = Math.max(1, Math.min(scale, 1.5)) / scale;
        this.svg.style.setProperty("--u", scaled(this.u));
        this.boxes.forEach(box => {
            box.size = this.u * Math.min(1, box.space / (50 * this.u));
            const place = `translate(${round(box.x)} ${round(box.y)})`;
            box.group.setAttribute("transform", `${place} scale(${scaled(box.size)})`);
            this.putLabel(box.label);
        });
        this.segments.forEach((segment, i) => {
            this.layRails(segment, i);
            this.putLabel(segment.label);
        });
        this.showAll();
    }

    showAll() {
        const { net } = this;
        net.segments.forEach((_, i) => this.showSegment(i));
        net.boxes.forEach((_, i) => this.showBox(i));
        net.trains.forEach((_, i) => this.showTrain(i));
        this.showCrashes();
        this.showHalo();
        this.showChoice();
        this.declutter();
    }

    layRails(segment, number) {
        const { way, length } = segment;
        const { ends } = this.net.segments[number];
        segment.trim = ends.map(end => {
            return this.net.boxes[end.box].kind === "point" && end.arm > 0 ? TRIM * this.boxes[end.box].size : 0;
        });
        const [first, last] = [segment.trim[0], length - segment.trim[1]];
        segment.rail.setAttribute("d", pathOf(cut(way, first, last)));
        const held = segment.held = Math.min(HELD * this.u, (last - first) / 3);
        const parts = [[first, first + held], [last - held, last], [first, last]];
        segment.holds.forEach((hold, i) => {
            const d = pathOf(cut(way, ...parts[i]));
            for (const path of hold.children) path.setAttribute("d", d);
        });
        for (const { at, gap, rail, hold } of segment.bridges) {
            const half = 9 * this.u;
            gap.setAttribute("d", pathOf(cut(way, Math.max(0, at - half), Math.min(length, at + half))));
            const d = pathOf(cut(way, Math.max(0, at - half - 1), Math.min(length, at + half + 1)));
            for (const path of [rail, ...hold.children]) path.setAttribute("d", d);
        }
    }

    // A tag with the train's name: filled where the train is, outlined where it holds.
    addTag(segment, train, anchor, x, up, kind) {
        const width = this.tagWidth[train];
        const left = anchor === "start" ? 0 : anchor === "end" ? -width : -width / 2;
        const tag = make("g", { class: `tag ${kind} ${colourOf(train)}` }, segment.tags);
        const rx = kind === "here" ? 4 : 7.5;
        make("rect", { x: round(left), y: -27 - up, width, height: 15, rx, class: "f s" }, tag);
        make("text", { x: round(left + width / 2), y: -15.5 - up }, tag, this.net.trains[train].name);
        const rank = kind === "here" ? 1 : 6;
        segment.labels.push(this.addLabel(tag, x, segment.clear.y, rank, [left - 1, -27 - up, width + 2, 15.5]));
    }

    showSegment(number) {
        const { play, net } = this;
        const segment = this.segments[number];
        const { clear, middle, length, held } = segment;
        const holders = [play.holder(number, 0), play.holder(number, 1)];
        const whole = holders[0] !== NONE && holders[0] === holders[1];
        const isOn = (holder, on) => holder !== NONE && on ? `hold on ${colourOf(holder)}` : "hold";
        segment.holds.forEach((hold, i) => {
            const holder = holders[i % 2];
            hold.setAttribute("class", isOn(holder, (i === 2) === whole));
            if (i < 2) hold.setAttribute("data-train", holder === NONE ? "*" : net.trains[holder].name);
        });
        for (const { at, hold } of segment.bridges) {
            const end = at < length / 2 ? 0 : 1;
            const inEnd = (end ? length - at : at) < held + segment.trim[end];
            hold.setAttribute("class", isOn(holders[end], whole || inEnd));
        }
        segment.tags.replaceChildren();
        segment.labels = [];
        const near = end => {
            const p = end === 0 ? segment.way[0] : segment.way[segment.way.length - 1];
            return Math.abs(p[0] - clear.x0) < Math.abs(p[0] - clear.x1) ? ["start", clear.x0] : ["end", clear.x1];
        };
        const here = play.trainsOn(number);
        here.filter(train => play.train(train).on === number).forEach((train, i) => {
            const { across } = play.train(train);
            const place = across === NONE ? ["middle", here.length > 1 ? this.middleOf(train)[0] : middle]
                : near(this.endAt(number, across));
            this.addTag(segment, train, ...place, here.length > 1 && across === NONE ? 0 : 16 * i, "here");
        });
        const isHere = holder => here.includes(holder) && play.train(holder).on === number;
        const free = holders.map(holder => holder !== NONE && !isHere(holder));
        if (whole && free[0]) this.addTag(segment, holders[0], "middle", middle, 0, "held");
        else if (!whole) {
            free.forEach((is, end) => { if (is) this.addTag(segment, holders[end], ...near(end), 0, "held"); });
        }
        const says = end => {
            const box = net.boxes[net.segments[number].ends[end].box].name;
            return holders[end] === NONE ? `free at ${box}` : `held at ${box} by ${net.trains[holders[end]].name}`;
        };
        segment.says = `${says(0)}, ${says(1)}`;
        segment.title.textContent = `${net.segments[number].name}: ${segment.says}`;
    }

    endAt(segment, box) {
        return this.net.segments[segment].ends[0].box === box ? 0 : 1;
    }

    // The way of a segment toward a box.
    toward(segment, box) {
        const { way } = this.segments[segment];
        return this.endAt(segment, box) ? way : [...way].reverse();
    }

    showBox(number) {
        const { net, play } = this;
        const { name, kind, arms } = net.boxes[number];
        const box = this.boxes[number];
        const { directions } = box;
        const side = play.side(number);
        let stands = kind;
        if (kind === "point") {
            const [left, right] = [directions[1], directions[2]];
            const toward = side === MOVING ? [(left[0] + right[0]) / 2, (left[1] + right[1]) / 2] : side ? right : left;
            const size = (side === MOVING ? TRIM - 2 : TRIM) / Math.hypot(...toward);
            box.blade.setAttribute("d", pathOf([[0, 0], [toward[0] * size, toward[1] * size]]));
            const word = ["left", "right", "moving"][side];
            box.group.setAttribute("data-points", word);
            box.group.setAttribute("class", `box point ${word}`);
            stands = side === MOVING ? "points moving" : `points at ${word}, to ${net.segments[arms[1 + side]].name}`;
        }
        const lock = play.lock(number);
        box.ring.replaceChildren();
        box.ring.setAttribute("class", "lock");
        box.group.setAttribute("data-lock", lock.train === NONE ? "*" : net.trains[lock.train].name);
        if (lock.train !== NONE) {
            const [from, to] = [lock.from, lock.to].map(segment => arms.indexOf(segment));
            const connected = kind !== "point" || (from === 0 ? to : from) === side + 1;
            box.ring.setAttribute("class", `lock ${colourOf(lock.train)} ${connected ? "" : "unset"}`);
            const at = (arm, size) => [directions[arm][0] * size, directions[arm][1] * size];
            const way = pathOf([at(from, RING), [0, 0], at(to, RING - 4)]);
            make("circle", { r: RING, class: "casing" }, box.ring);
            make("circle", { r: RING, class: "ring s" }, box.ring);
            make("path", { d: way, class: "casing" }, box.ring);
            make("path", { d: way, class: "path s" }, box.ring);
            make("path", { d: this.arrow(at(to, RING + 5), directions[to], 11, 7), class: "tip f" }, box.ring);
            stands += `; locked by ${net.trains[lock.train].name} from ${net.segments[lock.from].name}`
                + ` to ${net.segments[lock.to].name}`;
        }
        box.says = stands;
        box.title.textContent = `${name}: ${stands}`;
    }

    arrow([x, y], [dx, dy], length, half) {
        const [bx, by] = [x - dx * length, y - dy * length];
        return pathOf([[x, y], [bx - dy * half, by + dx * half], [bx + dy * half, by - dx * half]]) + "Z";
    }

    // The way on which a train is drawn, and from where to where on it; `headed` where it has a direction, and `aside`
    // where another goes across the same box.
    placeOf(number) {
        const { net, play, u } = this;
        const { on, to, across, made } = play.train(number);
        const others = net.trains.map((_, t) => t).filter(t => {
            const other = play.train(t);
            return across === NONE ? other.on === on && other.across === NONE : other.across === across;
        });
        const share = others.indexOf(number) - (others.length - 1) / 2;
        if (across !== NONE) {
            const way = this.toward(on, across).concat([...this.toward(to, across)].reverse());
            const at = this.segments[on].length;
            const [back, front] = [Math.min(28 * u, 0.6 * at), Math.min(32 * u, 0.6 * this.segments[to].length)];
            return { way, from: at - back, to: at + front, headed: true, aside: share * 20 * u };
        }
        const { steps } = net.trains[number];
        const next = steps[made], last = steps[made - 1];
        const segment = this.segments[on];
        let way = segment.way, headed = true;
        if (next && next.from === on) way = this.toward(on, next.box);
        else if (last && last.to === on) way = [...this.toward(on, last.box)].reverse();
        else headed = false;
        const bar = Math.min(BAR * u, 0.64 * segment.length, 0.9 * segment.length / others.length);
        const own = segment.centre + share * (bar + 6 * u);
        const centre = way[0] === segment.way[0] ? own : segment.length - own;
        return { way, from: centre - bar / 2, to: centre + bar / 2, headed, aside: 0 };
    }

    middleOf(train) {
        const { way, from, to } = this.placeOf(train);
        return cut(way, (from + to) / 2, (from + to) / 2 + 0.1)[0];
    }

    drawTrain(number, { way, from, to, headed, aside }) {
        const { group, parts, head } = this.trains[number];
        const { u } = this;
        const nose = headed ? Math.min(HEAD * u, (to - from) / 2) : 0;
        [this.trains[number].middle] = cut(way, (from + to) / 2, (from + to) / 2 + 0.1);
        const body = pathOf(cut(way, from, to - nose));
        parts.forEach(part => part.setAttribute("d", body));
        const [back, front] = [Math.min(from + 5 * u, to - nose), Math.max(from, to - nose - 2 * u)];
        parts[2].setAttribute("d", pathOf(cut(way, back, front)));
        const end = cut(way, to - nose, to);
        const tip = end[end.length - 1];
        head.setAttribute("d", headed ? this.arrow(tip, directionOf(end.slice(-2)), nose + 0.5 * u, 7.5 * u) : "");
        if (aside) group.setAttribute("transform", `translate(0 ${round(aside)})`);
        else group.removeAttribute("transform");
    }

    showTrain(number) {
        const { net, play } = this;
        const train = this.trains[number];
        const { on, to, across, wait } = play.train(number);
        train.group.setAttribute("data-on", net.segments[on].name + (to === NONE ? "" : " " + net.segments[to].name));
        this.drawTrain(number, this.placeOf(number));
        train.mark.replaceChildren();
        train.labels = [];
        let says = this.whereIs(number);
        if (wait !== NONE) {
            const move = play.run.moves.at(wait);
            const still = play.isStillHeld(move);
            const what = move.verb === "refuse" ? net.segments[move.segments[0]].name : net.boxes[move.box].name;
            const by = net.trains[move.by].name;
            const reason = still ? `✕ ${what} is ${by}'s` : `${what} was ${by}'s`;
            const { clear, middle } = this.segments[on];
            if (across === NONE) {
                const group = make("g", {}, train.mark);
                make("text", { y: -32, class: still ? "reason" : "reason past" }, group, reason);
                const width = this.width(reason, 11, 600);
                train.labels.push(this.addLabel(group, middle, clear.y, 2, [-width / 2, -42, width, 13]));
            }
            const [x, y] = this.refusedAt(move);
            const cross = make("g", { class: still ? "cross" : "cross past",
                transform: `translate(${round(x)} ${round(y)}) scale(${scaled(this.u)})` }, train.mark);
            make("title", {}, cross, tell(net, move));
            for (const kind of ["casing", "line"]) make("path", { d: "M-5 -5l10 10m0 -10l-10 10", class: kind }, cross);
            says += `; ${tell(net, move)}`;
        }
        train.title.textContent = `${net.trains[number].name}: ${says}`;
    }

    // Where on the track a refusal is marked: on the segment that was refused, or on the box that was barred.
    refusedAt(move) {
        if (move.verb === "bar") {
            const { x, y } = this.boxes[move.box];
            return [x, y];
        }
        const segment = this.segments[move.segments[0]];
        const end = this.endAt(move.segments[0], move.box);
        const at = Math.min(segment.trim[end] + segment.held / 2 + 5 * this.u, segment.length / 3);
        const part = cut(end ? [...segment.way].reverse() : segment.way, 0, at);
        return part[part.length - 1];
    }

    whereIs(number) {
        const { net, play } = this;
        const { on, to, across } = play.train(number);
        if (across === NONE) return net.segments[on].name;
        return `${net.segments[on].name} and ${net.segments[to].name}, across ${net.boxes[across].name}`;
    }

    // Where two trains are on one segment or across one box: said on the picture.
    showCrashes() {
        const { net, play } = this;
        const { segments, boxes } = play.collisions();
        const names = trains => trains.map(t => net.trains[t].name).join(" and ");
        this.crash.replaceChildren();
        this.crashes = [];
        const add = (x, y, says) => {
            const group = make("g", { class: "crashed" }, this.crash);
            make("circle", { r: 25 }, group);
            make("text", { y: 36 }, group, says);
            const width = this.width(says, 12, 700);
            this.crashes.push(this.addLabel(group, x, y, 0, [-width / 2, 25, width, 14]));
        };
        segments.forEach(([segment, trains]) => {
            const { middle, clear } = this.segments[segment];
            add(middle, clear.y, `${names(trains)} are both on ${net.segments[segment].name}`);
        });
        boxes.forEach(([box, trains]) => {
            const { x, y } = this.boxes[box];
            add(x, y, `${names(trains)} are both across ${net.boxes[box].name}`);
        });
        this.crashSays = [...this.crash.querySelectorAll("text")].map(text => text.textContent);
    }

    // The place of the present move.
    showHalo() {
        const { play } = this;
        const move = play.run.moves.at(play.at - 1);
        this.halo.setAttribute("d", move ? this.placesOf(move).map(pathOf).join("") : "");
    }

    placesOf({ verb, box, segments: [s, s2] }) {
        const end = segment => {
            const way = [...this.toward(segment, box)].reverse();
            return cut(way, 0, Math.min(1.4 * HELD * this.u, this.segments[segment].length / 2));
        };
        if (verb === "leave") return [this.segments[s].way];
        if (["reserve", "release", "refuse"].includes(verb)) return [end(s)];
        if (verb === "enter") return [end(s), end(s2)];
        const { x, y } = this.boxes[box];
        return [[[x, y], [x + 0.1, y]]];
    }

    // What is chosen: a segment, a box, or a train with the rest of its route.
    showChoice() {
        const { chosen, choice, net, play } = this;
        choice.replaceChildren();
        if (!chosen) return;
        const { kind, number } = chosen;
        if (kind === "segment") make("path", { d: pathOf(this.segments[number].way), class: "chosen" }, choice);
        else if (kind === "box") {
            const { x, y } = this.boxes[number];
            make("path", { d: pathOf([[x, y], [x + 0.1, y]]), class: "chosen round" }, choice);
        } else {
            const { made, on } = play.train(number);
            const rest = [on, ...net.trains[number].steps.slice(made).map(step => step.to)];
            const d = rest.map(segment => pathOf(this.segments[segment].way)).join("");
            make("path", { d, class: `route s ${colourOf(number)}` }, make("g", { class: colourOf(number) }, choice));
            const goal = this.segments[rest[rest.length - 1]];
            const [at] = cut(goal.way, goal.centre, goal.centre + 0.1);
            const flag = make("g", { class: `goal ${colourOf(number)}`,
                transform: `translate(${round(at[0])} ${round(at[1])}) scale(${scaled(this.u)})` }, choice);
            make("circle", { r: 20, class: "s" }, flag);
        }
    }

    choose(chosen) {
        this.chosen = chosen;
        this.showChoice();
        this.declutter();
    }

    // Hides the labels that lie over one of a lower rank.
    declutter() {
        const { u, near, chosen } = this;
        const all = [...this.crashes];
        const label = (item, kind, number) => {
            const first = near[kind] === number || chosen && chosen.kind === kind && chosen.number === number;
            item.label.group.classList.toggle("near", Boolean(first));
            all.push(first ? { ...item.label, of: item.label, rank: 0 } : item.label);
        };
        this.segments.forEach((segment, i) => {
            label(segment, "segment", i);
            all.push(...segment.labels);
        });
        this.boxes.forEach((box, i) => label(box, "box", i));
        this.trains.forEach(train => all.push(...train.labels));
        const trains = this.trains.map(({ middle: [x, y] }) => [x - 20 * u, y - 8 * u, x + 20 * u, y + 8 * u]);
        const placed = [];
        for (const item of all.sort((a, b) => a.rank - b.rank)) {
            const left = item.x + item.left * u, top = item.y + item.top * u;
            const right = left + item.width * u, bottom = top + item.height * u;
            const hits = other => other[0] < right && other[2] > left && other[1] < bottom && other[3] > top;
            const out = placed.some(hits) || item.rank > 1 && trains.some(hits);
            if (!out) placed.push([left, top, right, bottom]);
            const own = item.of || item;
            if (own.out === out) continue;
            own.out = out;
            own.group.classList.toggle("out", out);
        }
    }

    // The nearest segment and box to a place, within a distance: their names are shown.
    point(x, y, most) {
        const nearest = (items, distance) => {
            let best = NONE, least = most;
            items.forEach((item, i) => {
                const far = distance(item);
                if (far < least) [best, least] = [i, far];
            });
            return best;
        };
        const box = nearest(this.boxes, item => Math.hypot(item.x - x, item.y - y));
        const segment = nearest(this.segments, item => Math.min(...item.way.slice(1).map((q, i) => {
            const p = item.way[i];
            const size = (q[0] - p[0]) ** 2 + (q[1] - p[1]) ** 2 || 1;
            const t = Math.max(0, Math.min(1, ((x - p[0]) * (q[0] - p[0]) + (y - p[1]) * (q[1] - p[1])) / size));
            return Math.hypot(p[0] + t * (q[0] - p[0]) - x, p[1] + t * (q[1] - p[1]) - y);
        })));
        if (box === this.near.box && segment === this.near.segment) return;
        this.near = { box, segment };
        this.declutter();
    }

    // Arrows from each train of a jam to the one that it waits for.
    showJams(jams) {
        this.jam.replaceChildren();
        for (const { trains } of jams) {
            trains.forEach((train, i) => {
                const [p, q] = [train, trains[(i + 1) % trains.length]].map(t => this.middleOf(t));
                const far = Math.hypot(q[0] - p[0], q[1] - p[1]) || 1;
                const [dx, dy] = [(q[0] - p[0]) / far, (q[1] - p[1]) / far];
                const bow = Math.min(60 * this.u, 0.3 * far + 14 * this.u);
                const c = [(p[0] + q[0]) / 2 - dy * bow, (p[1] + q[1]) / 2 + dx * bow];
                const lean = Math.hypot(q[0] - c[0], q[1] - c[1]) || 1;
                const direction = [(q[0] - c[0]) / lean, (q[1] - c[1]) / lean];
                const tip = [q[0] - direction[0] * 10 * this.u, q[1] - direction[1] * 10 * this.u];
                const group = make("g", { class: "awaits" }, this.jam);
                const d = `M${round(p[0])} ${round(p[1])}Q${c.map(round).join(" ")} ${tip.map(round).join(" ")}`;
                for (const kind of ["casing", "line"]) make("path", { d, class: kind }, group);
                make("path", { d: this.arrow(tip, direction, 12 * this.u, 6 * this.u), class: "tip" }, group);
            });
        }
    }

    // Shows the state after so many moves.
    go(to) {
        const { net, play } = this;
        const segments = new Set(), boxes = new Set(), trains = new Set();
        const before = net.trains.map((_, t) => play.train(t));
        const touched = play.go(to);
        for (const index of touched) {
            if (index < play.locks) segments.add(index >> 1);
            else if (index < play.points) boxes.add(Math.floor((index - play.locks) / OF_LOCK));
            else if (index < play.trains) boxes.add(index - play.points);
            else trains.add(Math.floor((index - play.trains) / OF_TRAIN));
        }
        for (const train of trains) {
            for (const { on, to: ahead } of [before[train], play.train(train)]) {
                segments.add(on);
                if (ahead !== NONE) segments.add(ahead);
            }
        }
        net.trains.forEach((_, train) => {
            const { on, wait } = play.train(train);
            const why = wait === NONE ? undefined : play.run.moves.at(wait);
            const waits = why && (segments.has(why.segments[0]) || why.verb === "bar" && boxes.has(why.box));
            if (segments.has(on) || waits) trains.add(train);
        });
        segments.forEach(segment => this.showSegment(segment));
        boxes.forEach(box => this.showBox(box));
        trains.forEach(train => this.showTrain(train));
        this.showCrashes();
        this.showHalo();
        if (this.chosen && this.chosen.kind === "train") this.showChoice();
        return { before, trains };
    }

    // What the drawing takes with its labels, whatever the state.
    measureBounds() {
        const box = { left: 0, top: -52, right: this.drawn.right, bottom: this.drawn.bottom + 34 };
        for (const { label } of [...this.segments, ...this.boxes]) {
            box.left = Math.min(box.left, label.x + label.left);
            box.right = Math.max(box.right, label.x + label.left + label.width);
        }
        for (const { way } of this.segments) {
            for (const [x] of way) {
                box.left = Math.min(box.left, x);
                box.right = Math.max(box.right, x);
            }
        }
        return { x: box.left - 16, y: box.top, width: box.right - box.left + 32, height: box.bottom - box.top };
    }
}
