"use strict";
// The page: the picture with its controls, the list of moves, the trains, the address.

const LINE = 22;        // the height of a line in the list of moves
const byId = id => document.getElementById(id);
const textOf = id => byId(id).textContent;

let page, pristine, zoom;

function start() {
    pristine = document.querySelector("main").cloneNode(true);
    zoom = byId("zoom").cloneNode(true);
    open(textOf("file").trim(), textOf("tables"), byId("report")?.textContent, byId("verdict-text")?.textContent);
    addEventListener("dragover", event => event.preventDefault());
    addEventListener("drop", event => {
        event.preventDefault();
        drop([...event.dataTransfer.files]);
    });
}

// Reads texts and shows them; a text that isn't as it should be is told in place of the drawing.
function open(name, tables, report, verdict) {
    if (page) page.end();
    page = null;
    byId("fault")?.remove();
    document.querySelector("main")?.remove();
    if (name) {
        document.title = name + " - relis";
        byId("name").textContent = name;
    }
    let net, run;
    try {
        net = readTables(tables);
        run = report === undefined ? noRun() : readReport(report, net);
    } catch (fault) {
        if (!(fault instanceof Fault)) throw fault;
        showFault(fault.message);
        return;
    }
    const main = pristine.cloneNode(true);
    main.hidden = false;
    document.querySelector("header").after(main);
    byId("zoom")?.remove();
    document.querySelector("header").append(zoom.cloneNode(true));
    byId("zoom").hidden = false;
    document.body.classList.toggle("still", report === undefined);
    shown = { name, tables };
    page = new Page(net, run, report === undefined ? null : readVerdict(verdict));
}

// What is dropped on the page: the tables of a network, a report, or both.
let shown = { name: "", tables: "" };
async function drop(files) {
    let { name, tables } = shown;
    let report;
    for (const file of files.slice(0, 2)) {
        const text = clean((await file.slice(0, 10000000).text()));
        if (text.startsWith("relis tables")) [name, tables] = [file.name.replace(/\.[^.]*$/, "").slice(0, 60), text];
        else report = text;
    }
    history.replaceState(null, "", location.pathname);
    open(name, tables, report);
}

function showFault(sentence) {
    document.querySelector("main")?.remove();
    byId("zoom")?.remove();
    byId("verdict").replaceChildren();
    const told = document.createElement("p");
    told.className = "fault";
    told.id = "fault";
    told.setAttribute("role", "alert");
    told.textContent = "This can't be drawn: " + sentence;
    byId("summary").replaceChildren();
    document.querySelector("header").after(told);
}

function element(tag, text, className) {
    const made = document.createElement(tag);
    if (text !== undefined) made.textContent = text;
    if (className) made.className = className;
    return made;
}

const KINDS = { train: "trainNumber", segment: "segmentNumber", box: "boxNumber" };
const LISTS = { train: "trains", segment: "segments", box: "boxes" };

class Page {
    constructor(net, run, verdict) {
        this.net = net;
        this.run = run;
        this.verdict = verdict;
        this.ending = new AbortController();
        this.play = new Play(net, run);
        this.still = matchMedia("(prefers-reduced-motion: reduce)");
        this.playing = 0;
        this.gliding = 0;
        this.followed = NONE;
        this.chosen = null;
        this.hash = location.hash;
        const asked = this.asked();
        this.flipped = asked.flip === "1";
        const about = verdict ? [count(run.moves.length, "move"), `${run.tries} tries`]
            : ["no run: drop a report here"];
        byId("summary").textContent = [count(net.segments.length, "segment"), count(net.boxes.length, "box", "boxes"),
            count(net.trains.length, "train"), ...about].join(" · ");
        byId("slider").max = run.moves.length;
        if ([...byId("speed").options].some(option => option.value === asked.speed)) byId("speed").value = asked.speed;
        this.drawPicture();
        this.addTrains();
        this.addFilters();
        this.addList();
        this.addControls();
        this.showVerdict();
        addLegend(byId("legend").querySelector("ul"));
        this.chart = new Chart(document.querySelector("#chart canvas"), net, run, this.play);
        this.drawChart();
        const [kind, name] = (asked.chosen || "").split(":");
        const number = Object.hasOwn(KINDS, kind) ? net[KINDS[kind]].get(name) : undefined;
        this.show(this.wanted(), false);
        if (number !== undefined) this.choose({ kind, number });
    }

    end() {
        this.pause();
        clearTimeout(this.noting);
        cancelAnimationFrame(this.gliding);
        this.seen.abort();
        this.ending.abort();
    }

    drawPicture() {
        this.seen?.abort();
        this.seen = new AbortController();
        const svg = byId("picture").cloneNode(false), map = byId("map").cloneNode(false);
        byId("picture").replaceWith(svg);
        byId("map").replaceWith(map);
        this.picture = new Picture(svg, this.net, this.play, this.flipped);
        if (!this.net.boxes.length) make("text", { x: 0, y: 0, class: "name" }, svg, "an empty network");
        this.view = new View(svg, this.picture, map, this.seen.signal);
        svg.addEventListener("click", event => {
            if (this.view.dragged > 6) return;
            const under = document.elementFromPoint(event.clientX, event.clientY);
            const { dataset } = svg.contains(under) && under.closest("[data-train], [data-box], [data-segment]") || {};
            if (!dataset) this.choose(null);
            else if (dataset.train && !dataset.segment) this.pick("train", dataset.train);
            else if (dataset.box && !dataset.segment) this.pick("box", dataset.box);
            else this.pick("segment", dataset.segment);
        });
        if (this.chosen) this.picture.choose(this.chosen);
    }

    flip() {
        this.flipped = !this.flipped;
        this.drawPicture();
        this.show(this.play.at, false);
    }

    // Acts in the frame after an element got another size, as long as the page shows this run.
    watch(element, act) {
        const { signal } = this.ending;
        const observer = new ResizeObserver(() => requestAnimationFrame(() => { if (!signal.aborted) act(); }));
        observer.observe(element);
        signal.addEventListener("abort", () => observer.disconnect());
    }

    // What the address asks for, as far as it is understood.
    asked() {
        return Object.fromEntries(new URLSearchParams(location.hash.slice(1)));
    }

    // The move in the address, as far as it is one.
    wanted() {
        const { move } = this.asked();
        return /^[0-9]{1,7}$/.test(move) ? Math.min(Number(move), this.play.length) : 0;
    }

    showVerdict() {
        const told = byId("verdict");
        told.hidden = !this.verdict;
        told.replaceChildren();
        if (!this.verdict) return;
        const { kind, says, line } = this.verdict;
        told.className = kind;
        told.append(element("span", says));
        const move = line - REPORT_HEAD;
        if (line <= 0) return;
        const button = element("button", move <= this.play.length ? `Show line ${line}` : "Show the end");
        button.type = "button";
        button.id = "faulty";
        button.addEventListener("click", () => this.show(Math.min(move, this.play.length), false));
        told.append(button);
    }

    addTrains() {
        const body = document.querySelector("#trains tbody");
        this.rows = this.net.trains.map((train, number) => {
            const row = body.insertRow();
            row.dataset.train = train.name;
            const chip = element("button", train.name, "chip " + colourOf(number));
            chip.title = "Chooses the train, and keeps it in view";
            chip.setAttribute("aria-pressed", false);
            chip.addEventListener("click", () => {
                this.choose(this.followed === number ? null : { kind: "train", number });
            });
            row.insertCell().append(chip);
            for (let i = 0; i < 4; i++) row.insertCell();
            this.showRow(row, number);
            return row;
        });
    }

    showRow(row, number) {
        const { made, refused, wait } = this.play.train(number);
        const { steps } = this.net.trains[number];
        const [, now, on, done, met] = row.cells;
        const put = (cell, text) => { if (cell.textContent !== text) cell.textContent = text; };
        put(on, this.picture.whereIs(number));
        put(done, `${made} of ${steps.length}`);
        put(met, String(refused));
        put(now, this.says(number, made, wait));
        now.className = wait === NONE ? "" : "waits";
    }

    pick(kind, name) {
        this.choose({ kind, number: this.net[KINDS[kind]].get(name) });
    }

    choose(chosen) {
        this.chosen = chosen;
        this.followed = chosen && chosen.kind === "train" ? chosen.number : NONE;
        this.rows.forEach((row, i) => row.querySelector(".chip").setAttribute("aria-pressed", i === this.followed));
        this.picture.choose(chosen);
        byId("of").value = chosen ? `${chosen.kind}:${this.nameOf(chosen)}` : "";
        this.filter();
        this.showChosen();
        if (this.followed !== NONE) this.view.keep(this.placeOfTrain(this.followed));
        this.note();
    }

    nameOf({ kind, number }) {
        return this.net[LISTS[kind]][number].name;
    }

    showChosen() {
        const { chosen, net, play, picture, run } = this;
        byId("chosen").hidden = !chosen;
        if (!chosen) return;
        const { kind, number } = chosen;
        byId("chosen").querySelector("h2").textContent = `${{ train: "Train", segment: "Segment", box: "Box" }[kind]} `
            + this.nameOf(chosen);
        let says = kind === "segment" ? picture.segments[number].says : picture.boxes[number].says;
        if (kind === "train") {
            const { made, wait, tries } = play.train(number);
            const { steps, start } = net.trains[number];
            const route = [start, ...steps.map(step => step.to)].map(segment => net.segments[segment].name);
            const goal = route[route.length - 1];
            says = [this.says(number, made, wait), `to ${goal}`, `${tries} of ${run.tries} tries`,
                `route ${route.map((name, i) => i === made ? `[${name}]` : name).join(" → ")}`].join("; ");
        }
        byId("chosen").querySelector("p").textContent = says;
    }

    // What a train is about, in words.
    says(number, made, wait) {
        const { net, play, run } = this;
        const fate = run.outcomes[number]?.fate;
        const { steps } = net.trains[number];
        const ended = play.at === play.length && fate !== undefined;
        if (ended && fate === "spent" && wait !== NONE) return "spent: " + this.why(wait);
        if (ended && fate !== "underway") return fate;
        if (wait !== NONE) return (ended ? "underway, waits: " : "waits: ") + this.why(wait);
        if (ended) return fate;
        const step = steps[made];
        if (!step) return steps.length ? "at the end of its route" : "stays";
        if (play.train(number).across !== NONE) {
            return `passes ${net.boxes[step.box].name} to ${net.segments[step.to].name}`;
        }
        return `goes to ${net.segments[step.to].name} by ${net.boxes[step.box].name}`;
    }

    why(wait) {
        const move = this.run.moves.at(wait);
        const is = this.play.isStillHeld(move) ? "is" : "was";
        const by = this.net.trains[move.by].name;
        if (move.verb === "bar") return `${this.net.boxes[move.box].name} ${is} locked by ${by}`;
        return `${this.net.segments[move.segments[0]].name} ${is} held by ${by} at ${this.net.boxes[move.box].name}`;
    }

    // Trains that wait for each other in a ring, from the move on at which the last of them was refused.
    showJams() {
        const jams = this.play.jams.filter(({ since }) => this.play.at >= since);
        this.picture.showJams(jams);
        byId("jam").hidden = !this.play.jams.length;
        const name = t => this.net.trains[t].name;
        const says = ({ trains, since }) => `${trains.map((t, i) => {
            return `${name(t)} waits for ${name(trains[(i + 1) % trains.length])}`;
        }).join(", ")}: since move ${since}`;
        const all = jams.map(says).join("; ");
        const key = all || "-";
        if (this.toldJams === key) return;
        this.toldJams = key;
        const goes = element("button", jams.length ? "Show its beginning" : "A jam is ahead: show its beginning");
        goes.type = "button";
        goes.addEventListener("click", () => this.show(this.play.jams[0]?.since ?? 0, false));
        byId("jam").replaceChildren(all ? "Jam: " + all + " " : "", goes);
    }

    // The moves of the list: all, or those of a train, segment or box and of a kind.
    addFilters() {
        const { net } = this;
        for (const [kind, list] of Object.entries(LISTS)) {
            const group = element("optgroup");
            group.label = list;
            net[list].forEach(({ name }) => {
                const option = element("option", name);
                option.value = `${kind}:${name}`;
                group.append(option);
            });
            byId("of").append(group);
        }
        for (const [value, text] of [["no", "refusals"], ...VERBS.map(verb => [verb, verb])]) {
            const option = element("option", text);
            option.value = value;
            byId("kind").append(option);
        }
        byId("of").addEventListener("change", event => {
            const [kind, name] = event.target.value.split(":");
            if (name) this.pick(kind, name);
            else this.choose(null);
        });
        byId("kind").addEventListener("change", () => this.filter());
    }

    isOf(move, { kind, number }) {
        if (kind === "train") return move.train === number || move.by === number;
        return kind === "box" ? move.box === number : move.segments.includes(number);
    }

    // The numbers of the moves that the list shows, with 0 for the start; null for all.
    filter() {
        const kind = byId("kind").value;
        const { chosen, run } = this;
        this.listed = null;
        if (chosen || kind) {
            const found = [0];
            for (let i = 0; i < run.moves.length; i++) {
                const verb = run.moves.verb(i);
                const isKind = !kind || verb === kind || kind === "no" && (verb === "refuse" || verb === "bar");
                if (isKind && (!chosen || this.isOf(run.moves.at(i), chosen))) found.push(i + 1);
            }
            this.listed = found;
        }
        byId("rows").style.height = LINE * this.lines() + "px";
        this.scrollList();
    }

    lines() {
        return this.listed ? this.listed.length : this.play.length + 1;
    }

    moveOf(line) {
        return this.listed ? this.listed[line] : line;
    }

    // The line of the present move, or of the last one before it.
    lineAt(at) {
        if (!this.listed) return at;
        let low = 0, high = this.listed.length - 1;
        while (low < high) {
            const middle = (low + high + 1) >> 1;
            if (this.listed[middle] <= at) low = middle;
            else high = middle - 1;
        }
        return low;
    }

    // Goes to the next move of some verbs, or of what is chosen, or to the one before.
    seek(by, fits) {
        this.pause();
        const { moves } = this.run;
        for (let i = this.play.at - 1 + by; i >= 0 && i < moves.length; i += by) {
            if (fits(i)) {
                this.show(i + 1, false);
                return;
            }
        }
    }

    seekVerb(by, ...verbs) {
        this.seek(by, i => verbs.includes(this.run.moves.verb(i)));
    }

    seekChosen(by) {
        if (this.chosen) this.seek(by, i => this.isOf(this.run.moves.at(i), this.chosen));
    }

    drawChart() {
        if (!this.verdict) return;
        const { chart } = this;
        const draw = () => {
            chart.rows = byId("rows-of").value;
            chart.draw();
            byId("now").style.left = chart.placeOf(this.play.at) + "px";
        };
        byId("rows-of").addEventListener("change", draw);
        this.watch(byId("chart"), draw);
        chart.canvas.addEventListener("click", event => this.show(chart.moveAt(event.clientX), false));
    }

    // The list holds only the lines that can be seen.
    addList() {
        const list = byId("list");
        byId("rows").style.height = LINE * this.lines() + "px";
        list.addEventListener("scroll", () => this.fillList());
        this.watch(list, () => this.fillList());
        byId("rows").addEventListener("click", event => {
            const row = event.target.closest("[data-move]");
            if (row) this.show(Number(row.dataset.move), false);
        });
    }

    fillList() {
        const list = byId("list");
        const first = Math.max(0, Math.floor(list.scrollTop / LINE) - 4);
        const last = Math.min(this.lines() - 1, Math.ceil((list.scrollTop + list.clientHeight) / LINE) + 4);
        const rows = [];
        const faulty = this.verdict?.line > 0 ? this.verdict.line - REPORT_HEAD : NONE;
        for (let place = first; place <= last; place++) {
            const at = this.moveOf(place);
            const row = element("div", undefined, at === faulty ? "faulty" : "");
            row.style.top = LINE * place + "px";
            row.id = "move-" + at;
            row.dataset.move = at;
            row.setAttribute("role", "option");
            row.setAttribute("aria-selected", at === this.play.at);
            row.setAttribute("aria-posinset", place + 1);
            row.setAttribute("aria-setsize", this.lines());
            const move = this.run.moves.at(at - 1);
            const line = at ? lineOf(this.net, move) : "the start";
            row.title = line;
            const refused = at > 0 && move.by !== NONE;
            row.append(element("span", String(at), "number"), element("span", line, refused ? "no" : ""));
            rows.push(row);
        }
        byId("rows").replaceChildren(...rows);
        list.setAttribute("aria-activedescendant", "move-" + this.play.at);
    }

    scrollList() {
        const list = byId("list");
        const top = LINE * this.lineAt(this.play.at);
        if (top < list.scrollTop + LINE || top > list.scrollTop + list.clientHeight - 2 * LINE) {
            list.scrollTop = top - list.clientHeight / 2 + LINE / 2;
        }
        this.fillList();
    }

    addControls() {
        const { signal } = this.ending;
        const on = (id, act) => byId(id).addEventListener("click", event => {
            act();
            if (event.detail) byId(id).blur();
        }, { signal });
        on("first", () => this.show(0, false));
        on("back", () => this.step(-1));
        on("forward", () => this.step(1));
        on("last", () => this.show(this.play.length, false));
        on("play", () => this.toggle());
        on("closer", () => this.view.zoom(1.4));
        on("farther", () => this.view.zoom(1 / 1.4));
        on("whole", () => this.view.whole());
        on("save", () => this.save());
        on("flip", () => this.flip());
        on("full", () => this.full());
        on("refusal", () => this.seekVerb(1, "refuse", "bar"));
        on("entry", () => this.seekVerb(1, "enter"));
        on("before", () => this.seekChosen(-1));
        on("after", () => this.seekChosen(1));
        on("nothing", () => this.choose(null));
        byId("slider").addEventListener("input", event => this.show(Number(event.target.value), false));
        byId("speed").addEventListener("change", () => {
            if (this.playing) this.begin();
            this.note();
        });
        addEventListener("hashchange", () => {
            this.hash = location.hash;
            if (this.wanted() !== this.play.at) this.show(this.wanted(), false);
        }, { signal });
        addEventListener("keydown", event => this.key(event), { signal });
    }

    key(event) {
        if (event.ctrlKey || event.metaKey || event.altKey) return;
        const tag = event.target.tagName;
        if (tag === "SELECT" || event.key === " " && tag === "BUTTON") return;
        const inList = event.target === byId("list"), inSlider = event.target === byId("slider");
        const down = inSlider ? -1 : 1;
        const page = inList || inSlider ? { PageUp: () => this.step(-10 * down), PageDown: () => this.step(10 * down),
            ArrowUp: () => this.step(-down), ArrowDown: () => this.step(down) } : {};
        const acts = {
            " ": () => this.toggle(),
            ArrowLeft: () => this.step(-1),
            ArrowRight: () => this.step(1),
            Home: () => this.show(0, false),
            End: () => this.show(this.play.length, false),
            "+": () => this.view.zoom(1.4),
            "-": () => this.view.zoom(1 / 1.4),
            "0": () => this.view.whole(),
            r: () => this.seekVerb(1, "refuse", "bar"),
            R: () => this.seekVerb(-1, "refuse", "bar"),
            e: () => this.seekVerb(1, "enter"),
            E: () => this.seekVerb(-1, "enter"),
            m: () => this.flip(),
            f: () => this.full(),
            Escape: () => document.body.classList.contains("full") ? this.full() : this.choose(null),
            ...page,
        };
        if (!Object.hasOwn(acts, event.key)) return;
        event.preventDefault();
        acts[event.key]();
    }

    // The picture with its controls takes the whole window, or no longer.
    full() {
        byId("full").setAttribute("aria-pressed", document.body.classList.toggle("full"));
        byId("picture").style.height = "";
        this.view.moved = false;
        this.view.fit();
    }

    step(by) {
        this.pause();
        this.show(Math.max(0, Math.min(this.play.length, this.play.at + by)), by === 1);
    }

    toggle() {
        if (this.playing) this.pause();
        else this.begin();
    }

    begin() {
        cancelAnimationFrame(this.playing);
        if (this.play.at === this.play.length) this.show(0, false);
        byId("play").textContent = "Pause";
        byId("caption").setAttribute("aria-live", "off");
        const speed = Number(byId("speed").value);
        let last = performance.now(), due = 0;
        const frame = now => {
            due += Math.max(0, Math.min(0.5, (now - last) / 1000)) * speed;
            last = Math.max(last, now);
            const steps = Math.floor(due);
            due -= steps;
            if (steps) this.show(Math.min(this.play.length, this.play.at + steps), steps === 1 && speed <= 5);
            if (this.play.at === this.play.length) this.pause();
            else if (this.playing) this.playing = requestAnimationFrame(frame);
        };
        this.playing = requestAnimationFrame(frame);
    }

    pause() {
        cancelAnimationFrame(this.playing);
        this.playing = 0;
        byId("play").textContent = "Play";
        byId("caption").setAttribute("aria-live", "polite");
        this.note();
    }

    // Shows the state after so many moves; a train that moves glides there where `glides` says so.
    show(at, glides) {
        const shown = this.play.at;
        cancelAnimationFrame(this.gliding);
        if (this.leftOver) this.leftOver();
        this.leftOver = null;
        const { trains } = this.picture.go(at);
        const every = at === this.play.length || shown === this.play.length;
        const move = this.run.moves.at(at - 1);
        this.rows.forEach((row, number) => {
            if (every || trains.has(number)) this.showRow(row, number);
            row.classList.toggle("now", Boolean(move) && move.train === number);
        });
        this.tellMove(at, move);
        this.showJams();
        if (this.chosen) this.showChosen();
        this.scrollList();
        this.keepInView(move);
        this.picture.declutter();
        this.view.showDots();
        if (this.chart.step) byId("now").style.left = this.chart.placeOf(at) + "px";
        this.note();
        if (glides && !this.still.matches && ["enter", "leave"].includes(move.verb)) this.glide(move);
    }

    tellMove(at, move) {
        const told = move ? tell(this.net, move) : "at the start";
        const faulty = this.verdict?.line > 0 && at === this.verdict.line - REPORT_HEAD;
        const says = move && move.train !== NONE ? told : told[0].toUpperCase() + told.slice(1);
        byId("caption").replaceChildren(element("span", at ? `${at}. ` : "", "number"), says);
        if (faulty) byId("caption").append(element("span", ": this is the line that isn't safe", "waits"));
        for (const crash of this.picture.crashSays) byId("caption").append(element("span", `; ${crash}`, "waits"));
        byId("slider").value = at;
        byId("slider").setAttribute("aria-valuetext", `move ${at}: ${told}`);
        byId("place").textContent = `move ${at} of ${this.play.length}`;
        document.documentElement.dataset.move = at;
    }

    keepInView(move) {
        if (this.followed !== NONE) this.view.keep(this.placeOfTrain(this.followed));
        else if (!this.playing && move) this.view.keep(this.placeOf(move));
        else if (!this.playing && this.rows.length) this.view.keep(this.placeOfTrain(0));
    }

    placeOf(move) {
        if (move.box === NONE) return this.placeOfTrain(move.train);
        const { x, y } = this.picture.boxes[move.box];
        return [x, y];
    }

    placeOfTrain(number) {
        const { on, across } = this.play.train(number);
        const { x, y } = across === NONE ? {} : this.picture.boxes[across];
        const { middle, clear } = this.picture.segments[on];
        return across === NONE ? [middle, clear.y] : [x, y];
    }

    // Moves the train from where it was to where it is.
    glide(move) {
        const to = this.picture.placeOf(move.train);
        this.play.go(this.play.at - 1);
        const from = this.picture.placeOf(move.train);
        this.play.go(this.play.at + 1);
        const [across, alone] = move.verb === "enter" ? [to, from] : [from, to];
        const [middle] = cut(alone.way, (alone.from + alone.to) / 2, (alone.from + alone.to) / 2);
        const at = lengthAt(across.way, ...middle);
        const half = (alone.to - alone.from) / 2;
        const rest = { from: at - half, to: at + half };
        const [a, b] = move.verb === "enter" ? [rest, across] : [across, rest];
        const took = 240;
        const begun = performance.now();
        const draw = share => this.picture.drawTrain(move.train, {
            way: across.way, headed: true, aside: across.aside,
            from: a.from + (b.from - a.from) * share, to: a.to + (b.to - a.to) * share,
        });
        this.leftOver = () => this.picture.showTrain(move.train);
        const frame = now => {
            const share = Math.min(1, (now - begun) / took);
            draw(share * (2 - share));
            if (share < 1) this.gliding = requestAnimationFrame(frame);
            else this.leftOver();
        };
        draw(0);
        this.gliding = requestAnimationFrame(frame);
    }

    // Writes what is seen into the address: soon after the last change, as browsers count how often it changes.
    note() {
        clearTimeout(this.noting);
        const wait = this.playing ? 1000 : 250;
        const due = Math.max(wait, (this.noted || 0) + 400 - performance.now());
        this.noting = setTimeout(() => this.writeAddress(), due);
    }

    address() {
        const words = ["move=" + this.play.at];
        if (byId("speed").value !== "2") words.push("speed=" + byId("speed").value);
        if (this.flipped) words.push("flip=1");
        if (this.chosen) words.push(`chosen=${this.chosen.kind}:${this.nameOf(this.chosen)}`);
        return "#" + words.join("&");
    }

    writeAddress() {
        this.noting = 0;
        this.noted = performance.now();
        if (location.hash !== this.hash) return;
        if (this.hash !== this.address()) history.replaceState(null, "", this.address());
        this.hash = this.address();
    }

    // The picture as it stands, with the colours in its own text.
    drawing() {
        const svg = byId("picture").cloneNode(true);
        const { x, y, width, height } = this.picture.bounds;
        for (const name of ["id", "style", "aria-labelledby"]) svg.removeAttribute(name);
        svg.setAttribute("viewBox", [x, y, width, height].map(round).join(" "));
        svg.setAttribute("width", round(width / this.picture.u));
        svg.setAttribute("height", round(height / this.picture.u));
        const colours = getComputedStyle(document.documentElement);
        const style = byId("drawing").textContent
            .replace(/calc\(([0-9.]+)px \* var\(--u\)\)/g, (_, size) => round(size * this.picture.u) + "px")
            .replace(/var\((--[a-z0-9]+)\)/g, (_, name) => colours.getPropertyValue(name).trim());
        svg.prepend(make("style", {}, null, style), make("rect", { x, y, width, height, fill:
            colours.getPropertyValue("--paper").trim() }));
        return new XMLSerializer().serializeToString(svg);
    }

    save() {
        const link = element("a");
        link.href = "data:image/svg+xml;charset=utf-8," + encodeURIComponent(this.drawing());
        link.download = `${byId("name").textContent.replace(/[^A-Za-z0-9_-]/g, "_")}-move-${this.play.at}.svg`;
        link.click();
    }
}

try {
    start();
} catch (error) {
    showFault("The page failed: " + error.message);
    throw error;
}
