"use strict";
// A chart of time: a row for each segment or train, the moves from left to right, who holds what in the trains'
// colours, and refusals as ticks. A click goes to the move there.

const CHART_ROW = 10;

class Chart {
    constructor(canvas, net, run, play) {
        Object.assign(this, { canvas, net, run, play, rows: "trains" });
    }

    // What each row shows: stretches of moves with a train's colour, in the upper or lower half or both.
    stretches() {
        const { net, run, play, rows } = this;
        const found = [], open = new Map();
        const close = (key, at) => {
            const stretch = open.get(key);
            if (stretch) found.push({ ...stretch, to: at });
            open.delete(key);
        };
        const set = (key, row, half, train, at) => {
            close(key, at);
            if (train !== NONE) open.set(key, { row, half, train, from: at });
        };
        const ticks = [];
        net.trains.forEach((train, t) => {
            if (rows === "segments") [0, 1].forEach(end => set(2 * train.start + end, train.start, end, t, 0));
        });
        for (let i = 0; i < run.moves.length; i++) {
            const verb = run.moves.verb(i);
            if (!["reserve", "release", "enter", "leave", "refuse", "bar"].includes(verb)) continue;
            const { train, box, segments: [s], by } = run.moves.at(i);
            if (by !== NONE) ticks.push({ at: i + 1, row: rows === "trains" ? train : s ?? net.boxes[box].arms[0] });
            if (rows === "segments" && (verb === "reserve" || verb === "release")) {
                const end = play.endAt(s, box);
                set(end, s, end & 1, verb === "reserve" ? train : NONE, i + 1);
            }
            if (rows === "trains" && verb === "enter") set(train, train, 2, train, i + 1);
            if (rows === "trains" && verb === "leave") close(train, i + 1);
        }
        for (const key of [...open.keys()]) close(key, run.moves.length);
        return { found, ticks };
    }

    draw() {
        const { canvas, net, run } = this;
        const names = (this.rows === "trains" ? net.trains : net.segments).map(item => item.name);
        const colours = getComputedStyle(document.documentElement);
        const colour = name => colours.getPropertyValue(name).trim();
        const dots = devicePixelRatio || 1;
        const wide = canvas.parentNode.clientWidth, high = Math.max(1, names.length) * CHART_ROW;
        canvas.width = wide * dots;
        canvas.height = high * dots;
        canvas.style.height = high + "px";
        const pen = canvas.getContext("2d");
        pen.scale(dots, dots);
        this.left = Math.min(110, wide / 4);
        this.step = (wide - this.left - 4) / Math.max(1, run.moves.length);
        const x = at => this.left + at * this.step;
        pen.font = "9px system-ui, sans-serif";
        names.forEach((name, row) => {
            pen.fillStyle = colour("--soft");
            pen.fillText(name, 2, row * CHART_ROW + 8.5, this.left - 6);
            pen.fillStyle = colour("--line");
            pen.fillRect(this.left, row * CHART_ROW + CHART_ROW - 1, wide - this.left, 0.5);
        });
        const { found, ticks } = this.stretches();
        for (const { row, half, train, from, to } of found) {
            pen.fillStyle = colour("--t" + train % COLOURS);
            const top = row * CHART_ROW + (half === 1 ? 5 : 1);
            pen.fillRect(x(from), top, Math.max(0.5, (to - from) * this.step), half === 2 ? 8 : 4);
        }
        pen.fillStyle = colour("--alarm");
        const seen = new Set();
        for (const { at, row } of ticks) {
            const left = Math.round(x(at) * 2) / 2;
            const key = row * 100000 + left * 2;
            if (!seen.has(key)) pen.fillRect(left - 0.5, row * CHART_ROW, 1.2, CHART_ROW - 2);
            seen.add(key);
        }
        this.drawn = { stretches: found.length, ticks: ticks.length };
    }

    moveAt(clientX) {
        const at = Math.round((clientX - this.canvas.getBoundingClientRect().left - this.left) / this.step);
        return Math.max(0, Math.min(this.run.moves.length, at));
    }

    placeOf(at) {
        return this.left + at * this.step;
    }
}
