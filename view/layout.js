"use strict";
// Lays a network out as a track schematic. At a box the arms that can be connected face opposite sides, west and east,
// and each segment runs from west to east, as far as the network allows. Then the boxes get columns from west to east,
// the tracks between them rows, and the rows stay straight where a route is straight. Where a way can't run from west
// to east alone, as in a ring or a turning loop, it goes round a turn: a place in the drawing with two tracks on one
// side. A long row of stations is folded into several, each joined to the next at its end.

const ROW = 72;         // from one row to the next
const TURN = 22;        // what a turn stands out by

// The places of the boxes; for each segment its way as points from its end 0 to its end 1, and the clear stretch on it,
// where its labels go. `room` tells how much clear stretch a segment needs, and how much a box's name takes.
function layOut(net, room) {
    const facing = faceArms(net);
    const drawn = { boxes: [], segments: [], left: 0, top: 0, right: 0, bottom: 0 };
    const parts = components(net).map(boxes => layPart(net, facing, boxes, room));
    const area = parts.reduce((sum, part) => sum + (part.width + 120) * (part.height + ROW), 0);
    const tall = parts.length < 5 ? Infinity : Math.max(...parts.map(part => part.height), Math.sqrt(area / 1.6));
    let x = 0, y = 0, wide = 0;
    for (const part of parts) {
        if (y > 0 && y + part.height > tall) {
            x += wide + 120;
            y = wide = 0;
        }
        part.boxes.forEach((place, box) => { drawn.boxes[box] = { x: place.x + x, y: place.y + y }; });
        part.segments.forEach((segment, number) => {
            drawn.segments[number] = {
                way: segment.way.map(([px, py]) => [px + x, py + y]),
                clear: { x0: segment.clear.x0 + x, x1: segment.clear.x1 + x, y: segment.clear.y + y },
            };
        });
        drawn.right = Math.max(drawn.right, x + part.width);
        drawn.bottom = Math.max(drawn.bottom, y + part.height);
        y += part.height + ROW;
        wide = Math.max(wide, part.width);
    }
    return drawn;
}

function components(net) {
    const seen = new Set(), found = [];
    net.boxes.forEach((_, first) => {
        if (seen.has(first)) return;
        const boxes = [first];
        seen.add(first);
        for (const box of boxes) {
            for (const segment of net.boxes[box].arms) {
                for (const end of net.segments[segment].ends) {
                    if (!seen.has(end.box)) boxes.push(end.box);
                    seen.add(end.box);
                }
            }
        }
        found.push(boxes.sort((a, b) => a - b));
    });
    return found;
}

// For each box and arm whether the arm faces east. Segments that trains use most are settled first; a segment whose
// ends then face the same side will go round a turn.
function faceArms(net) {
    const kind = end => net.boxes[end.box].kind;
    const half = end => 2 * end.box + (kind(end) === "crossing" ? end.arm >> 1 : 0);
    const sign = end => kind(end) === "point" ? Math.min(end.arm, 1) : end.arm & 1;
    const parent = net.boxes.flatMap((_, i) => [2 * i, 2 * i + 1]);
    const odd = parent.map(() => 0);
    const find = i => {
        let parity = 0;
        while (parent[i] !== i) {
            parity ^= odd[i];
            i = parent[i];
        }
        return [i, parity];
    };
    const used = usage(net);
    const order = net.segments.map((_, i) => i).sort((a, b) => used[b] - used[a] || a - b);
    for (const number of order) {
        const [e, f] = net.segments[number].ends;
        const [a, pa] = find(half(e)), [b, pb] = find(half(f));
        if (a === b) continue;
        parent[b] = a;
        odd[b] = pa ^ pb ^ sign(e) ^ sign(f) ^ 1;
    }
    const score = new Map(), first = new Map(), written = new Map();
    for (const train of net.trains) {
        for (const step of train.steps) {
            const end = { box: step.box, arm: net.boxes[step.box].arms.indexOf(step.to) };
            const [root, parity] = find(half(end));
            const way = sign(end) ^ parity ? 1 : -1;
            score.set(root, (score.get(root) || 0) + way);
            if (!first.has(root)) first.set(root, way);
        }
    }
    // What no train passes faces as the file has it: from a box to those that stand after it is east.
    for (const { ends } of net.segments) {
        const [root, parity] = find(half(ends[0]));
        if (score.get(root) || first.get(root)) continue;
        written.set(root, (written.get(root) || 0) + (sign(ends[0]) ^ parity ? 1 : -1));
    }
    return net.boxes.map((box, number) => box.arms.map((_, arm) => {
        const end = { box: number, arm };
        const [root, parity] = find(half(end));
        const turned = (score.get(root) || first.get(root) || written.get(root) || 1) < 0 ? 1 : 0;
        return (sign(end) ^ parity ^ turned) === 1;
    }));
}

// How many steps of routes use each segment.
function usage(net) {
    const used = net.segments.map(() => 0);
    for (const train of net.trains) {
        for (const step of train.steps) {
            used[step.from]++;
            used[step.to]++;
        }
    }
    return used;
}

// Lays out one connected part. Its places and ways begin at 0, 0.
function layPart(net, facing, boxes, room) {
    const runs = runsOf(net, facing, boxes);
    const plain = new Graph(net, facing, boxes, room);
    runs.forEach(run => plain.addRun(run));
    plain.solve();
    const folds = foldsOf(plain, runs);
    return folds ? layFolded(net, facing, boxes, room, runs, plain, folds) : finish(net, runs, [plain], [[]]);
}

// The segments of the part, each with the end `a` where it leaves to the east and the end `b` where it arrives from
// the west; `turn` where both face one side, `wrap` where it goes back from the east to the west.
function runsOf(net, facing, boxes) {
    const numbers = [...new Set(boxes.flatMap(box => net.boxes[box].arms))].sort((a, b) => a - b);
    const runs = numbers.map(number => {
        const [e, f] = net.segments[number].ends;
        const east = facing[e.box][e.arm];
        const turn = east === facing[f.box][f.arm] ? (east ? "east" : "west") : "";
        return east || turn ? { number, a: e, b: f, turn, wrap: false } : { number, a: f, b: e, turn, wrap: false };
    });
    const out = new Map(boxes.map(box => [box, []]));
    const entered = new Set();
    for (const run of runs) {
        if (run.turn) continue;
        out.get(run.a.box).push(run);
        entered.add(run.b.box);
    }
    const state = new Map();
    const visit = box => {
        state.set(box, "open");
        for (const run of out.get(box).sort((r, s) => r.a.arm - s.a.arm)) {
            if (state.get(run.b.box) === "open") run.wrap = true;
            else if (!state.has(run.b.box)) visit(run.b.box);
        }
        state.set(box, "done");
    };
    boxes.filter(box => !entered.has(box)).forEach(visit);
    boxes.forEach(box => { if (!state.has(box)) visit(box); });
    return runs;
}

// A drawing of nodes, which are boxes, turns and edges of the drawing, and of pieces of track, each from a node west
// to one east.
class Graph {
    constructor(net, facing, boxes, room) {
        this.net = net;
        this.facing = facing;
        this.room = room;
        this.nodes = [];
        this.pieces = [];
        this.ofBox = new Map();
        for (const box of boxes) this.ofBox.set(box, this.addNode({ box, kind: net.boxes[box].kind }));
        this.through = new Map(boxes.map(box => [box, this.throughArm(box)]));
    }

    addNode(node) {
        Object.assign(node, { flip: 0, west: [], east: [], rank: 0, order: 0, isBox: true });
        this.nodes.push(node);
        return node;
    }

    // A piece from port `pa` of `a` to port `pb` of `b`; a port is an arm of a box, or a place 0 or 1 of a turn.
    addPiece(segment, a, pa, b, pb, main) {
        const piece = { segment, a, pa, b, pb, main, inner: [] };
        this.pieces.push(piece);
        a.east.push(piece);
        b.west.push(piece);
        return piece;
    }

    addRun(run) {
        const a = this.ofBox.get(run.a.box), b = this.ofBox.get(run.b.box);
        const s = run.number;
        if (run.turn === "east") {
            const turn = this.addNode({ kind: "turn" });
            run.pieces = [[this.addPiece(s, a, run.a.arm, turn, 0, true), 1],
                          [this.addPiece(s, b, run.b.arm, turn, 1, false), -1]];
        } else if (run.turn === "west") {
            const turn = this.addNode({ kind: "turn" });
            run.pieces = [[this.addPiece(s, turn, 0, a, run.a.arm, true), -1],
                          [this.addPiece(s, turn, 1, b, run.b.arm, false), 1]];
        } else if (run.wrap) {
            const west = this.addNode({ kind: "turn" }), east = this.addNode({ kind: "turn" });
            run.pieces = [[this.addPiece(s, a, run.a.arm, east, 0, false), 1],
                          [this.addPiece(s, west, 1, east, 1, true), -1],
                          [this.addPiece(s, west, 0, b, run.b.arm, false), 1]];
        } else {
            run.pieces = [[this.addPiece(s, a, run.a.arm, b, run.b.arm, true), 1]];
        }
    }

    // The branch of a point that goes straight on: the one that routes use more.
    throughArm(box) {
        const { kind, arms } = this.net.boxes[box];
        if (kind !== "point") return 0;
        const count = [0, 0, 0];
        for (const train of this.net.trains) {
            for (const step of train.steps) {
                if (step.box !== box) continue;
                count[arms.indexOf(step.from)]++;
                count[arms.indexOf(step.to)]++;
            }
        }
        return count[2] > count[1] ? 2 : 1;
    }

    // How far below the node's middle a piece leaves it, in rows; only its sign matters but for crossings.
    offset(node, port) {
        let offset = 0;
        if (node.kind === "point") offset = port === 0 ? 0 : port === 1 ? -0.25 : 0.25;
        if (node.kind === "turn") offset = port === 0 ? -0.25 : 0.25;
        if (node.kind === "crossing") offset = (port < 2) === this.facing[node.box][port] ? 0.5 : -0.5;
        return node.flip ? -offset : offset;
    }

    isStraight(node, port) {
        if (node.kind === "point") return port === 0 || port === this.through.get(node.box);
        return node.kind !== "turn" || port === 0;
    }

    solve() {
        this.setRanks();
        this.setLayers();
        this.setOrder();
        this.setRows();
        this.setColumns();
    }

    // Columns by the longest way from the west; then what has more tracks to the east moves up to them. Where there are
    // turns the boxes take every other column, so that a turn has room inside a fork.
    setRanks() {
        this.step = this.nodes.some(node => node.kind === "turn") ? 2 : 1;
        const long = piece => piece.a.kind === "turn" || piece.b.kind === "turn" ? 1 : this.step;
        const waiting = new Map(this.nodes.map(node => [node, node.west.length]));
        const sorted = this.nodes.filter(node => node.west.length === 0);
        for (const node of sorted) {
            for (const piece of node.east) {
                piece.b.rank = Math.max(piece.b.rank, node.rank + long(piece));
                waiting.set(piece.b, waiting.get(piece.b) - 1);
                if (waiting.get(piece.b) === 0) sorted.push(piece.b);
            }
        }
        for (let again = 0; again < 2; again++) {
            for (const node of [...sorted].reverse()) {
                if (node.east.length > node.west.length) {
                    node.rank = Math.min(...node.east.map(piece => piece.b.rank - long(piece)));
                }
            }
        }
        const least = Math.min(...this.nodes.map(node => node.rank));
        this.nodes.forEach(node => { node.rank -= least; });
    }

    // Each piece gets a node of its own in every layer between its ends, and links from layer to layer.
    setLayers() {
        this.layers = [];
        this.links = [];
        const put = (node, layer) => {
            node.layer = layer;
            (this.layers[layer] = this.layers[layer] || []).push(node);
        };
        this.nodes.forEach(node => {
            node.links = [];
            put(node, 2 * node.rank);
        });
        for (const piece of this.pieces) {
            let from = piece.a, port = piece.pa;
            for (let layer = 2 * piece.a.rank + 1; layer < 2 * piece.b.rank; layer++) {
                const node = { kind: "track", flip: 0, links: [], isBox: false };
                put(node, layer);
                piece.inner.push(node);
                this.addLink(from, port, node, 0);
                from = node;
                port = 0;
            }
            this.addLink(from, port, piece.b, piece.pb);
        }
        this.layers = this.layers.map(layer => layer || []);
    }

    addLink(a, pa, b, pb) {
        const link = { a, pa, b, pb };
        this.links.push(link);
        a.links.push(link);
        b.links.push(link);
    }

    // Orders each layer so that few tracks cross. At first all left branches lie on the left as seen from the stem;
    // then all of them above; where tracks still cross, single boxes are turned over. The first with the fewest stays.
    setOrder() {
        const small = this.links.length < 1500;
        let best = null;
        for (const mirrored of [true, false]) {
            for (const node of this.nodes) node.flip = mirrored && this.facesWest(node) ? 1 : 0;
            this.firstOrder();
            best = this.swept(small ? 12 : 4, best);
        }
        let tries = 40000 / this.links.length;
        for (let cost = Infinity; small && best.cost > 0 && best.cost < cost;) {
            cost = best.cost;
            for (let i = 0; i < this.nodes.length && best.cost > 0 && tries > 0; i++) {
                if (!["point", "crossing", "turn"].includes(this.nodes[i].kind)) continue;
                tries--;
                this.restore(best);
                this.nodes[i].flip ^= 1;
                best = this.swept(6, best);
            }
        }
        this.restore(best);
    }

    restore({ layers, flips }) {
        this.layers = layers.map(layer => [...layer]);
        this.nodes.forEach((node, i) => { node.flip = flips[i]; });
        this.number();
    }

    // The best of some order and what a number of sweeps make of the order that stands.
    swept(sweeps, best) {
        for (let i = 0; i < sweeps && (!best || best.cost > 0); i++) {
            this.sweep(i % 2 === 0);
            const cost = this.crossings();
            if (best && cost >= best.cost) continue;
            best = { cost, layers: this.layers.map(layer => [...layer]), flips: this.nodes.map(node => node.flip) };
        }
        return best;
    }

    facesWest(node) {
        return node.kind === "point" && !this.facing[node.box][1];
    }

    number() {
        this.layers.forEach(layer => layer.forEach((node, i) => { node.order = i; }));
    }

    // Follows the tracks from the first box, what lies above first.
    firstOrder() {
        const layers = this.layers.map(() => []);
        const seen = new Set();
        for (const first of this.nodes) {
            const stack = [first];
            while (stack.length) {
                const node = stack.pop();
                if (seen.has(node)) continue;
                seen.add(node);
                layers[node.layer].push(node);
                const key = link => (link.a === node ? 0 : 10) + this.offset(node, link.a === node ? link.pa : link.pb);
                const links = [...node.links].sort((l, m) => key(m) - key(l));
                for (const link of links) stack.push(link.a === node ? link.b : link.a);
            }
        }
        this.layers = layers;
        this.number();
    }

    sweep(eastward) {
        const count = this.layers.length;
        for (let i = 1; i < count; i++) {
            const layer = this.layers[eastward ? i : count - 1 - i];
            for (const node of layer) {
                let sum = 0, links = 0;
                for (const link of node.links) {
                    if ((link.b === node) !== eastward) continue;
                    const own = this.offset(node, eastward ? link.pb : link.pa);
                    sum += (eastward ? link.a.order + this.offset(link.a, link.pa)
                                     : link.b.order + this.offset(link.b, link.pb)) - own / 4;
                    links++;
                }
                node.wish = links ? sum / links : node.order;
            }
            layer.sort((a, b) => a.wish - b.wish || a.order - b.order);
            layer.forEach((node, place) => { node.order = place; });
        }
    }

    crossings() {
        const gaps = this.layers.map(() => []);
        for (const link of this.links) {
            gaps[link.a.layer].push([link.a.order + this.offset(link.a, link.pa),
                                     link.b.order + this.offset(link.b, link.pb)]);
        }
        let sum = 0;
        for (const gap of gaps) {
            for (let i = 0; i < gap.length; i++) {
                for (let j = 0; j < i; j++) {
                    if ((gap[i][0] - gap[j][0]) * (gap[i][1] - gap[j][1]) < 0) sum++;
                }
            }
        }
        return sum;
    }

    // Rows: as many links as can be are straight, the tracks of a layer keep their order and distance, and what isn't
    // fixed lies near to what it leads to.
    setRows() {
        const all = [...this.layers.flat()];
        const shift = (node, port) => node.kind === "crossing" ? this.offset(node, port) : 0;
        const wanted = this.links.filter(l => this.isStraight(l.a, l.pa) && this.isStraight(l.b, l.pb));
        const weight = l => [l.a, l.b].reduce((sum, node) => sum + !node.isBox - (node.kind === "crossing"), 0);
        wanted.sort((l, m) => weight(m) - weight(l));
        const join = links => {
            all.forEach(node => { node.block = { nodes: [node] }; node.off = 0; });
            for (const l of links) {
                const by = l.a.off + shift(l.a, l.pa) - shift(l.b, l.pb) - l.b.off;
                if (l.a.block === l.b.block) continue;
                const [into, from, step] = l.a.block.nodes.length >= l.b.block.nodes.length
                    ? [l.a.block, l.b.block, by] : [l.b.block, l.a.block, -by];
                for (const node of from.nodes) {
                    node.off += step;
                    node.block = into;
                    into.nodes.push(node);
                }
            }
            return this.pack(all);
        };
        let blocks = join(wanted);
        if (!blocks && wanted.length <= 400) {
            const kept = [];
            for (const link of wanted) {
                kept.push(link);
                if (!join(kept)) kept.pop();
            }
            blocks = join(kept);
        }
        if (!blocks) blocks = join(wanted.filter(l => weight(l) === 2)) || join([]);
        this.settle(blocks, shift);
        all.forEach(node => { node.y = node.block.y + node.off; });
        const top = Math.min(...all.map(node => node.y)), bottom = Math.max(...all.map(node => node.y));
        all.forEach(node => { node.y -= top; });
        this.height = bottom - top;
    }

    // The least rows of the blocks from the top, or null where the straight links contradict the order.
    pack(all) {
        const blocks = [...new Set(all.map(node => node.block))];
        for (const block of blocks) {
            const anchor = block.nodes.find(node => node.kind !== "crossing");
            if (anchor && anchor.off % 1) block.nodes.forEach(node => { node.off -= 0.5; });
            Object.assign(block, { y: 0, above: [], below: [], turns: 0 });
        }
        for (const layer of this.layers) {
            for (let i = 1; i < layer.length; i++) {
                const [u, v] = [layer[i - 1], layer[i]];
                const apart = 1 + (u.kind === "crossing") / 2 + (v.kind === "crossing") / 2;
                const by = Math.ceil(apart + u.off - v.off);
                if (u.block === v.block) {
                    if (by > 0) return null;
                    continue;
                }
                u.block.below.push([v.block, by]);
                v.block.above.push([u.block, by]);
            }
        }
        const queue = [...blocks];
        for (const block of queue) {
            block.queued = false;
            for (const [next, by] of block.below) {
                if (next.y >= block.y + by) continue;
                next.y = block.y + by;
                if (next.queued) continue;
                if (++next.turns > blocks.length) return null;
                next.queued = true;
                queue.push(next);
            }
        }
        return blocks;
    }

    // Moves each block as near as it can be to the middle of what it leads to.
    settle(blocks, shift) {
        for (let turn = 0; turn < 8; turn++) {
            const order = [...blocks].sort((b, c) => turn % 2 ? b.y - c.y : c.y - b.y);
            for (const block of order) {
                const wishes = [];
                for (const node of block.nodes) {
                    for (const l of node.links) {
                        const [other, theirs, mine] = l.a === node ? [l.b, l.pb, l.pa] : [l.a, l.pa, l.pb];
                        if (other.block === block) continue;
                        wishes.push(other.block.y + other.off + shift(other, theirs) - node.off - shift(node, mine));
                    }
                }
                if (!wishes.length) continue;
                wishes.sort((a, b) => a - b);
                const wish = Math.round(wishes[wishes.length - 1 >> 1]);
                const least = Math.max(-Infinity, ...block.above.map(([other, by]) => other.y + by));
                const most = Math.min(Infinity, ...block.below.map(([other, by]) => other.y - by));
                block.y = Math.max(least, Math.min(most, wish));
            }
        }
    }

    isBend(node) {
        return node.kind === "turn" || node.kind === "edge";
    }

    // How far a piece leans at its node.
    leanAt(piece, node) {
        return leanOf((node === piece.a ? piece.inner[0] : piece.inner[piece.inner.length - 1]).y - node.y);
    }

    // What a piece takes beside its node before its clear stretch begins.
    pad(piece, node) {
        if (this.isBend(node)) return 14;
        const lean = this.leanAt(piece, node);
        if (lean) return lean + 10;
        const side = node === piece.a ? node.east : node.west;
        const forked = side.some(other => this.leanAt(other, node) > 0);
        return Math.max(22, this.room.box(node.box) / 2 + 8, forked ? 60 : 0);
    }

    setColumns() {
        const columns = Math.max(...this.nodes.map(node => node.rank)) + 1;
        this.x = [0];
        for (let rank = 1; rank < columns; rank++) {
            this.x[rank] = this.x[rank - 1] + 40 / this.step;
            for (const piece of this.pieces) {
                const leans = [[piece.a, piece.a.rank + 1], [piece.b, piece.b.rank]];
                for (const [node, column] of leans) {
                    if (column !== rank || this.isBend(node)) continue;
                    this.x[rank] = Math.max(this.x[rank], this.x[rank - 1] + this.leanAt(piece, node) + 10);
                }
                if (piece.b.rank !== rank) continue;
                let bends = 0;
                piece.inner.forEach((node, i) => { if (i) bends += leanOf(node.y - piece.inner[i - 1].y); });
                const clear = piece.main ? this.room.segment(piece.segment) : 16;
                const need = this.pad(piece, piece.a) + clear + bends + this.pad(piece, piece.b);
                this.x[rank] = Math.max(this.x[rank], this.x[piece.a.rank] + need);
            }
        }
        this.width = this.x[columns - 1];
        this.nodes.forEach(node => { node.x = this.x[node.rank]; });
    }

    // The points of a piece from west to east, and its clear stretch.
    trace(piece) {
        const { a, b, inner } = piece;
        let y = inner[0].y;
        const points = this.isBend(a) ? [[a.x, y]] : [[a.x, a.y]];
        if (!this.isBend(a) && y !== a.y) points.push([a.x + leanOf(y - a.y), y]);
        const flats = [[a.x + this.pad(piece, a), 0, y]];
        inner.forEach((node, i) => {
            if (node.y === y) return;
            const x = this.x[(node.layer % 2 ? inner[i - 1] : node).layer / 2];
            const lean = leanOf(node.y - y) / 2;
            points.push([x - lean, y], [x + lean, node.y]);
            flats[flats.length - 1][1] = x - lean - 10;
            flats.push([x + lean + 10, 0, node.y]);
            y = node.y;
        });
        flats[flats.length - 1][1] = b.x - this.pad(piece, b);
        if (!this.isBend(b) && y !== b.y) points.push([b.x - leanOf(y - b.y), y]);
        points.push(this.isBend(b) ? [b.x, y] : [b.x, b.y]);
        const [x0, x1, row] = flats.sort((f, g) => (g[1] - g[0]) - (f[1] - f[0]))[0];
        return { points: points.map(([px, py]) => [px, py * ROW]), clear: { x0, x1, y: row * ROW } };
    }
}

// How far a track runs sideways while it goes up or down by so many rows.
function leanOf(rows) {
    const by = Math.abs(rows);
    return by === 0 ? 0 : ROW * (Math.min(by, 1) + Math.max(by - 1, 0) / 2);
}

// Where a long drawing is cut: the columns after which it goes on in another row of its own, or null.
function foldsOf(plain, runs) {
    const wraps = runs.filter(run => run.wrap);
    const height = (plain.height + 1.6) * ROW;
    const isLong = plain.x.length >= 11 * plain.step && plain.width >= 1500 && plain.width >= 4 * height;
    if (!isLong || wraps.length > 1) return null;
    const spans = runs.filter(run => !run.wrap).flatMap(run => run.pieces.map(([piece]) => ({ run, piece })));
    const cuts = [];
    for (let rank = 0; rank + 1 < plain.x.length; rank++) {
        const over = spans.filter(({ piece }) => piece.a.rank <= rank && piece.b.rank > rank);
        if (over.length === 1 && !over[0].run.turn) cuts.push({ rank, x: plain.x[rank + 1], run: over[0].run });
    }
    for (let bands = 2; bands <= cuts.length + 1 && bands <= 16; bands++) {
        if (wraps.length && bands % 2) continue;
        const each = plain.width / bands;
        if (each > Math.max(1400, 2.2 * bands * height)) continue;
        const folds = [];
        for (let i = 1; i < bands; i++) {
            const after = folds.length ? folds[folds.length - 1].rank : -1;
            const left = cuts.filter(cut => cut.rank > after);
            if (!left.length) return null;
            folds.push(left.reduce((a, b) => Math.abs(b.x - i * each) < Math.abs(a.x - i * each) ? b : a));
        }
        const ends = [0, ...folds.map(fold => fold.x), plain.width];
        const even = folds.every((fold, i) => Math.abs(fold.x - (i + 1) * each) < each / 3);
        if (even && ends.every((end, i) => i === 0 || end > ends[i - 1])) return folds;
    }
    return null;
}

function layFolded(net, facing, boxes, room, runs, plain, folds) {
    const bandOf = box => folds.filter(fold => fold.rank < plain.ofBox.get(box).rank).length;
    const bands = Array.from({ length: folds.length + 1 }, (_, i) => {
        return new Graph(net, facing, boxes.filter(box => bandOf(box) === i), room);
    });
    const joins = bands.map(() => []);
    for (const run of runs) {
        const from = bandOf(run.a.box), to = bandOf(run.b.box);
        if (from === to && !run.wrap) {
            bands[from].addRun(run);
            continue;
        }
        const east = bands[from].addNode({ kind: "edge" }), west = bands[to].addNode({ kind: "edge" });
        const first = bands[from].addPiece(run.number, bands[from].ofBox.get(run.a.box), run.a.arm, east, 0, true);
        const second = bands[to].addPiece(run.number, west, 0, bands[to].ofBox.get(run.b.box), run.b.arm, false);
        run.pieces = [[first, 1], [second, 1]];
        run.stand = run.wrap && bands.length > 2 ? 2 * TURN + 8 : TURN;
        joins[from].push(east);
        joins[to].push(west);
    }
    bands.forEach(band => band.solve());
    return finish(net, runs, bands, joins);
}

// Puts the bands below one another, every other one turned round, and makes the ways of the segments.
function finish(net, runs, bands, joins) {
    const width = Math.max(...bands.map(band => band.width));
    const result = { boxes: new Map(), segments: new Map(), width, height: 0 };
    bands.forEach((band, i) => {
        const top = result.height;
        for (const edge of joins[i]) edge.x = edge.west.length ? width : 0;
        band.place = i % 2 ? ([x, y]) => [width - x, top + band.height * ROW - y] : ([x, y]) => [x, top + y];
        band.ofBox.forEach((node, box) => {
            const [x, y] = band.place([node.x, node.y * ROW]);
            result.boxes.set(box, { x, y });
        });
        result.height += (band.height + 1.3) * ROW;
    });
    result.height -= 1.3 * ROW;
    for (const run of runs) {
        let way = [];
        let clear = null;
        for (const [piece, direction] of run.pieces) {
            const band = bands.find(candidate => candidate.pieces.includes(piece));
            const traced = band.trace(piece);
            const points = traced.points.map(band.place);
            if (run.stand) {
                const join = piece.b.kind === "edge" ? points.length - 1 : 0;
                points[join][0] += points[join][0] > width / 2 ? run.stand : -run.stand;
            }
            way = way.concat(direction < 0 ? points.reverse() : points);
            if (!piece.main) continue;
            const [x0, y] = band.place([traced.clear.x0, traced.clear.y]);
            const [x1] = band.place([traced.clear.x1, traced.clear.y]);
            clear = { x0: Math.min(x0, x1), x1: Math.max(x0, x1), y };
        }
        const [first] = net.segments[run.number].ends;
        if (first.box !== run.a.box) way.reverse();
        result.segments.set(run.number, { way, clear });
    }
    result.boxes.forEach((place, box) => {
        if (net.boxes[box].kind === "crossing") straightenArms(net, box, place, result.segments);
    });
    result.segments.forEach(segment => { segment.way = cutCorners(segment.way); });
    return result;
}

// The arms of a crossing begin as the straight stubs of an X, wherever their tracks then go: each track keeps its
// direction, and the two cross.
function straightenArms(net, box, { x, y }, segments) {
    const arms = net.boxes[box].arms.map((segment, arm) => {
        const { way } = segments.get(segment);
        const first = net.segments[segment].ends[0].box === box;
        const next = first ? way[1] : way[way.length - 2];
        return { way, first, next, east: next[0] >= x ? 1 : -1, down: Math.sign(next[1] - y), track: arm < 2 ? 1 : -1 };
    });
    const agree = arms.reduce((sum, { east, down, track }) => sum + east * track * down, 0) < 0 ? -1 : 1;
    for (const { way, first, next, east, down, track } of arms) {
        const wanted = agree * east * track;
        const stub = [x + 16 * east, y + 16 * wanted];
        if (wanted === down && Math.abs(Math.abs(next[1] - y) - Math.abs(next[0] - x)) < 1) continue;
        way.splice(first ? 1 : way.length - 1, 0, stub);
    }
}

// Leaves out points that say nothing, and cuts right angles.
function cutCorners(points) {
    const same = (p, q) => p[0] === q[0] && p[1] === q[1];
    const way = points.filter((p, i) => i === 0 || !same(p, points[i - 1]));
    const cut = [way[0]];
    for (let i = 1; i + 1 < way.length; i++) {
        const [p, q, r] = [way[i - 1], way[i], way[i + 1]];
        const angle = (q[0] - p[0]) * (r[0] - q[0]) + (q[1] - p[1]) * (r[1] - q[1]);
        const level = (q[0] - p[0]) * (r[1] - q[1]) - (q[1] - p[1]) * (r[0] - q[0]);
        if (level === 0 && angle > 0) continue;
        if (Math.abs(angle) > 1e-6 || level === 0) {
            cut.push(q);
            continue;
        }
        const near = (to, size) => {
            const length = Math.hypot(to[0] - q[0], to[1] - q[1]);
            const part = Math.min(size, length / 2) / length;
            return [q[0] + (to[0] - q[0]) * part, q[1] + (to[1] - q[1]) * part];
        };
        cut.push(near(p, 16), near(r, 16));
    }
    cut.push(way[way.length - 1]);
    return cut;
}
