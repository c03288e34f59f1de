"use strict";
// What the moves of a report change, move by move, as the report says it: nothing is judged here. The state is an array
// of numbers, and each move a few changes of it, so that the page can go to any move and back. A train waits from its
// refusal until it gets what it was refused, or gets on.

const MOVING = 2;
const OF_LOCK = 3;      // numbers for each lock: the train, the segments from and to
const OF_TRAIN = 7;     // numbers for each train: see below
const ON = 0, TO = 1, ACROSS = 2, MADE = 3, REFUSED = 4, WAIT = 5, TRIES = 6;

class Play {
    constructor(net, run) {
        this.net = net;
        this.run = run;
        this.locks = 2 * net.segments.length;
        this.points = this.locks + OF_LOCK * net.boxes.length;
        this.trains = this.points + net.boxes.length;
        this.state = new Int32Array(this.trains + OF_TRAIN * net.trains.length).fill(NONE);
        net.boxes.forEach((box, i) => { this.state[this.points + i] = box.right ? 1 : 0; });
        net.trains.forEach((train, i) => {
            this.state.set([train.start, NONE, NONE, 0, 0, NONE, 0], this.trains + OF_TRAIN * i);
            this.state.fill(i, 2 * train.start, 2 * train.start + 2);
        });
        this.at = 0;
        this.changes = new Int32Array(1024);
        this.changed = 0;
        this.first = new Uint32Array(run.moves.length + 1);
        for (let i = 0; i < run.moves.length; i++) {
            this.apply(run.moves.at(i), i);
            this.first[i + 1] = this.changed / 3;
        }
        this.changes = this.changes.slice(0, this.changed);
        this.at = run.moves.length;
        this.jams = this.findJams();
        this.go(0);
    }

    get length() {
        return this.run.moves.length;
    }

    // Goes to the state after so many moves, and answers which numbers of the state may have changed.
    go(to) {
        const touched = new Set();
        const { changes, state } = this;
        const from = 3 * this.first[this.at], until = 3 * this.first[to];
        for (let i = from; i < until; i += 3) {
            state[changes[i]] = changes[i + 2];
            touched.add(changes[i]);
        }
        for (let i = from - 3; i >= until; i -= 3) {
            state[changes[i]] = changes[i + 1];
            touched.add(changes[i]);
        }
        this.at = to;
        return touched;
    }

    holder(segment, end) {
        return this.state[2 * segment + end];
    }

    lock(box) {
        const [train, from, to] = this.state.subarray(this.locks + OF_LOCK * box);
        return { train, from, to };
    }

    side(box) {
        return this.state[this.points + box];
    }

    train(number) {
        const [on, to, across, made, refused, wait, tries] = this.state.subarray(this.trains + OF_TRAIN * number);
        return { on, to, across, made, refused, wait, tries };
    }

    // Whether what a train was refused is still the other's.
    isStillHeld({ verb, box, segments: [s], by }) {
        return verb === "bar" ? this.lock(box).train === by : this.state[this.endAt(s, box)] === by;
    }

    // The trains that stand on a segment, or come from it. Of a right report that is one at most.
    trainsOn(segment) {
        const found = [];
        for (let t = 0; t < this.net.trains.length; t++) {
            const { on, to } = this.train(t);
            if (on === segment || to === segment) found.push(t);
        }
        return found;
    }

    // Segments on which more than one train is, and boxes across which more than one goes.
    collisions() {
        const segments = new Map(), boxes = new Map();
        const add = (places, place, train) => {
            if (place !== NONE) places.set(place, (places.get(place) || []).concat(train));
        };
        this.net.trains.forEach((_, t) => {
            const { on, to, across } = this.train(t);
            add(segments, on, t);
            add(segments, to, t);
            add(boxes, across, t);
        });
        const several = places => [...places].filter(([, trains]) => trains.length > 1);
        return { segments: several(segments), boxes: several(boxes) };
    }

    // The lists of spent trains of which each was last refused by the next, and the last by the first, with the number
    // of moves after which that stood. Asked at the end.
    findJams() {
        const { net, run } = this;
        const last = net.trains.map(() => NONE), since = net.trains.map(() => 0), moved = net.trains.map(() => true);
        for (let i = 0; i < run.moves.length; i++) {
            const verb = run.moves.verb(i), train = run.moves.train(i);
            if (verb === "enter") moved[train] = true;
            if (verb !== "refuse" && verb !== "bar") continue;
            const { by } = run.moves.at(i);
            if (moved[train] || last[train] !== by) since[train] = i + 1;
            last[train] = by;
            moved[train] = false;
        }
        const isSpent = t => run.outcomes[t]?.fate === "spent" && last[t] !== NONE;
        const jams = [];
        net.trains.forEach((_, first) => {
            const trains = [first];
            for (let t = last[first]; isSpent(first) && isSpent(t) && !trains.includes(t); t = last[t]) trains.push(t);
            const closed = isSpent(first) && last[trains[trains.length - 1]] === first;
            if (!closed || jams.some(jam => jam.trains.includes(first))) return;
            jams.push({ trains, since: Math.max(...trains.map(t => since[t])) });
        });
        return jams;
    }

    set(index, value) {
        if (this.state[index] === value) return;
        if (this.changed + 3 > this.changes.length) {
            const longer = new Int32Array(2 * this.changes.length);
            longer.set(this.changes);
            this.changes = longer;
        }
        this.changes[this.changed++] = index;
        this.changes[this.changed++] = this.state[index];
        this.changes[this.changed++] = value;
        this.state[index] = value;
    }

    setThree(index, ...values) {
        for (let i = 0; i < 3; i++) this.set(index + i, values[i]);
    }

    apply(move, number) {
        const { train, box, segments: [s, s2] } = move;
        const of = this.trains + OF_TRAIN * train;
        const lock = this.locks + OF_LOCK * box;
        this.countTry(move, of);
        switch (move.verb) {
        case "reserve":
            this.set(this.endAt(s, box), train);
            this.got(move, "refuse", of);
            break;
        case "release":
            if (this.state[this.endAt(s, box)] === train) this.set(this.endAt(s, box), NONE);
            break;
        case "lock":
            this.setThree(lock, train, s, s2);
            this.got(move, "bar", of);
            break;
        case "unlock":
            this.setThree(lock, NONE, NONE, NONE);
            break;
        case "throw":
            this.set(this.points + box, MOVING);
            break;
        case "settle":
            this.set(this.points + box, move.right ? 1 : 0);
            break;
        case "enter":
            this.setThree(of + ON, s, s2, box);
            this.set(of + WAIT, NONE);
            break;
        case "leave":
            if (this.state[of + TO] !== NONE) this.set(of + ON, this.state[of + TO]);
            this.set(of + TO, NONE);
            this.set(of + ACROSS, NONE);
            this.set(of + MADE, this.state[of + MADE] + 1);
            break;
        default:
            this.set(of + REFUSED, this.state[of + REFUSED] + 1);
            this.set(of + WAIT, number);
        }
    }

    // An attempt begins when a train asks for the segment ahead at its near end.
    countTry({ verb, train, box, segments: [s] }, of) {
        if (verb !== "reserve" && verb !== "refuse") return;
        const step = this.net.trains[train].steps[this.state[of + MADE]];
        if (step && step.box === box && step.to === s) this.set(of + TRIES, this.state[of + TRIES] + 1);
    }

    // A train that gets what it was refused waits no longer.
    got({ box, segments: [s] }, verb, of) {
        const why = this.run.moves.at(this.state[of + WAIT]);
        if (!why || why.verb !== verb || why.box !== box) return;
        if (verb === "bar" || why.segments[0] === s) this.set(of + WAIT, NONE);
    }

    endAt(segment, box) {
        return 2 * segment + (this.net.segments[segment].ends[0].box === box ? 0 : 1);
    }
}

// A move in words.
function tell(net, move) {
    const train = n => net.trains[n].name;
    const [s, s2] = move.segments.map(n => net.segments[n].name);
    const t = move.train === NONE ? "" : train(move.train);
    const b = move.box === NONE ? "" : net.boxes[move.box].name;
    switch (move.verb) {
    case "reserve": return `${t} takes ${s} at its end at ${b}`;
    case "release": return `${t} gives ${s} back at ${b}`;
    case "lock": return `${t} locks ${b} for its way from ${s} to ${s2}`;
    case "unlock": return `${t} gives back the lock of ${b}`;
    case "throw": return `the points of ${b} begin to move`;
    case "settle": return `the points of ${b} stand at ${move.right ? "right" : "left"}`;
    case "enter": return `${t} enters ${s2} from ${s}, across ${b}`;
    case "leave": return `${t} has left ${s}`;
    case "refuse": return `${t} is refused ${s} at ${b}: ${train(move.by)} holds it there`;
    default: return `${t} is refused the lock of ${b}: ${train(move.by)} has it`;
    }
}

// The line of a move in the report.
function lineOf(net, move) {
    let segment = 0;
    const words = MOVES[move.verb].split(" ").map((role, i) => {
        if (role === "TRAIN") return net.trains[i ? move.by : move.train].name;
        if (role === "BOX") return net.boxes[move.box].name;
        if (role === "SEGMENT") return net.segments[move.segments[segment++]].name;
        return move.right ? "right" : "left";
    });
    return [move.verb, ...words].join(" ");
}
