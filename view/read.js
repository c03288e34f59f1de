"use strict";
// Reads the text of `relis tables` and the report. The first line that isn't as expected is told in a sentence.

const MOST = { boxes: 128, segments: 256, trains: 32, steps: 64, tries: 1000, count: 1000000, moves: 100000 };
const ARMS = { buffer: 1, joint: 2, point: 3, crossing: 4 };
const MOVES = {
    reserve: "TRAIN SEGMENT BOX",
    release: "TRAIN SEGMENT BOX",
    lock: "TRAIN BOX SEGMENT SEGMENT",
    unlock: "TRAIN BOX",
    throw: "BOX",
    settle: "BOX SIDE",
    enter: "TRAIN BOX SEGMENT SEGMENT",
    leave: "TRAIN SEGMENT",
    refuse: "TRAIN SEGMENT BOX TRAIN",
    bar: "TRAIN BOX TRAIN",
};

const VERBS = Object.keys(MOVES);
const FORMS = Object.fromEntries(VERBS.map(verb => [verb, MOVES[verb].split(" ")]));
const NONE = -1;
const REPORT_HEAD = 2;  // the lines of a report before its first move

class Fault extends Error {}

// A text as the scripts clean it: what no valid text has becomes "?", and CR becomes "!".
function clean(text) {
    return text.replace(/\r/g, "!").replace(/[^\n !"-;=-~]/g, "?");
}

class Lines {
    constructor(what, text) {
        this.what = what;
        this.lines = text.split("\n");
        this.broken = this.lines.pop() === "" ? 0 : this.lines.length + 1;
        if (this.broken) this.lines.push(text.slice(text.lastIndexOf("\n") + 1));
        this.number = 0;
    }

    fail(expected, number = this.number) {
        const line = this.lines[number - 1];
        const found = line === undefined ? "the end of the text" : '"' + line.slice(0, 60) + '"';
        throw new Fault(`${this.what}, line ${number}: expected ${expected}, found ${found}`);
    }

    // The words of the next line, and the line itself; of the text's end, one word that no line has.
    next() {
        this.number++;
        this.line = this.lines[this.number - 1];
        if (this.line !== undefined && this.line.endsWith("!")) {
            this.lines[this.number - 1] = this.line.slice(0, -1);
            this.fail("lines that end in LF alone, not in CR LF");
        }
        if (this.number === this.broken) this.fail("a line feed at the end of the line");
        if (this.line === undefined) return [null];
        return this.line.length > 200 ? [this.line] : this.line.split(" ");
    }

    nothing() {
        this.next();
        if (this.line !== undefined) this.fail('nothing after "end"');
    }
}

function isName(word) {
    return word !== undefined && /^[A-Za-z0-9_-]{1,16}$/.test(word);
}

function isNumber(word, least, most) {
    return word !== undefined && /^(0|[1-9][0-9]{0,6})$/.test(word) && least <= Number(word) && Number(word) <= most;
}

// Whether some side of a box of that kind connects the two arms.
function connects(kind, x, y) {
    if (kind === "point") return x !== y && (x === 0 || y === 0);
    return kind !== "buffer" && (x ^ 1) === y;
}

function readTables(text) {
    const lines = new Lines("tables", text);
    const net = { boxes: [], segments: [], trains: [] };
    const boxes = new Map(), segments = new Map(), trains = new Map(), held = new Map();
    const holders = [];
    lines.next();
    if (lines.line !== "relis tables 1") lines.fail('"relis tables 1"');

    let words = lines.next();
    while (words[0] === "box") readBox();
    for (const segment of net.segments) {
        if (segment.ends.length < 2) lines.fail(`another arm with segment ${segment.name}`);
    }
    while (words[0] === "train") readTrain();
    if (lines.line !== "end") lines.fail(wanted());
    for (const [holder, number] of holders) {
        if (!trains.has(holder)) lines.fail(`* or a train of these tables in place of ${holder}`, number);
    }
    lines.nothing();
    net.boxNumber = boxes;
    net.segmentNumber = segments;
    net.trainNumber = trains;
    return net;

    function wanted() {
        const box = net.trains.length ? "" : `"box ${net.boxes.length} NAME KIND SIDE", `;
        return `${box}"train ${net.trains.length} NAME STEPS" or "end"`;
    }

    function readBox() {
        const number = net.boxes.length;
        const [, place, name, kind, side] = words;
        if (number === MOST.boxes) lines.fail(`at most ${MOST.boxes} boxes`);
        const fits = words.length === 5 && place === String(number) && isName(name) && !boxes.has(name)
            && Object.hasOwn(ARMS, kind) && (side === "left" || side === "right" && kind === "point");
        if (!fits) lines.fail(`"box ${number} NAME KIND SIDE" with a new name, a kind and a side`);
        const box = { name, kind, right: side === "right", arms: [] };
        boxes.set(name, number);
        net.boxes.push(box);
        for (let arm = 0; arm < ARMS[kind]; arm++) {
            words = lines.next();
            readArm(box, number, arm);
        }
        words = lines.next();
    }

    function readArm(box, number, arm) {
        const [word, place, name, holder] = words;
        const fits = words.length === 4 && word === "arm" && place === String(arm) && isName(name)
            && (holder === "*" || isName(holder));
        if (!fits) lines.fail(`"arm ${arm} SEGMENT HOLDER"`);
        if (!segments.has(name)) {
            if (net.segments.length === MOST.segments) lines.fail(`at most ${MOST.segments} segments`);
            segments.set(name, net.segments.length);
            net.segments.push({ name, ends: [] });
        }
        const index = segments.get(name);
        const ends = net.segments[index].ends;
        if (ends.length === 2 || box.arms.includes(index)) {
            lines.fail(`a segment that ends at two boxes in place of ${name}`);
        }
        ends.push({ box: number, arm });
        box.arms.push(index);
        if (holder === "*") return;
        holders.push([holder, lines.number]);
        held.set(holder, (held.get(holder) || []).concat(index));
    }

    function readTrain() {
        const number = net.trains.length;
        const [, place, name, steps] = words;
        if (number === MOST.trains) lines.fail(`at most ${MOST.trains} trains`);
        const fits = words.length === 4 && place === String(number) && isName(name) && !trains.has(name)
            && isNumber(steps, 0, MOST.steps);
        if (!fits) lines.fail(`"train ${number} NAME STEPS" with a new name and at most ${MOST.steps} steps`);
        const own = held.get(name) || [];
        if (own.length !== 2 || own[0] !== own[1]) lines.fail("a train that holds one segment at both ends");
        const train = { name, steps: [] };
        let at = own[0];
        train.start = at;
        for (let k = 0; k < Number(steps); k++) {
            words = lines.next();
            const step = readStep(k, at);
            train.steps.push(step);
            at = step.to;
        }
        trains.set(name, number);
        net.trains.push(train);
        words = lines.next();
    }

    function readStep(k, at) {
        const number = boxes.get(words[2]);
        const box = net.boxes[number];
        const x = Number(words[3]), y = Number(words[4]);
        if (box && box.arms[x] === at && box.arms[y] !== undefined && connects(box.kind, x, y)) {
            const ahead = other(box.arms[y], number), back = other(at, number);
            const line = `step ${k} ${box.name} ${x} ${y} ${ahead} ${back}`;
            if (lines.line === line) return { box: number, from: at, to: box.arms[y] };
        }
        lines.fail(`"step ${k} B X Y C C_ARM A A_ARM", a step from segment ${net.segments[at].name}`);
    }

    function other(segment, box) {
        const [first, second] = net.segments[segment].ends;
        const end = first.box === box ? second : first;
        return net.boxes[end.box].name + " " + end.arm;
    }
}

// The moves of a report, each as numbers of its verb, train, box, segments and other train, or a side.
class Moves {
    constructor() {
        this.length = 0;
        this.data = new Int16Array(6 * 64);
    }

    push(move) {
        if (6 * this.length === this.data.length) {
            const longer = new Int16Array(2 * this.data.length);
            longer.set(this.data);
            this.data = longer;
        }
        const { verb, train, box, segments, by, right } = move;
        const { data } = this;
        const i = 6 * this.length++;
        data[i] = VERBS.indexOf(verb);
        data[i + 1] = train;
        data[i + 2] = box;
        data[i + 3] = segments.length > 0 ? segments[0] : NONE;
        data[i + 4] = segments.length > 1 ? segments[1] : NONE;
        data[i + 5] = verb === "settle" ? Number(right) : by;
    }

    verb(i) {
        return VERBS[this.data[6 * i]];
    }

    train(i) {
        return this.data[6 * i + 1];
    }

    at(i) {
        if (i < 0 || i >= this.length) return undefined;
        const { data } = this;
        const at = 6 * i;
        const verb = VERBS[data[at]], s = data[at + 3], s2 = data[at + 4], last = data[at + 5];
        const segments = s === NONE ? [] : s2 === NONE ? [s] : [s, s2];
        const settles = verb === "settle";
        return { verb, train: data[at + 1], box: data[at + 2], segments, by: settles ? NONE : last,
            right: settles && last === 1 };
    }
}

function noRun() {
    return { moves: new Moves(), outcomes: [], tries: 0 };
}

// The report's moves, and how each train fared.
function readReport(text, net) {
    const lines = new Lines("report", text);
    const run = noRun();
    lines.next();
    if (lines.line !== "relis report 1") lines.fail('"relis report 1"');
    let words = lines.next();
    if (words.length !== 2 || words[0] !== "tries" || !isNumber(words[1], 1, MOST.tries)) {
        lines.fail(`"tries N", N from 1 to ${MOST.tries}`);
    }
    run.tries = Number(words[1]);

    words = lines.next();
    while (Object.hasOwn(MOVES, words[0])) {
        if (run.moves.length === MOST.moves) lines.fail(`at most ${MOST.moves} moves`);
        run.moves.push(readMove());
        words = lines.next();
    }
    net.trains.forEach((train, number) => {
        const [word, name, fate, made, refused] = words;
        const form = `"train ${train.name} FATE MADE REFUSED"`;
        if (number === 0 && word !== "train") lines.fail("a move or " + form);
        const fits = words.length === 5 && word === "train" && name === train.name
            && ["arrived", "spent", "underway"].includes(fate)
            && isNumber(made, 0, MOST.count) && isNumber(refused, 0, MOST.count);
        if (!fits) lines.fail(form);
        run.outcomes.push({ fate, made: Number(made), refused: Number(refused) });
        words = lines.next();
    });
    if (lines.line !== "end") lines.fail(net.trains.length ? '"end"' : 'a move or "end"');
    lines.nothing();
    return run;

    function readMove() {
        const verb = words[0];
        const form = FORMS[verb];
        if (words.length !== form.length + 1) lines.fail(`"${verb} ${MOVES[verb]}"`);
        const move = { verb, train: NONE, box: NONE, segments: [], by: NONE, right: false };
        for (let i = 0; i < form.length; i++) {
            const role = form[i], word = words[i + 1];
            if (role === "TRAIN" && i === 0) move.train = numberOf(net.trainNumber, word, "train");
            else if (role === "TRAIN") move.by = numberOf(net.trainNumber, word, "train");
            else if (role === "BOX") move.box = numberOf(net.boxNumber, word, "box");
            else if (role === "SEGMENT") move.segments.push(numberOf(net.segmentNumber, word, "segment"));
            else if (word === "left" || word === "right") move.right = word === "right";
            else lines.fail(`left or right in place of ${word}`);
        }
        if (move.box !== NONE) move.segments.forEach(segment => endsThere(segment, move.box));
        if (move.segments.length === 2 && move.segments[0] === move.segments[1]) lines.fail("two different segments");
        return move;
    }

    function endsThere(segment, box) {
        if (net.boxes[box].arms.includes(segment)) return;
        lines.fail(`a segment that ends at ${net.boxes[box].name} in place of ${net.segments[segment].name}`);
    }

    function numberOf(numbers, word, what) {
        const number = numbers.get(word);
        if (number === undefined) lines.fail(`a ${what} of the network in place of ${word.slice(0, 20)}`);
        return number;
    }
}

// The guards by their numbers: what a move that breaks one says that isn't so.
const GUARDS = [
    "the segment has no end at that box", "the segment is held there by another train",
    "the segment has no end at that box", "the train doesn't hold the segment there",
    "the train stands on what it gives back", "the two segments aren't two that end at the box",
    "another train has the lock", "the train doesn't hold both segments at the box",
    "no side of the box connects the two segments", "the train hasn't the lock", "the train stands across the box",
    "the box has no lock, or its points move already", "the points connect the locked way already",
    "the box has no lock, or its points don't move", "that side doesn't connect the locked way",
    "that isn't the next step of the train's route", "the train is across a box already",
    "the train doesn't hold the segment ahead at both ends", "the train hasn't the lock for that way",
    "the points don't connect that way", "the train isn't across a box, or doesn't come from there",
    "the segment has no end at that box", "the other train doesn't hold the segment there",
    "the other train hasn't the lock", "the counts aren't those of the moves", "the fate isn't that of the moves",
];

// What the audit answered, in words, and the line that it speaks of, if it speaks of one.
function readVerdict(text) {
    if (!text) return { kind: "none", says: "not audited: nobody has judged this report", line: 0 };
    const [, status, answer] = /^audited ([0-9]{1,3}) (.*)/.exec(text) || [];
    const numbers = (answer || "").match(/[0-9]{1,9}/g) || [];
    if (status === "0" && /^safe moves [0-9]+$/.test(answer)) {
        return { kind: "safe", says: `audit: safe, ${count(Number(numbers[0]), "move")}`, line: 0 };
    }
    if (status === "7" && /^not safe [0-9]+ [0-9]+$/.test(answer)) {
        const [line, guard] = numbers.map(Number);
        const why = GUARDS[guard - 1] ? ": " + GUARDS[guard - 1] : "";
        return { kind: "unsafe", says: `audit: not safe: line ${line}, guard ${guard}${why}`, line };
    }
    if (status === "3" && /^refused 19 report:[0-9]+$/.test(answer)) {
        return { kind: "unsafe", says: `audit: line ${numbers[1]} isn't a line of a report here`, line: 0 };
    }
    return { kind: "none", says: `not audited: the audit answered "${(answer || text).trim().slice(0, 60)}"`, line: 0 };
}

function count(number, one, many = one + "s") {
    return `${number.toLocaleString("en")} ${number === 1 ? one : many}`;
}
