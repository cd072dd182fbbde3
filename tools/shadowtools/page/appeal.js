"use strict";

// Judges the records of one session in the reader's browser. The page of `report --session` holds this text with the bank, the plan and the
// records. It is written from docs/FORMATS.md, whose sections the comments name, and shares nothing with the program or the tools in Python.
// It opens no connection, and makes no code from text.

const HOLDS = "holds", DOES_NOT_HOLD = "does not hold", NOT_JUDGED = "not judged";

/** A rule that is broken. `kind` is the word that FORMATS has for it: record, illegal, bad tree; or bank, plan, page. */
class Fault extends Error {
    constructor(kind, rule) {
        super(rule);
        this.kind = kind;
    }
}

/** What this page has not enough to judge. */
class Unjudged extends Error {}

function demand(holds, kind, rule) {
    if (!holds) {
        throw new Fault(kind, rule);
    }
}

function sum(values) {
    return values.reduce((total, value) => total + value, 0);
}

function range(first, end) {
    return Array.from({ length: Math.max(0, end - first) }, (_, place) => first + place);
}

// ------------------------------------------------------------------------------------------------ bytes

function bytesOfHexadecimal(text) {
    demand(/^([0-9a-f]{2})*$/.test(text), "page", "the bytes are not hexadecimal");
    return Uint8Array.from(range(0, text.length / 2), place => parseInt(text.substr(2 * place, 2), 16));
}

function bytesOfText(text) {
    const bytes = [];
    for (const character of text) {
        const code = character.charCodeAt(0);
        if (code < 128) {
            bytes.push(code);
        } else {
            encodeURIComponent(character).split("%").slice(1).forEach(pair => bytes.push(parseInt(pair, 16)));
        }
    }
    return Uint8Array.from(bytes);
}

/** Numbers from the left, big-endian and without a sign. `short` makes the fault where the bytes end within one. */
class Reader {
    constructor(bytes, short) {
        this.bytes = bytes;
        this.at = 0;
        this.short = short;
    }

    number(size) {
        if (this.at + size > this.bytes.length) {
            throw this.short();
        }
        let value = 0;
        for (let place = 0; place < size; place++) {
            value = 256 * value + this.bytes[this.at++];
        }
        return value;
    }
}

// ------------------------------------------------------------------------------------------------ SHA-256 (FIPS 180-4)

function firstPrimes(count) {
    const found = [];
    for (let number = 2; found.length < count; number++) {
        if (found.every(prime => number % prime)) {
            found.push(number);
        }
    }
    return found;
}

/** The first 32 bits of the fraction of a root: the greatest x with x^power <= prime * 2^(32 * power), less its whole part. */
function fractionOfRoot(prime, power) {
    const goal = BigInt(prime) << BigInt(32 * power);
    let low = 0n, high = 1n << 40n;
    while (high - low > 1n) {
        const middle = (low + high) / 2n;
        if (middle ** BigInt(power) <= goal) {
            low = middle;
        } else {
            high = middle;
        }
    }
    return Number(low & 0xffffffffn);
}

const ROUND_WORDS = Int32Array.from(firstPrimes(64), prime => fractionOfRoot(prime, 3));
const FIRST_WORDS = Int32Array.from(firstPrimes(8), prime => fractionOfRoot(prime, 2));

function turnedRight(word, by) {
    return word >>> by | word << 32 - by;
}

function padded(bytes) {
    const whole = new Uint8Array((bytes.length + 8 >> 6) + 1 << 6), view = new DataView(whole.buffer);
    whole.set(bytes);
    whole[bytes.length] = 128;
    view.setUint32(whole.length - 8, Math.floor(bytes.length / 2 ** 29));
    view.setUint32(whole.length - 4, bytes.length * 8 % 2 ** 32);
    return view;
}

function sha256(bytes) {
    const state = Int32Array.from(FIRST_WORDS), words = new Int32Array(64), view = padded(bytes);
    for (let block = 0; block < view.byteLength; block += 64) {
        for (let t = 0; t < 16; t++) {
            words[t] = view.getInt32(block + 4 * t);
        }
        for (let t = 16; t < 64; t++) {
            const before = words[t - 15], last = words[t - 2];
            words[t] = words[t - 16] + (turnedRight(before, 7) ^ turnedRight(before, 18) ^ before >>> 3)
                + words[t - 7] + (turnedRight(last, 17) ^ turnedRight(last, 19) ^ last >>> 10);
        }
        let [a, b, c, d, e, f, g, h] = state;
        for (let t = 0; t < 64; t++) {
            const one = h + (turnedRight(e, 6) ^ turnedRight(e, 11) ^ turnedRight(e, 25)) + (e & f ^ ~e & g) + ROUND_WORDS[t] + words[t] | 0;
            const two = (turnedRight(a, 2) ^ turnedRight(a, 13) ^ turnedRight(a, 22)) + (a & b ^ a & c ^ b & c) | 0;
            h = g;
            g = f;
            f = e;
            e = d + one | 0;
            d = c;
            c = b;
            b = a;
            a = one + two | 0;
        }
        [a, b, c, d, e, f, g, h].forEach((value, place) => { state[place] += value; });
    }
    return Array.from(state, word => (word >>> 0).toString(16).padStart(8, "0")).join("");
}

// ------------------------------------------------------------------------------------------------ "The item bank"

/** The records of a CSV text in the manner of RFC 4180, without empty lines. */
function csvRecords(text) {
    const records = [];
    let at = text.startsWith("\ufeff") ? 1 : 0;
    while (at < text.length) {
        if (text[at] === "\n" || text[at] === "\r") {
            at++;
            continue;
        }
        const record = [];
        do {
            const [field, next] = csvField(text, at);
            record.push(field);
            at = next;
        } while (text[at++] === ",");
        records.push(record);
    }
    return records;
}

/** The field that begins at a place, and the place after it. */
function csvField(text, at) {
    let field = "";
    if (text[at] === '"') {
        for (at++; at < text.length && (text[at] !== '"' || text[at + 1] === '"'); at++) {
            at += text[at] === '"' ? 1 : 0;
            field += text[at];
        }
        at++;
    }
    const begin = at;
    while (at < text.length && !",\n\r".includes(text[at])) {
        at++;
    }
    return [field + text.slice(begin, at), at];
}

function naturalOf(text, kind, where) {
    demand(/^(0|[1-9][0-9]{0,8})$/.test(text), kind, `${where}: “${text}” is no NUMBER`);
    return Number(text);
}

function signedOf(text, kind, where) {
    demand(/^(0|-?[1-9][0-9]{0,8})$/.test(text), kind, `${where}: “${text}” is no SIGNED`);
    return Number(text);
}

/** The numbers of quantities, grid points and responses that a header has columns for. */
function shapeOfHeader(header) {
    const quantities = header.filter(name => /^q[0-9]+$/.test(name)).length;
    const grid = header.filter(name => /^i[0-9]+$/.test(name)).length;
    const responses = grid ? Math.floor((header.length - 3 - quantities - grid) / grid) : 0;
    const wanted = ["item", "stimulus", "categories", ...range(0, quantities).map(q => `q${q}`), ...range(0, grid).map(g => `i${g}`),
        ...range(0, responses).flatMap(r => range(0, grid).map(g => `l${r}_${g}`))];
    demand(quantities <= 8 && grid >= 1 && grid <= 61 && responses >= 2 && responses <= 5 && header.length === wanted.length
        && header.every((name, column) => name === wanted[column]), "bank", "the header is that of no bank");
    return { quantities, grid, responses };
}

function readItem(cells, number, shape) {
    const where = `record ${number + 1}`, first = 3 + shape.quantities, logs = first + shape.grid;
    demand(cells.length === logs + shape.grid * shape.responses, "bank", `${where} has not as many fields as the header`);
    const whole = cells.slice(0, logs).map(cell => naturalOf(cell, "bank", where));
    const [named, stimulus, categories] = whole, quantities = whole.slice(3, first), information = whole.slice(first);
    demand(named === number, "bank", `${where} is not item ${number}`);
    const likelihoods = range(0, shape.responses).map(r => cells.slice(logs + r * shape.grid, logs + (r + 1) * shape.grid));
    demand(likelihoods.slice(categories).every(row => row.every(cell => cell === "")), "bank", `${where} has more than its categories`);
    const logarithms = likelihoods.slice(0, categories).map(row => row.map(cell => signedOf(cell, "bank", where)));
    demand(stimulus <= 64 && categories >= 2 && categories <= shape.responses && quantities.every(value => value <= 65535)
        && information.every(value => value <= 1000000) && logarithms.every(row => row.every(value => value >= -10000000 && value <= 0)),
    "bank", `a number of item ${number} is out of its range`);
    return { stimulus, categories, quantities, information, logarithms };
}

function readBank(text) {
    demand(bytesOfText(text).length <= 4194304, "bank", "the text is too long");
    const [header, ...records] = csvRecords(text);
    const shape = shapeOfHeader(header || []);
    const items = records.map((cells, number) => readItem(cells, number, shape));
    demand(items.length >= 1 && items.length <= 512, "bank", `${items.length} items`);
    return { items, grid: shape.grid, quantities: shape.quantities, stimuli: Math.max(...items.map(item => item.stimulus)) };
}

// ------------------------------------------------------------------------------------------------ "The plan", "Words in texts"

// How many numbers each line has before its set (null: one or more), and whether it has a set. `key` is read by itself.
const PLAN_LINES = {
    length: [1, false], prior: [null, false], rate: [2, false], key: [1, false], bands: [null, false], budget: [1, false],
    "base-budget": [1, false], sessions: [1, false], journal: [1, false], count: [2, true], quantity: [3, true], enemies: [0, true],
    stimuli: [2, false], stimulus: [3, false], base: [0, true],
};
const ROW_LINES = ["count", "quantity", "enemies", "stimuli"];
const MOST_OF_ROWS = { count: 512, quantity: 33553920, stimuli: 64, enemies: 1 };

function readSet(words, where) {
    const items = [];
    for (const word of words) {
        const ends = word.split("-").map(end => naturalOf(end, "plan", where)), [low, high] = [ends[0], ends[ends.length - 1]];
        demand(ends.length <= 2 && (ends.length === 1 || low < high) && high <= 511 && low > (items.length ? items[items.length - 1] : -1),
            "plan", `${where}: “${word}” continues no SET`);
        items.push(...range(low, high + 1));
    }
    return items;
}

/** The words of a line: its first one, its numbers, and its set. */
function readPlanLine(text, where) {
    const [word, ...rest] = text.split(" ");
    demand(Object.hasOwn(PLAN_LINES, word), "plan", `${where}: “${word}” begins no line`);
    const [numbers, hasSet] = PLAN_LINES[word], before = numbers === null ? rest.length : numbers;
    demand(rest.every(one => one !== "") && (hasSet ? rest.length > before : rest.length === before && before > 0), "plan",
        `${where}: a wrong number of words`);
    if (word === "key") {
        demand(/^[0-9a-f]{64}$/.test(rest[0]), "plan", `${where}: no KEY`);
        return { word, values: [bytesOfHexadecimal(rest[0])], set: [] };
    }
    const reader = word === "prior" ? signedOf : naturalOf, values = rest.slice(0, before).map(one => reader(one, "plan", where));
    demand(!["bands", "quantity", "stimulus"].includes(word) || values.slice(0, word === "bands" ? undefined : 1).every(value => value <= 255),
        "plan", `${where}: a number above 255`);
    return { word, values, set: hasSet ? readSet(rest.slice(before), where) : [] };
}

function rowOf(line) {
    const quantity = line.word === "quantity" ? line.values[0] : null;
    const [low, high] = line.word === "enemies" ? [0, 1] : line.values.slice(-2);
    return { kind: line.word, low, high, members: line.set, quantity };
}

function readPlanLines(text) {
    const once = new Map(), rows = [];
    text.replace(/\n$/, "").split("\n").forEach((words, place) => {
        if (words === "" || words.startsWith("#")) {
            return;
        }
        const where = `line ${place + 1}`, line = readPlanLine(words, where);
        if (ROW_LINES.includes(line.word)) {
            rows.push(rowOf(line));
            return;
        }
        const name = line.word === "stimulus" ? `stimulus ${line.values[0]}` : line.word;
        demand(!once.has(name), "plan", `${where}: ${name} is there twice`);
        once.set(name, line);
    });
    return { once, rows };
}

/** The plan of a text. Its key is null where the page was made without it. */
function readPlan(text, bank, hasKey) {
    demand(bytesOfText(text).length <= 1048576, "plan", "the text is too long");
    const { once, rows } = readPlanLines(text);
    const valuesOf = (name, usual) => once.has(name) ? once.get(name).values : usual;
    ["length", "prior"].forEach(name => demand(once.has(name), "plan", `the line ${name} is missing`));
    demand(once.has("key") || !once.has("rate") || !hasKey, "plan", "the line key is missing");
    const named = Array.from(once.values()).filter(line => line.word === "stimulus").map(line => line.values);
    const bounds = range(1, bank.stimuli + 1).map(s => (named.find(values => values[0] === s) || [s, 1, 512]).slice(1));
    const plan = {
        length: valuesOf("length")[0], prior: valuesOf("prior"), rate: valuesOf("rate", [1, 1]), points: valuesOf("bands", []),
        key: hasKey ? valuesOf("key", [new Uint8Array(32)])[0] : null, budget: valuesOf("budget", [2001])[0],
        baseBudget: valuesOf("base-budget", [4095])[0], sessions: valuesOf("sessions", [1000])[0], journal: valuesOf("journal", [67108864])[0],
        rows, bounds, base: once.has("base") ? once.get("base").set : null,
    };
    demandPlan(plan, bank, named.map(values => values[0]));
    return plan;
}

/** "The plan against the bank". */
function demandPlan(plan, bank, named) {
    const { points, rate: [numerator, denominator] } = plan;
    demand(plan.length >= 1 && plan.length <= bank.items.length, "plan", "length");
    demand(plan.prior.length === bank.grid && plan.prior.every(value => value >= -10000000 && value <= 0), "plan", "prior");
    demand(plan.rows.length <= 128, "plan", "rows");
    plan.rows.forEach((row, number) => demand(
        row.low <= row.high && row.high <= MOST_OF_ROWS[row.kind] && row.members.every(item => item < bank.items.length)
        && (row.kind !== "quantity" || row.quantity < bank.quantities), "plan", `row ${number}`));
    demand(named.every(s => s >= 1 && s <= bank.stimuli) && plan.bounds.every(([low, high]) => low >= 1 && low <= high && high <= 512),
        "plan", "stimulus");
    demand(numerator >= 1 && numerator <= denominator && denominator <= 65535, "plan", "rate");
    demand(points.length <= 7 && points.every((point, place) => point >= 1 && point < bank.grid && (!place || points[place - 1] < point)),
        "plan", "bands");
    demand([plan.budget, plan.baseBudget].every(nodes => nodes % 2 === 1 && nodes <= 4095), "plan", "budget");
    demand(plan.sessions >= 1 && plan.sessions <= 65536 && plan.journal >= 64 && plan.journal <= 536870912, "plan", "limit");
    demand(plan.base === null || isForm(wholeProblem(bank, plan, new Set()), new Set(plan.base)), "plan", "base");
}

// ------------------------------------------------------------------------------------------------ "How a proof tree is checked": problem, form

/** The problem that has the plan alone, at the mode of the prior, with some items barred. */
function wholeProblem(bank, plan, barred) {
    return { bank, plan, point: greatestPlace(plan.prior), given: new Set(), barred, start: null };
}

/** The lowest place of the greatest value. */
function greatestPlace(values) {
    return values.indexOf(Math.max(...values));
}

function amountOf(row, bank, has) {
    return sum(row.members.filter(has).map(item => row.kind === "quantity" ? bank.items[item].quantities[row.quantity] : 1));
}

function isForm(problem, form) {
    const { bank, plan } = problem, items = Array.from(form);
    if (items.length !== plan.length || items.some(item => item >= bank.items.length || problem.barred.has(item))
        || Array.from(problem.given).some(item => !form.has(item))) {
        return false;
    }
    const stimuli = items.map(item => bank.items[item].stimulus).filter(s => s > 0), used = new Set(stimuli);
    return plan.rows.every(row => {
        const amount = row.kind === "stimuli" ? used.size : amountOf(row, bank, item => form.has(item));
        return row.low <= amount && amount <= row.high;
    }) && Array.from(used).every(s => {
        const number = stimuli.filter(one => one === s).length, [low, high] = plan.bounds[s - 1];
        return low <= number && number <= high;
    });
}

function objectiveOf(problem, form) {
    return sum(Array.from(form, item => problem.bank.items[item].information[problem.point]));
}

// ------------------------------------------------------------------------------------------------ "The bytes of a proof tree"

const ITEM = 1, STIMULUS = 2, BOUND = 3, RAY = 4, COUNT = 5, WHOLE = 6, OPEN = 7, FIX = 8;
const LOW_CAP = 384, HIGH_CAP = 385, SIDES = 386, MOST_PAIRS = 12288, MOST_NODES = 4095, MOST_MULTIPLIER = 16777216;

function treeFault(words) {
    return new Fault("tree", words);
}

/** The vectors, the nodes and the number of bytes of the tree that some bytes begin with. */
function readTree(bytes) {
    const reader = new Reader(bytes, () => treeFault("Short")), vectors = [], nodes = [];
    let room = MOST_PAIRS;
    for (let left = reader.number(1); left > 0; left--) {
        const vector = readVector(reader, room);
        room -= vector.length;
        vectors.push(vector);
    }
    for (let missing = 1; missing > 0;) {
        if (reader.at === bytes.length) {
            throw treeFault(`Unfinished ${reader.at}`);
        }
        if (nodes.length === MOST_NODES) {
            throw treeFault(`TooLong ${reader.at}`);
        }
        const node = readNode(reader);
        nodes.push(node);
        missing += node.kind <= STIMULUS ? 1 : node.kind === FIX ? 0 : -1;
    }
    return { vectors, nodes, used: reader.at };
}

/** The pairs of a vector, each a side and its multiplier. */
function readVector(reader, room) {
    const vector = [], begin = reader.at, pairs = reader.number(2);
    if (pairs > Math.min(LOW_CAP, room)) {
        throw treeFault(`BadVector ${begin}`);
    }
    for (let before = -1; vector.length < pairs;) {
        let place = reader.at;
        const side = reader.number(2);
        if (side <= before || side >= SIDES) {
            throw treeFault(`BadVector ${place}`);
        }
        place = reader.at;
        const multiplier = reader.number(4);
        if (multiplier < 1 || multiplier > MOST_MULTIPLIER) {
            throw treeFault(`BadVector ${place}`);
        }
        vector.push([side, multiplier]);
        before = side;
    }
    return vector;
}

function readNode(reader) {
    const place = reader.at, kind = reader.number(1);
    if (kind < ITEM || kind > FIX) {
        throw treeFault(`BadKind ${place}`);
    }
    const value = kind === WHOLE || kind === OPEN ? null : reader.number(kind === ITEM ? 2 : 1);
    const goal = kind === FIX ? reader.number(4) : null;
    if (kind === ITEM && value > 511 || kind === STIMULUS && (value < 1 || value > 64) || kind === COUNT && value > 192) {
        throw treeFault(`BadKind ${place}`);
    }
    return { kind, value, goal };
}

// ------------------------------------------------------------------------------------------------ "How a proof tree is checked": paths

const OUT = 0, IN = 1, FREE = 2;

/** A path: where each item is, which stimuli a left branch chose, and by stimulus (0 for none) how many of its items are in and free, and whether it
    is chosen or open. */
function pathOf(problem, where, branched) {
    const { items, stimuli } = problem.bank, takenBy = new Uint16Array(stimuli + 1), freeBy = new Uint16Array(stimuli + 1);
    items.forEach(({ stimulus }, item) => {
        takenBy[stimulus] += where[item] === IN ? 1 : 0;
        freeBy[stimulus] += where[item] === FREE ? 1 : 0;
    });
    const chosen = branched.map((isBranched, stimulus) => stimulus > 0 && (isBranched || takenBy[stimulus] > 0) ? 1 : 0);
    const open = chosen.map((isChosen, stimulus) => stimulus > 0 && !isChosen && freeBy[stimulus] > 0 ? 1 : 0);
    return { where, branched, chosen, open, takenBy, freeBy, taken: sum(takenBy), free: sum(freeBy) };
}

function rootOf(problem) {
    const where = Uint8Array.from(problem.bank.items, (_, item) => problem.given.has(item) ? IN : problem.barred.has(item) ? OUT : FREE);
    return pathOf(problem, where, new Uint8Array(problem.bank.stimuli + 1));
}

/** The paths below a branch, the left one first. */
function pathsBelow(problem, path, node) {
    const left = path.where.slice(), right = path.where.slice(), branched = path.branched.slice();
    if (node.kind === ITEM) {
        left[node.value] = IN;
        right[node.value] = OUT;
    } else {
        branched[node.value] = 1;
        freeOf(problem, path, node.value).forEach(item => { right[item] = OUT; });
    }
    return [pathOf(problem, left, branched), pathOf(problem, right, path.branched)];
}

function freeItems(path) {
    return range(0, path.where.length).filter(item => path.where[item] === FREE);
}

function freeOf(problem, path, stimulus) {
    return freeItems(path).filter(item => problem.bank.items[item].stimulus === stimulus);
}

function isBranch(problem, path, node) {
    return node.kind === ITEM ? path.where[node.value] === FREE : node.value <= problem.bank.stimuli && path.open[node.value] === 1;
}

// The table "Impossible by counting".

function lengthIsImpossible(problem, path) {
    return path.taken > problem.plan.length || path.taken + path.free < problem.plan.length;
}

function rowIsImpossible(problem, path, row) {
    if (row.kind === "stimuli") {
        const chosen = sum(path.chosen);
        return chosen > row.high || chosen + sum(path.open) < row.low;
    }
    let least = 0, most = 0;
    for (const item of row.members) {
        const amount = row.kind === "quantity" ? problem.bank.items[item].quantities[row.quantity] : 1;
        least += path.where[item] === IN ? amount : 0;
        most += path.where[item] === OUT ? 0 : amount;
    }
    return least > row.high || most < row.low;
}

function stimulusIsImpossible(problem, path, stimulus) {
    const [low, high] = problem.plan.bounds[stimulus - 1], taken = path.takenBy[stimulus];
    return taken > high || path.chosen[stimulus] === 1 && taken + path.freeBy[stimulus] < low;
}

/** Whether the row of a number is impossible: 0 the length, then the rows of the plan, then the stimuli. */
function isImpossible(problem, path, number) {
    const rows = problem.plan.rows.length;
    if (number === 0) {
        return lengthIsImpossible(problem, path);
    }
    if (number <= rows) {
        return rowIsImpossible(problem, path, problem.plan.rows[number - 1]);
    }
    return number <= rows + problem.bank.stimuli && stimulusIsImpossible(problem, path, number - rows);
}

function someIsImpossible(problem, path) {
    return range(0, problem.plan.rows.length + problem.bank.stimuli + 1).some(number => isImpossible(problem, path, number));
}

// ------------------------------------------------------------------------------------------------ the sides, and the relaxed maximum

/** Number, or BigInt where a sum of this vector's products may be above 2^50. */
function exactFor(problem, vector) {
    const { bank, plan } = problem, numbers = bank.items.length + plan.length;
    let greatest = 256 * sum(bank.items.map(item => item.information[problem.point]));
    for (const [side, multiplier] of vector) {
        const number = side >> 1, row = plan.rows[number];
        if (side >= LOW_CAP) {
            greatest += multiplier * 2 * numbers;
        } else if (row !== undefined) {
            greatest += multiplier * (row.high + (row.kind === "stimuli" ? bank.stimuli : amountOf(row, bank, () => true)));
        } else {
            greatest += multiplier * (plan.bounds[number - plan.rows.length][1] + bank.items.length);
        }
    }
    return greatest < 2 ** 50 ? Number : BigInt;
}

/** The constant, the weight of each item and of each stimulus, and the cap (null: none) of a vector. */
function weightsOf(problem, vector, isRay) {
    const { bank, plan } = problem, exact = exactFor(problem, vector);
    const found = {
        exact, constant: exact(0), cap: null, items: bank.items.map(item => exact(isRay ? 0 : 256 * item.information[problem.point])),
        stimuli: range(0, bank.stimuli + 1).map(() => exact(0)),
    };
    for (const [side, multiplier] of vector) {
        const times = exact(side % 2 === 0 ? multiplier : -multiplier), number = side >> 1;
        if (side >= LOW_CAP) {
            found.cap = (found.cap === null ? exact(0) : found.cap) + times;
        } else if (number < plan.rows.length) {
            addRow(problem, found, plan.rows[number], times, side % 2 === 0);
        } else {
            addStimulus(problem, found, number - plan.rows.length + 1, times, side % 2 === 0);
        }
    }
    return found;
}

function addRow(problem, found, row, times, isLow) {
    found.constant -= times * found.exact(isLow ? row.low : row.high);
    if (row.kind === "stimuli") {
        range(1, found.stimuli.length).forEach(s => { found.stimuli[s] += times; });
    }
    for (const item of row.members) {
        found.items[item] += times * found.exact(row.kind === "quantity" ? problem.bank.items[item].quantities[row.quantity] : 1);
    }
}

function addStimulus(problem, found, stimulus, times, isLow) {
    found.stimuli[stimulus] -= times * found.exact(problem.plan.bounds[stimulus - 1][isLow ? 0 : 1]);
    problem.bank.items.forEach((item, number) => {
        if (item.stimulus === stimulus) {
            found.items[number] += times;
        }
    });
}

function sumOfGreatest(values, count, exact) {
    const sorted = exact === Number ? Float64Array.from(values).sort().reverse() : values.sort((a, b) => a < b ? 1 : a > b ? -1 : 0);
    return sorted.slice(0, count).reduce((total, value) => total + value, exact(0));
}

/** The relaxed maximum, or null where it is not defined. */
function relaxedMaximum(problem, path, weights) {
    if (lengthIsImpossible(problem, path)) {
        return null;
    }
    const { items } = problem.bank, { exact, cap } = weights, stimuli = weights.stimuli.slice(), free = [];
    let total = weights.constant;
    path.where.forEach((where, item) => {
        const weight = weights.items[item], stimulus = items[item].stimulus;
        if (where === IN) {
            total += weight;
        } else if (where === FREE && cap !== null && path.open[stimulus] && weight > cap) {
            stimuli[stimulus] += weight - cap;
            free.push(cap);
        } else if (where === FREE) {
            free.push(weight);
        }
    });
    stimuli.forEach((weight, stimulus) => {
        total += path.chosen[stimulus] || path.open[stimulus] && weight > 0 ? weight : exact(0);
    });
    return total + sumOfGreatest(free, problem.plan.length - path.taken, exact);
}

function above(value, exact) {
    return value > 0 ? value : exact(0);
}

// ------------------------------------------------------------------------------------------------ what a fix settles

/** The margin of each free item and of each open stimulus, and the room, for a goal. */
function marginsOf(problem, path, weights, goal) {
    const { exact } = weights, threshold = weights.cap === null ? exact(0) : weights.cap, items = new Map(), stimuli = new Map();
    let room = weights.constant + threshold * exact(Math.max(0, problem.plan.length - path.taken)) - exact(256 * goal + 255);
    weights.stimuli.forEach((weight, stimulus) => {
        room += path.chosen[stimulus] ? weight : exact(0);
        if (path.open[stimulus]) {
            stimuli.set(stimulus, weight);
        }
    });
    path.where.forEach((where, item) => {
        const stimulus = problem.bank.items[item].stimulus, margin = weights.items[item] - threshold;
        if (where === IN) {
            room += weights.items[item];
        } else if (where === FREE) {
            items.set(item, margin);
            if (stimuli.has(stimulus)) {
                stimuli.set(stimulus, stimuli.get(stimulus) + above(margin, exact));
            } else {
                room += above(margin, exact);
            }
        }
    });
    stimuli.forEach(margin => { room += above(margin, exact); });
    return { items, stimuli, room };
}

/** What a form on the path that is better than the goal has: the items out, the items in, the stimuli chosen. */
function settledBy(problem, path, weights, goal) {
    const { items, stimuli, room } = marginsOf(problem, path, weights, goal), { exact } = weights;
    const stimulusOf = item => problem.bank.items[item].stimulus, below = value => above(-value, exact), left = new Map(), out = new Set();
    items.forEach((margin, item) => {
        const stimulus = stimulusOf(item);
        if (below(margin) + (stimuli.has(stimulus) ? below(stimuli.get(stimulus)) : exact(0)) >= room) {
            out.add(item);
        } else {
            left.set(stimulus, (left.get(stimulus) || 0) + 1);
        }
    });
    const tooFew = new Set(Array.from(stimuli.keys()).filter(s => (left.get(s) || 0) < problem.plan.bounds[s - 1][0]));
    Array.from(items.keys()).filter(item => tooFew.has(stimulusOf(item))).forEach(item => out.add(item));
    const isSure = margin => above(margin, exact) >= room;
    const taken = Array.from(items.keys()).filter(item => !out.has(item) && isSure(items.get(item))
        && (!stimuli.has(stimulusOf(item)) || isSure(stimuli.get(stimulusOf(item)))));
    const chosen = Array.from(stimuli.keys()).filter(s => !tooFew.has(s) && isSure(stimuli.get(s)) && below(stimuli.get(s)) < room);
    return { out: Array.from(out), taken, chosen };
}

function isSomething(settled) {
    return settled.out.length + settled.taken.length + settled.chosen.length > 0;
}

function pathBelowFix(problem, path, settled) {
    const where = path.where.slice(), branched = path.branched.slice();
    settled.out.forEach(item => { where[item] = OUT; });
    settled.taken.forEach(item => { where[item] = IN; });
    settled.chosen.forEach(stimulus => { branched[stimulus] = 1; });
    return pathOf(problem, where, branched);
}

// ------------------------------------------------------------------------------------------------ the verdict on a tree

function namesOnlySides(problem, vector) {
    const sides = 2 * problem.plan.rows.length + 2 * problem.bank.stimuli;
    return vector.every(([side]) => side < sides || side === LOW_CAP || side === HIGH_CAP);
}

/** A tree with the problem and the form that it is about (null: it is to show that there is none), and weights that were made already. */
class Check {
    constructor(problem, form, tree) {
        this.problem = problem;
        this.form = form;
        this.tree = tree;
        this.objective = form === null || !isForm(problem, form) ? null : objectiveOf(problem, form);
        this.made = new Map();
    }

    weights(number, isRay) {
        const name = `${number} ${isRay}`;
        if (!this.made.has(name)) {
            this.made.set(name, weightsOf(this.problem, this.tree.vectors[number], isRay));
        }
        return this.made.get(name);
    }

    /** Whether a relaxed maximum shows that no form on the path is better. */
    closes(maximum) {
        return this.form !== null && maximum !== null && maximum <= 256 * this.objective + 255;
    }

    /** Why a node is unsound, or null. */
    reason(path, node) {
        const { problem } = this;
        if (node.kind === ITEM || node.kind === STIMULUS) {
            return isBranch(problem, path, node) ? null : "Determined";
        }
        if (node.kind === COUNT) {
            return isImpossible(problem, path, node.value) ? null : "RowPossible";
        }
        if (node.kind === WHOLE || node.kind === OPEN) {
            return this.reasonOfWhole(path, node);
        }
        if (node.value >= this.tree.vectors.length) {
            return "NoVector";
        }
        if (!namesOnlySides(problem, this.tree.vectors[node.value])) {
            return "NoSide";
        }
        if (node.kind === FIX) {
            return this.form === null || node.goal > this.objective ? "NotClosed" : isSomething(this.settled(path, node)) ? null : "FixesNothing";
        }
        const maximum = relaxedMaximum(problem, path, this.weights(node.value, node.kind === RAY));
        if (node.kind === RAY) {
            return maximum !== null && maximum < 0 ? null : "NotNegative";
        }
        return this.closes(maximum) ? null : "NotClosed";
    }

    reasonOfWhole(path, node) {
        const { problem } = this, isFull = path.free === 0 || path.taken === problem.plan.length;
        if (!isFull && path.taken + path.free !== problem.plan.length) {
            return node.kind === OPEN ? null : "NotWhole";
        }
        if (node.kind === OPEN) {
            return "OpenWhole";
        }
        const items = range(0, path.where.length).filter(item => path.where[item] === IN || !isFull && path.where[item] === FREE);
        const used = new Set(items.map(item => problem.bank.items[item].stimulus)), left = new Set(items);
        const isSettled = !isForm(problem, left) || path.chosen.some((isChosen, stimulus) => isChosen && !used.has(stimulus))
            || this.form !== null && objectiveOf(problem, left) <= this.objective;
        return isSettled ? null : "Better";
    }

    settled(path, node) {
        return settledBy(this.problem, path, this.weights(node.value, false), node.goal);
    }

    /** The paths below a node, the left one first. */
    below(path, node) {
        if (node.kind === FIX) {
            return [pathBelowFix(this.problem, path, this.settled(path, node))];
        }
        return node.kind === ITEM || node.kind === STIMULUS ? pathsBelow(this.problem, path, node) : [];
    }

    /** Optimal, NoForm, Partial with the number of open leaves, or Bad with the first unsound node and why. */
    verdict() {
        if (this.form !== null && this.objective === null) {
            return "Bad 0 NotForm";
        }
        const waiting = [rootOf(this.problem)];
        for (const [number, node] of this.tree.nodes.entries()) {
            const path = waiting.pop(), why = this.reason(path, node);
            if (why !== null) {
                return `Bad ${number} ${why}`;
            }
            waiting.push(...this.below(path, node).reverse());
        }
        const open = this.tree.nodes.filter(node => node.kind === OPEN).length;
        return open ? `Partial ${open}` : this.form === null ? "NoForm" : "Optimal";
    }

    /** Whether the tree spends a node budget. */
    spends(budget) {
        const { problem, tree: { nodes } } = this, first = nodes.findIndex(node => node.kind === OPEN);
        const hasPath = node => [ITEM, STIMULUS, FIX].includes(node.kind);
        if (nodes.length !== budget || first < 0 || nodes.slice(first).some(hasPath)) {
            return false;
        }
        const { start } = problem, goal = start !== null && isForm(problem, start) ? 256 * objectiveOf(problem, start) + 255 : null;
        const plain = weightsOf(problem, [], false), waiting = [rootOf(problem)];
        return nodes.every(node => {
            const path = waiting.pop();
            if (!hasPath(node) && node.kind !== OPEN) {
                return true;
            }
            if (!this.mayBranch(path, node) || someIsImpossible(problem, path)
                || goal !== null && !(relaxedMaximum(problem, path, plain) > goal)) {
                return false;
            }
            waiting.push(...this.below(path, node).reverse());
            return true;
        });
    }

    /** Whether a node of a spent tree is where it may be: a branch that branches, or a fix that settles something. */
    mayBranch(path, node) {
        if (node.kind === FIX) {
            const vector = this.tree.vectors[node.value];
            return vector !== undefined && namesOnlySides(this.problem, vector) && isSomething(this.settled(path, node));
        }
        return node.kind === OPEN || isBranch(this.problem, path, node);
    }
}

// ------------------------------------------------------------------------------------------------ "The payload of a record"

const LONGEST_PAYLOAD = 131072, MOST_BANDS = 8, NO_FORM = 0;
const KINDS = {
    1: { 1: "started", 2: "set aside", 3: "served", 4: "answered", 5: "closed" },
    2: { 3: "served", 4: "answered", 5: "closed", 6: "started", 7: "set aside", 9: "started" },
};

function fieldFault(words) {
    return new Fault("record", words);
}

/** The payload of a record's bytes, which are an open gate, the length and the payload ("The journal"). */
function payloadOf(frame) {
    demand(frame.length > 5 && frame[0] === 1, "record", "it has no open gate");
    const length = new Reader(frame.subarray(1, 5), () => fieldFault("Short")).number(4);
    demand(length >= 1 && length <= LONGEST_PAYLOAD && length === frame.length - 5, "record", "its length is not that of its payload");
    return frame.subarray(5);
}

function readWithin(reader, low, high) {
    const place = reader.at, value = reader.number(1);
    if (value < low || value > high) {
        throw fieldFault(`Field ${place}`);
    }
    return value;
}

/** A set of items: item i is in it where bit i mod 8 of byte i div 8 is 1. */
function readItems(reader) {
    const bytes = range(0, 64).map(() => reader.number(1));
    return new Set(range(0, 512).filter(item => bytes[item >> 3] >> item % 8 & 1));
}

function readTreeOf(reader) {
    const place = reader.at, nodes = reader.number(2);
    let tree;
    try {
        tree = readTree(reader.bytes.subarray(reader.at));
    } catch (fault) {
        throw fieldFault(`Tree ${fault.message}`);
    }
    reader.at += tree.used;
    if (nodes !== tree.nodes.length) {
        throw fieldFault(`Field ${place}`);
    }
    return tree;
}

function readStart(reader, version, hasList) {
    const booking = BigInt(reader.number(4)) * 2n ** 32n + BigInt(reader.number(4));
    const bands = version === 1 ? 1 : readWithin(reader, 1, MOST_BANDS), sets = range(0, bands).map(() => readItems(reader));
    if (!hasList) {
        return { booking, sets, list: new Set(), witness: null };
    }
    const place = reader.at, list = readItems(reader);
    if (list.size === 0) {
        throw fieldFault(`Field ${place}`);
    }
    return { booking, sets, list, witness: readItems(reader) };
}

const FIELDS = {
    "started": readStart,
    "set aside": (reader, version) => ({
        step: version === 1 ? null : reader.number(2), band: version === 1 ? null : readWithin(reader, 0, MOST_BANDS - 1),
        cause: readWithin(reader, 0, 1), tree: readTreeOf(reader),
    }),
    "served": reader => ({
        step: reader.number(2), item: reader.number(2), form: readItems(reader), mark: readWithin(reader, 0, 1), tree: readTreeOf(reader),
    }),
    "answered": reader => ({ step: reader.number(2), response: reader.number(1) }),
    "closed": () => ({}),
};

/** The entry of a payload. */
function readRecord(payload, version) {
    const reader = new Reader(payload, () => fieldFault("Short")), first = reader.number(1), kind = KINDS[version][first];
    if (kind === undefined) {
        throw fieldFault("Kind 0");
    }
    const entry = { kind, version, session: reader.number(4), ...FIELDS[kind](reader, version, first === 9) };
    if (reader.at !== payload.length) {
        throw fieldFault(`Extra ${reader.at}`);
    }
    return entry;
}

// ------------------------------------------------------------------------------------------------ "The history in a journal": the draw

const CHACHA_CONSTANT = [0x61707865, 0x3320646e, 0x79622d32, 0x6b206574], PLACES = 512;
const CHACHA_QUARTERS = [[0, 4, 8, 12], [1, 5, 9, 13], [2, 6, 10, 14], [3, 7, 11, 15], [0, 5, 10, 15], [1, 6, 11, 12], [2, 7, 8, 13], [3, 4, 9, 14]];

/** The sixteen words of a block of ChaCha20 (RFC 8439), with a counter and a stream of 64 bits each, both below 2^32 here. */
function chachaBlock(key, stream, counter) {
    const view = new DataView(key.buffer, key.byteOffset, 32), words = range(0, 8).map(place => view.getUint32(4 * place, true));
    const begin = Uint32Array.from([...CHACHA_CONSTANT, ...words, counter, 0, stream, 0]), x = begin.slice();
    const mix = (to, from, other, by) => {
        x[to] += x[from];
        x[other] = turnedRight(x[other] ^ x[to], 32 - by);
    };
    for (let round = 0; round < 10; round++) {
        for (const [a, b, c, d] of CHACHA_QUARTERS) {
            mix(a, b, d, 16);
            mix(c, d, b, 12);
            mix(a, b, d, 8);
            mix(c, d, b, 7);
        }
    }
    return x.map((word, place) => word + begin[place]);
}

/** By item whether it is eligible for a session in a band at some counts; null where that takes the key, which is not here. */
function drawOf(rules, session, band, counts) {
    const blocks = new Map(), [numerator, denominator] = rules.plan.rate.map(BigInt);
    const wordOf = item => {
        const place = PLACES * band + item, counter = place >> 4;
        if (!blocks.has(counter)) {
            blocks.set(counter, chachaBlock(rules.plan.key, session, counter));
        }
        return BigInt(blocks.get(counter)[place % 16]);
    };
    return rules.bank.items.map((_, item) => {
        const most = denominator * BigInt(counts.shown[item]), share = numerator * BigInt(counts.eligible[item]);
        if (counts.shown[item] === 0 || most <= share) {
            return true;    // a word is below 2^32
        }
        return rules.plan.key === null ? null : wordOf(item) * most < 2n ** 32n * share;
    });
}

// ------------------------------------------------------------------------------------------------ "Where a record may follow"

/** One session on its way, judged record by record. `evidence` is what the page has of it. */
class Session {
    constructor(rules, evidence) {
        this.rules = rules;
        this.evidence = evidence;
        this.entries = 0;
        this.eligible = [];
        this.list = new Set();
        this.aside = new Map();     // the step, by band
        this.steps = [];            // of each item served: item, point, form, whether it is proved
        this.responses = [];
        this.form = null;
        this.isClosed = false;
        this.undrawn = 0;
    }

    get step() {
        return this.responses.length;
    }

    get place() {
        if (this.isClosed || this.step >= this.rules.plan.length) {
            return "over";
        }
        return this.steps.length > this.step ? "waiting" : "pending";
    }

    get items() {
        return this.steps.map(step => step.item);
    }

    /** By point the prior and the log-likelihoods of some answers. */
    sumsAfter(answers) {
        const { bank, plan } = this.rules;
        return plan.prior.map((prior, point) => prior + sum(this.responses.slice(0, answers).map(
            (response, step) => bank.items[this.steps[step].item].logarithms[response][point])));
    }

    estimateAfter(answers) {
        return greatestPlace(this.sumsAfter(answers));
    }

    get estimate() {
        return this.estimateAfter(this.step);
    }

    bandOf(point) {
        return this.rules.plan.points.filter(begin => begin <= point).length;
    }

    /** "Problem of a session that is pending". */
    problem() {
        const { bank, plan } = this.rules, given = new Set(this.items), point = this.estimate, band = this.bandOf(point);
        const last = this.steps.length ? bank.items[this.items[this.steps.length - 1]].stimulus : 0;
        const left = new Set(this.items.map(item => bank.items[item].stimulus).filter(stimulus => stimulus > 0 && stimulus !== last));
        const eligible = this.aside.has(band) ? null : this.eligible[band];
        if (eligible === undefined) {
            throw new Unjudged(`the eligible items of band ${band} are made from the key, which is not here`);
        }
        const barred = bank.items.map((_, item) => item).filter(item => !given.has(item)
            && (left.has(bank.items[item].stimulus) || this.list.has(item) || eligible !== null && !eligible.has(item)));
        return { bank, plan, point, given, barred: new Set(barred), start: this.form };
    }

    /** "The item served from a form". */
    itemFrom(problem, form) {
        const { items } = problem.bank, left = Array.from(form).filter(item => !problem.given.has(item)).sort((a, b) => a - b);
        const last = this.steps.length ? items[this.items[this.steps.length - 1]].stimulus : 0;
        const same = left.filter(item => last > 0 && items[item].stimulus === last), from = same.length ? same : left;
        return from[greatestPlace(from.map(item => items[item].information[problem.point]))];
    }

    /** Takes the next record. What is returned says what was judged. */
    take(frame, version) {
        const entry = readRecord(payloadOf(frame), version);
        demand(entry.session === this.evidence.session, "illegal", `it is of session ${entry.session}`);
        demand((entry.kind === "started") === (this.entries === 0), "illegal", "a session begins with its start, and has one");
        const steps = { "started": this.start, "set aside": this.setAside, "served": this.serve, "answered": this.answer, "closed": this.close };
        const said = steps[entry.kind].call(this, entry);
        this.entries += 1;
        return said;
    }

    start(entry) {
        const { bank, plan } = this.rules, bands = plan.points.length + 1, first = this.bandOf(this.estimateAfter(0));
        demand(entry.session < plan.sessions, "illegal", "the plan's limit of sessions is reached");
        demand(entry.booking === BigInt(this.evidence.booking), "illegal", `it is of booking ${entry.booking}`);
        demand(entry.version === 1 || entry.sets.length === bands, "illegal", "it has not a set for each band");
        for (const band of range(0, bands)) {
            const drawn = drawOf(this.rules, entry.session, band, this.evidence.counts[band]);
            const isHere = entry.version === 2 || band === first, recorded = isHere ? entry.sets[entry.version === 2 ? band : 0] : null;
            this.undrawn += drawn.filter(eligible => eligible === null).length;
            demand(recorded === null || range(0, 512).every(item => drawn[item] === null || recorded.has(item) === (drawn[item] || false)),
                "illegal", `the eligible items of band ${band} are not the draw`);
            const made = drawn.includes(null) ? undefined : new Set(range(0, drawn.length).filter(item => drawn[item]));
            this.eligible.push(recorded || made);
        }
        if (entry.list.size) {
            demand(Array.from(entry.list).every(item => item < bank.items.length), "illegal", "the list has an item that the bank has not");
            demand(isForm(wholeProblem(bank, plan, entry.list), entry.witness), "illegal", "the witness of the list is no form without its items");
        }
        this.list = entry.list;
        this.form = entry.witness;
        const drawn = this.undrawn ? "the eligible items that need no key" : "the eligible items";
        return `the session starts; ${drawn} are the draw at the counts that the page states`
            + (entry.list.size ? `; a form without the ${entry.list.size} items of its list shows that there is one` : "");
    }

    setAside(entry) {
        demand(this.place === "pending" && (entry.step === null || entry.step === this.step), "illegal", "the session does not wait for an item there");
        const band = this.bandOf(this.estimate);
        demand((entry.band === null || entry.band === band) && !this.aside.has(band), "illegal",
            "the band is not that of the estimate, or was set aside before");
        const said = this.tree(this.problem(), null, entry.cause === NO_FORM ? "NoForm" : "Partial", entry.tree);
        this.aside.set(band, this.step);
        return `eligibility is set aside at step ${this.step + 1} in band ${band}: ${said}`;
    }

    serve(entry) {
        demand(this.place === "pending" && entry.step === this.step, "illegal", "the session does not wait for an item there");
        const problem = this.problem();
        demand(isForm(problem, entry.form), "illegal", "the set of items is no form of the session's problem");
        demand(entry.item === this.itemFrom(problem, entry.form), "illegal", `item number ${entry.item} is not the one that is served from the form`);
        const said = this.tree(problem, entry.form, entry.mark ? "Optimal" : "Partial", entry.tree);
        this.steps.push({ item: entry.item, point: problem.point, form: entry.form, isProved: entry.mark === 1, isAside: this.isAsideNow() });
        this.form = entry.form;
        return `item ${this.evidence.names[entry.item]} is served at step ${this.step + 1} at the estimate of point ${problem.point}: ${said}`;
    }

    isAsideNow() {
        return Array.from(this.aside.values()).includes(this.step);
    }

    /** Judges a tree, "tested last". */
    tree(problem, form, wanted, tree) {
        const check = new Check(problem, form, tree), said = check.verdict();
        const isWhole = said === wanted || wanted === "Partial" && said.startsWith("Partial") && check.spends(this.rules.plan.budget);
        demand(isWhole, "bad tree", `the tree of ${tree.nodes.length} nodes is ${said}, and ${wanted} is claimed`);
        return `the tree of ${tree.nodes.length} node${tree.nodes.length === 1 ? "" : "s"} is ${said}`;
    }

    answer(entry) {
        demand(this.place === "waiting" && entry.step === this.step, "illegal", "the session does not wait for an answer there");
        demand(entry.response < this.rules.bank.items[this.items[this.step]].categories, "illegal", "the item has fewer categories");
        this.responses.push(entry.response);
        return `step ${entry.step + 1} is answered with response ${entry.response}; the estimate is now point ${this.estimate}`;
    }

    close() {
        demand(this.place !== "over", "illegal", "the session was over");
        this.isClosed = true;
        return "the session is closed before its end";
    }
}

// ------------------------------------------------------------------------------------------------ scores (docs/GUIDE.md)

/** Mean and standard deviation of the posterior after some answers, or its mode in the place of the mean. */
function scoreAfter(session, asked, answers) {
    const sums = session.sumsAfter(answers), top = Math.max(...sums), weights = sums.map(value => Math.exp((value - top) / asked.logUnit));
    const whole = sum(weights), mean = sum(weights.map((weight, point) => weight * asked.theta[point])) / whole;
    const variance = sum(weights.map((weight, point) => weight * (asked.theta[point] - mean) ** 2)) / whole;
    return { theta: asked.estimate === "mode" ? asked.theta[greatestPlace(sums)] : mean, error: Math.sqrt(variance) };
}

/** A number to so many decimals, a half away from 0; the tenth decimal decides no half. */
function rounded(value, decimals) {
    const digits = BigInt(Math.abs(value).toFixed(9).replace(".", "")), unit = 10n ** BigInt(9 - decimals);
    const text = String((2n * digits + unit) / (2n * unit)).padStart(decimals + 1, "0"), point = text.length - decimals;
    const shown = decimals ? `${text.slice(0, point)}.${text.slice(point)}` : text;
    return value < 0 && /[1-9]/.test(shown) ? `-${shown}` : shown;
}

function printedScore(asked, theta) {
    return rounded(Math.min(asked.high, Math.max(asked.low, asked.start + asked.unit * theta)), asked.decimals);
}

// ------------------------------------------------------------------------------------------------ the printed page

function demandCell(printed, wanted, name) {
    demand(printed === wanted, "page", `${name} is printed as “${printed}”, and is “${wanted}”`);
}

function demandNear(printed, value, slack, name) {
    const number = printed.replace("\u2212", "-");
    demand(/^-?[0-9.]+(e[-+][0-9]+)?$/.test(number) && Math.abs(Number(number) - value) <= slack, "page",
        `${name} is printed as “${printed}”, and is ${value}`);
}

/** Judges a row of the table of steps, a text for each cell. */
function judgeRow(session, evidence, cells, place) {
    const step = session.steps[place], { bank, plan } = session.rules, asked = evidence.score, response = session.responses[place];
    const [item, answer, before, information, after, error, kept, form] = cells.map(cell => cell.trim());
    demandCell(item, `${place + 1}. ${evidence.names[step.item]}`, "the item");
    demandCell(answer, response === undefined ? "–" : String(response), "the response");
    demandNear(before, asked.theta[step.point], 1e-5 * Math.max(1, Math.abs(asked.theta[step.point])), "the estimate before");
    demandNear(information, bank.items[step.item].information[step.point] / asked.informationUnit, 0.0005 + 1e-9, "the information");
    const common = place ? Array.from(step.form).filter(one => session.steps[place - 1].form.has(one)).length : null;
    demandCell(kept, common === null ? "–" : `${common} of ${plan.length}`, "what was kept");
    demandCell(form, (step.isProved ? "proved" : "not proved") + (step.isAside ? ", set aside" : ""), "the form");
    if (after === "–") {
        return;     // no answer counts so far
    }
    demand(response !== undefined, "page", "a score is printed after no answer");
    if (asked.isByLikelihood) {
        return;
    }
    const score = scoreAfter(session, asked, place + 1);
    demandNear(after, Number(printedScore(asked, score.theta)), 0, "the score after");
    demandNear(error, asked.unit * score.error, 0.501 * 10 ** -Math.min(4, asked.decimals + 1), "its error");
}

/** What is printed of the steps is judged only where each record holds. */
function requireRecords(session, evidence) {
    if (session.entries !== evidence.records.length) {
        throw new Unjudged("a record does not hold, or is not judged");
    }
}

function judgeTable(session, evidence, printed) {
    requireRecords(session, evidence);
    demand(printed.steps.length === session.steps.length, "page", `${printed.steps.length} steps are printed, the records have ${session.steps.length}`);
    printed.steps.forEach((cells, place) => {
        try {
            judgeRow(session, evidence, cells, place);
        } catch (fault) {
            throw new Fault("page", `step ${place + 1}: ${fault.message}`);
        }
    });
    const what = evidence.score.isByLikelihood ? "item, response, estimate before, information, items kept and form"
        : "item, response, estimate before, information, score after, its error, items kept and form";
    return `${what} of ${session.steps.length} steps are those of the records`;
}

function judgeScore(session, evidence, printed) {
    requireRecords(session, evidence);
    const asked = evidence.score, found = /^The score is (-?[0-9]+(?:\.[0-9]+)?), its standard error ([0-9]+(?:\.[0-9]+)?)/.exec(printed.score);
    if (asked.isByLikelihood) {
        throw new Unjudged(`the ${asked.name} is computed from the item parameters, which this page has not; tools/score.py computes it`);
    }
    if (found === null) {
        demand(printed.score.startsWith("The session has no score"), "page", "no score is printed");
        throw new Unjudged("the session has no score");
    }
    const score = scoreAfter(session, asked, session.step);
    demandNear(found[1], Number(printedScore(asked, score.theta)), 0, "the score");
    demandNear(found[2], asked.unit * score.error, 0.501 * 10 ** -Math.min(4, asked.decimals + 1), "its standard error");
    return `the ${asked.name} of ${session.step} answers is the score of ${found[1]} that is printed, with its standard error`;
}

// ------------------------------------------------------------------------------------------------ all lines

/** A line of what was judged. A thrown error of any kind does not hold. */
function lineOf(about, judge) {
    try {
        return { about, mark: HOLDS, text: judge(), kind: null };
    } catch (error) {
        const mark = error instanceof Unjudged ? NOT_JUDGED : DOES_NOT_HOLD;
        return { about, mark, text: error.message, kind: mark === NOT_JUDGED ? null : error.kind || "error" };
    }
}

function joined(parts) {
    const whole = new Uint8Array(sum(parts.map(part => part.length)));
    let at = 0;
    for (const part of parts) {
        whole.set(part, at);
        at += part.length;
    }
    return whole;
}

function judgeDigest(printed, name, bytes) {
    const found = sha256(bytes);
    demand(printed.files[name] === found, "page", `it is ${found}, and another one is printed`);
    return "it is the one that is printed";
}

function* digestLines(evidence, printed) {
    const plan = evidence.hasKey ? "plan" : "plan without its key";
    yield lineOf("SHA-256 of the bank", () => judgeDigest(printed, "bank", bytesOfText(evidence.bank)));
    yield lineOf(`SHA-256 of the ${plan}`, () => judgeDigest(printed, plan, bytesOfText(evidence.plan)));
    yield lineOf("SHA-256 of the records", () => judgeDigest(printed, "records of this session",
        joined(evidence.records.map(record => bytesOfHexadecimal(record.bytes)))));
}

function* recordLines(session, evidence) {
    let broken = null;
    for (const record of evidence.records) {
        const about = `Record ${record.number}`;
        if (broken !== null) {
            yield { about, mark: NOT_JUDGED, text: `${broken} before it is not judged, or does not hold`, kind: null };
            continue;
        }
        const line = lineOf(about, () => session.take(bytesOfHexadecimal(record.bytes), record.version));
        broken = line.mark === HOLDS ? null : about.toLowerCase();
        yield line;
    }
}

/** What no page can show of itself. */
function* openLines(evidence, session) {
    const open = [
        ["This checker", "whether it judges right. Its SHA-256 is printed; compare it with that of appeal.js in the release"],
        ["The journal", "whether these are all records of this session in the sealed journal. tools/audit.py judges the journal"],
        ["The counts", "the exposure counts at the start of the session, on which the eligible items rest. tools/audit.py counts them from the journal"],
        ["The responses", "whether the responses are those that the examinee gave"],
        ["The bank and the plan", "whether the item parameters are right, and whether these files are those of the examination. Compare their SHA-256"],
    ];
    if (session !== null && session.undrawn) {
        open.push(["The draws", `${session.undrawn} draws of eligible items: this page was made without the key`]);
    }
    yield* open.map(([about, text]) => ({ about, mark: NOT_JUDGED, text, kind: null }));
}

function readRules(evidence) {
    const bank = readBank(evidence.bank), plan = readPlan(evidence.plan, bank, evidence.hasKey);
    demand(evidence.counts.length === plan.points.length + 1 && evidence.counts.every(
        ({ shown, eligible }) => [shown, eligible].every(counts => counts.length === bank.items.length && counts.every(Number.isSafeInteger))),
    "page", "the counts are not those of each item in each band");
    return { bank, plan };
}

/** Each line, one after another: the page shows a line before the next one is judged. `text` is that of the evidence, and `readPrinted` gives the
    printed texts. */
function* judgments(text, readPrinted) {
    try {
        yield* allLines(JSON.parse(text), readPrinted());
    } catch (error) {
        yield { about: "This page", mark: DOES_NOT_HOLD, text: error.message, kind: "error" };
    }
}

function* allLines(evidence, printed) {
    let session = null;
    yield* digestLines(evidence, printed);
    const rules = lineOf("Bank and plan", () => {
        session = new Session(readRules(evidence), evidence);
        return "each line is read by the rules of their texts";
    });
    yield rules;
    if (session !== null) {
        yield* recordLines(session, evidence);
        yield lineOf("The table of steps", () => judgeTable(session, evidence, printed));
        yield lineOf("The score", () => judgeScore(session, evidence, printed));
    } else {
        yield { about: "All records", mark: NOT_JUDGED, text: "the bank or the plan is not read", kind: null };
    }
    yield* openLines(evidence, session);
}

// ------------------------------------------------------------------------------------------------ the page itself

/** The printed texts that are judged: the sentence of the score, the rows of the table of steps, and the digests. */
function printedTexts(page) {
    const textOf = element => element.textContent, rows = Array.from(page.querySelectorAll("section.steps tbody tr"));
    const files = Array.from(page.querySelectorAll("dl.files > div"), row => [
        textOf(row.querySelector("dt")).replace("SHA-256, ", ""), textOf(row.querySelector("dd"))]);
    return {
        score: textOf(page.querySelector("ul.verdicts li span")), files: Object.fromEntries(files),
        steps: rows.map(row => Array.from(row.querySelectorAll("td"), textOf)),
    };
}

function showLine(page, line) {
    const row = page.createElement("li"), mark = page.createElement("b"), text = page.createElement("span");
    row.className = { [HOLDS]: "met", [DOES_NOT_HOLD]: "not-met", [NOT_JUDGED]: "measured" }[line.mark];
    mark.textContent = line.mark;
    text.textContent = `${line.about}: ${line.text}`;
    row.append(mark, text);
    page.getElementById("judged").append(row);
}

function showEnd(page, lines) {
    const count = mark => lines.filter(line => line.mark === mark).length, broken = count(DOES_NOT_HOLD);
    page.getElementById("judging").textContent = `${broken ? "This page does not hold." : "All that was judged holds."} ${count(HOLDS)} hold, `
        + `${broken} do not hold, ${count(NOT_JUDGED)} are not judged.`;
}

/** Judges in slices, a line each, so that the browser stays awake. */
function judgePage(page) {
    const lines = [], left = judgments(page.getElementById("evidence").textContent, () => printedTexts(page));
    const slice = () => {
        const next = left.next();
        if (next.done) {
            showEnd(page, lines);
            return;
        }
        lines.push(next.value);
        showLine(page, next.value);
        page.getElementById("judging").textContent = `${lines.length} lines so far ..`;
        setTimeout(slice, 0);
    };
    page.getElementById("judge").disabled = true;
    slice();
}

if (typeof document !== "undefined") {
    document.getElementById("judge").addEventListener("click", () => judgePage(document));
}
