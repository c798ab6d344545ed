"use strict";
// Shows a run event by event. Nothing is simulated here: each step names the facts that its event changed, with their
// new values, and the page puts them in their places.

const run = JSON.parse(document.getElementById("run").textContent);
const SVG = "http://www.w3.org/2000/svg";
let last = run.steps.length;
const byId = (name) => document.getElementById(name);
let at = 0;
let playing = null;

// --- A game: its state, forward and back

class Game {
    constructor(start, steps) {
        this.state = start;
        this.steps = [];
        this.at = 0;
        this.changed = new Map();
        // The parts of the game that the page does not show as they are: at first all of them.
        this.stale = allParts();
        // What each fact was before a step, so that the step can be taken back.
        this.before = [];
        this.goOn(steps);
        this.goTo(0);
    }

    // Takes these steps from the present state, in place of all that followed it.
    goOn(steps) {
        this.steps.length = this.before.length = this.at;
        for (const step of steps) {
            this.before.push(step.changes.map(([kind, index, name]) => this.state[kind][index][name]));
            this.steps.push(step);
            this.goTo(this.steps.length);
        }
    }

    goTo(wanted) {
        while (this.at < wanted) {
            for (const [kind, index, name, value] of this.steps[this.at].changes) this.put(kind, index, name, value);
            this.at++;
        }
        while (this.at > wanted) {
            this.at--;
            const changes = this.steps[this.at].changes;
            for (let i = changes.length - 1; i >= 0; i--) {
                const [kind, index, name] = changes[i];
                this.put(kind, index, name, this.before[this.at][i]);
            }
        }
    }

    put(kind, index, name, value) {
        const facts = this.state[kind][index];
        this.stale.add(`${kind} ${index}`);
        // (an edge is drawn by whether it engaged its head)
        if (name === "parent") for (const edge of [facts.parent, value]) this.stale.add(`edges ${edge}`);
        facts[name] = value;
    }

    // Marks what changed since a state before, and returns the parts of the game that have to be shown again.
    mark(from) {
        const marked = [...this.changed.keys()];
        this.changed = new Map();
        for (let step = from; step < this.at; step++) {
            this.steps[step].changes.forEach(([kind, index, name], i) => {
                const key = `${kind} ${index}`;
                if (!this.changed.has(key)) this.changed.set(key, new Map());
                if (!this.changed.get(key).has(name)) this.changed.get(key).set(name, this.before[step][i]);
            });
        }
        const parts = new Set([...this.stale, ...marked, ...this.changed.keys()]);
        this.stale = new Set();
        return [...parts].map((part) => part.split(" ")).map(([kind, index]) => [kind, Number(index)]);
    }

    hasChanged(kind, index) {
        return this.changed.has(`${kind} ${index}`);
    }
}

// (the page of a wrong detector has the right one beside it, on the same events)
const game = new Game(structuredClone(run.start), run.steps);
run.steps = game.steps;
const beside = run.beside && new Game(structuredClone(run.beside.start), run.beside.steps);

// --- Making elements

function element(name, attributes = {}, ...children) {
    return filled(document.createElement(name), attributes, children);
}

function shape(name, attributes = {}, ...children) {
    return filled(document.createElementNS(SVG, name), attributes, children);
}

function filled(made, attributes, children) {
    for (const [key, value] of Object.entries(attributes)) made.setAttribute(key, value);
    made.append(...children);
    return made;
}

function word(text, x, y, size, name = "") {
    return shape("text", { x, y, "font-size": size, class: name }, String(text));
}

// --- Geometry: pixels from the places, and the way of each edge

const shownEdges = [...Array(run.graphEdges).keys()].concat(run.rootEdges);
const isRoomy = run.names.length <= 12 && shownEdges.length <= 20;
// (among more vertices there is no way round)
const isSmall = run.names.length <= 100 && shownEdges.length <= 1000;
const radius = isRoomy ? 36 : 29;
const size = isRoomy
    ? { chips: 26, name: 16, box: 18, note: 15, root: 18 }
    : { chips: 24, name: 14, box: 16, note: 13, root: 24 };
// The smallest label, and the least height of a letter that can be read, in pixels of the screen.
const SMALLEST = isRoomy ? 0.8 * size.note : size.note;
const LEGIBLE = 9;
// How far apart neighbours are drawn at most and at least. On small screens they are nearer, so that words are larger.
const APART = isRoomy ? [230, 195, 165, 140, 120] : [112];
let scale = 1;
// Whether the drawing lies on its side, to the right what else is down.
let isTurned = false;
const point = ([x, y]) => (isTurned ? { x: y * scale, y: x * scale } : { x: x * scale, y: y * scale });
const isFramed = (vertex) => run.places.frame !== null && vertex === run.sink;
const placeOf = (vertex) => point(vertex === null ? run.places.root : run.places.vertices[vertex]);

// The least distance of two places: neighbours in the order from left to right suffice if many stand in rows.
function nearest(places) {
    let least = Infinity;
    const sorted = [...places].sort((a, b) => a[0] - b[0] || a[1] - b[1]);
    for (let i = 0; i < sorted.length; i++) {
        for (let j = i + 1; j < sorted.length && sorted[j][0] - sorted[i][0] < least; j++) {
            const apart = Math.hypot(sorted[j][0] - sorted[i][0], sorted[j][1] - sorted[i][1]);
            if (apart > 0) least = Math.min(least, apart);
        }
    }
    return Number.isFinite(least) ? least : 1;
}

// Where an edge from a point meets the frame that stands for the sink: its nearest side, or corner.
function onFrame(from) {
    const [upper, lower] = run.places.frame.map(point);
    const x = from.x - upper.x <= lower.x - from.x ? upper.x : lower.x;
    const y = from.y - upper.y <= lower.y - from.y ? upper.y : lower.y;
    const across = Math.abs(from.x - x);
    const down = Math.abs(from.y - y);
    if (Math.abs(across - down) < 1) return { x, y };
    return across < down ? { x, y: from.y } : { x: from.x, y };
}

// How much each edge is bent to its right, in steps, so that edges between the same two do not lie on each other.
function bends() {
    const among = new Map();
    for (const edge of shownEdges) {
        const [tail, head] = run.edges[edge];
        const key = [tail ?? -1, head].sort((a, b) => a - b).join();
        among.set(key, [...(among.get(key) ?? []), edge]);
    }
    const found = new Map();
    for (const edges of among.values()) {
        const tails = [...new Set(edges.map((edge) => run.edges[edge][0]))];
        for (const tail of tails) {
            const same = edges.filter((edge) => run.edges[edge][0] === tail);
            // (if others come back each keeps to its right, else they lie on both sides)
            const least = tails.length > 1 ? 1 : 1 - same.length;
            same.forEach((edge, i) => found.set(edge, least + 2 * i));
        }
    }
    return found;
}

// The way of an edge: its path, its arrow, and its points, at 0 near the tail and at 1 near the head.
function wayOf(edge, bend) {
    const [tail, head] = run.edges[edge];
    return wayBetween(tail, head, bend);
}

function wayBetween(tail, head, bend) {
    const from = placeOf(tail);
    const to = isFramed(head) ? onFrame(from) : placeOf(head);
    const length = Math.hypot(to.x - from.x, to.y - from.y) || 1;
    const along = { x: (to.x - from.x) / length, y: (to.y - from.y) / length };
    const off = 2 * bend * Math.min(0.15 * length, 1.2 * radius);
    const control = { x: (from.x + to.x) / 2 - along.y * off, y: (from.y + to.y) / 2 + along.x * off };
    const start = towards(from, control, radius);
    const end = towards(to, control, isFramed(head) ? 2 : radius + (head === null ? size.root / 2 : 3));
    const on = (t) => ({
        x: (1 - t) ** 2 * start.x + 2 * t * (1 - t) * control.x + t ** 2 * end.x,
        y: (1 - t) ** 2 * start.y + 2 * t * (1 - t) * control.y + t ** 2 * end.y,
    });
    const path = `M${start.x} ${start.y} Q${control.x} ${control.y} ${end.x} ${end.y}`;
    return { path, arrow: arrowAt(end, control), on, side: { x: along.y, y: -along.x } };
}

// The way of an edge that is bent as little as it has to be so that it leads round the vertices between its ends.
function wayRound(edge, bend) {
    const ends = run.edges[edge].slice(0, 2);
    const isOfRoot = ends[0] === null;
    if (!isSmall && !isOfRoot) return wayOf(edge, bend);
    const all = [...run.names.keys()];
    const others = all.filter((it) => !ends.includes(it) && !isFramed(it)).map(placeOf);
    if (!isOfRoot) others.push(placeOf(null));
    const crossed = (way) => {
        const points = [...Array(19).keys()].map((i) => way.on((i + 1) / 20));
        const isNear = (it) => others.some((other) => Math.hypot(it.x - other.x, it.y - other.y) < 1.35 * radius);
        return points.filter(isNear);
    };
    if (!crossed(wayOf(edge, bend)).length) return wayOf(edge, bend);
    const ways = [0, 1, -1, 2, -2, 3, -3, 4, -4, 5, -5, 6, -6].map((more) => wayOf(edge, bend + more));
    return ways.reduce((best, way) => (crossed(way).length < crossed(best).length ? way : best));
}

// The way of what one part says to another, bent so that it lies on as little as can be of what is drawn.
function wayOfTold(tail, head, drawn) {
    const found = [0, 1, -1, 2, -2, 3, -3, 4, -4, 5, -5].map((bend) => {
        const way = wayBetween(tail, head, bend);
        // (its ends lie on the two parts)
        const crossed = alongEdge(way).slice(1, -1).flatMap((it) => drawn.map((other) => overlap(it, other)));
        return { way, cost: crossed.reduce((sum, it) => sum + it, 20 * Math.abs(bend)) };
    });
    return found.reduce((best, it) => (it.cost < best.cost ? it : best)).way;
}

function tokenAt({ x, y }) {
    return shape("path", { d: `M${x - 9} ${y} l9 -9 l9 9 l-9 9 z`, class: "token" });
}

// The point of an arrow that comes from somewhere.
function arrowAt(end, from, long = 12) {
    const back = towards(end, from, long);
    const side = { x: (end.y - back.y) * 0.45, y: (back.x - end.x) * 0.45 };
    return `M${end.x} ${end.y} L${back.x + side.x} ${back.y + side.y} L${back.x - side.x} ${back.y - side.y} z`;
}

function towards(from, to, distance) {
    const length = Math.hypot(to.x - from.x, to.y - from.y) || 1;
    return { x: from.x + ((to.x - from.x) / length) * distance, y: from.y + ((to.y - from.y) / length) * distance };
}

// --- Room for labels: boxes that are taken, each with its middle, width and height

const overlap = (a, b) => {
    const across = (a.width + b.width) / 2 - Math.abs(a.x - b.x);
    const down = (a.height + b.height) / 2 - Math.abs(a.y - b.y);
    return across > 0 && down > 0 ? across * down : 0;
};

// The first of some places for a box that has no other box on it, or else that with the least, and how much that is.
function bestRoom(box, places, taken) {
    let best = null;
    for (const place of places) {
        const found = { ...box, ...place };
        const over = taken.reduce((sum, other) => sum + overlap(found, other), 0);
        if (best === null || over < best.over) best = { found, over };
        if (over === 0) break;
    }
    return best;
}

// Takes this place.
function roomFor(box, places, taken) {
    const { found } = bestRoom(box, places, taken);
    taken.push(found);
    return found;
}

// The places for a box beside an edge, and at last farther off or on it, near some of its points.
function besideEdge(way, points, box, farther = [30]) {
    const off = (Math.abs(way.side.x) * box.width + Math.abs(way.side.y) * box.height) / 2 + 6;
    const away = [0, 14, ...farther].flatMap((more) => [off + more, -off - more]).concat(0);
    return away.flatMap((by) => points.map(way.on).map(({ x, y }) => ({ x: x + way.side.x * by, y: y + way.side.y * by })));
}

// The room that a line takes, as small boxes.
function alongEdge(way) {
    return [...Array(25).keys()].map((i) => ({ ...way.on(i / 24), width: 7, height: 7 }));
}

// --- The drawing of a game: made once, and again if a vertex is dragged, then changed

const vertexTitle = (vertex) =>
    vertex === run.sink && run.names[vertex] === "sink" ? "sink" : `${vertex === run.sink ? "sink" : "vertex"} ${run.names[vertex]}`;
const textWidth = (text, size) => size * (0.4 + 0.58 * String(text).length);

class Drawing {
    constructor(game, drawing) {
        this.game = game;
        this.drawing = drawing;
    }

    draw() {
        this.edges = new Map();
        this.vertices = [];
        this.fixed = [];
        this.drawing.replaceChildren();
        if (run.places.frame) this.vertices[run.sink] = this.drawFrame();
        const bent = bends();
        for (const edge of shownEdges) this.drawEdge(edge, wayRound(edge, bent.get(edge)));
        this.told = shape("g");
        this.drawing.append(this.told);
        this.drawRoot();
        run.names.forEach((_, vertex) => {
            if (!isFramed(vertex)) this.vertices[vertex] = this.drawVertex(vertex);
        });
        if (isRoomy) this.numberEdges();
        this.drawTold();
        this.tokens = shape("g");
        this.drawing.append(this.tokens, ...[...this.edges.values()].map(({ marks }) => marks));
        const { x, y, width, height } = this.drawing.getBBox();
        const edge = 1.4 * radius;
        this.size = { width: width + 2 * edge, height: height + 2 * edge };
        this.frame = { x: x + width / 2, y: y + height / 2, ...this.size };
        this.drawing.setAttribute("viewBox", [x - edge, y - edge, this.size.width, this.size.height].join(" "));
        keepLegible(this.drawing, this.size, SMALLEST);
    }

    // The ways of all that parts tell each other in events of the detector's own.
    drawTold() {
        const drawn = isSmall ? [...this.fixed, ...this.drawnLines()] : [];
        this.ways = new Map();
        for (const [tail, head] of this.game.steps.flatMap(({ tells = [] }) => tells)) {
            if (this.ways.has(`${tail} ${head}`)) continue;
            const way = wayOfTold(tail, head, drawn);
            this.ways.set(`${tail} ${head}`, way);
            drawn.push(...alongEdge(way));
        }
        this.showWays([...this.ways.values()]);
    }

    showWays(ways) {
        this.told.replaceChildren(...ways.map(({ path }) => shape("path", { d: path, class: "line" })));
    }

    // How high the smallest letters are on the screen.
    letters() {
        const { width, height } = this.drawing.getBoundingClientRect();
        return SMALLEST * Math.min(width / this.size.width, height / this.size.height);
    }

    drawEdge(edge, way) {
        const lines = ["halo", "line"].map((name) => shape("path", { d: way.path, class: name }));
        const group = shape("g", {}, ...lines, shape("path", { d: way.arrow, class: "arrow" }));
        this.drawing.append(group);
        this.edges.set(edge, { group, way, marks: shape("g") });
    }

    drawRoot() {
        const { x, y } = placeOf(null);
        const width = 2 * radius + size.root;
        const box = { x: x - width / 2, y: y - radius, width, height: 2 * radius, rx: 8 };
        const state = word("", x, y + radius * 0.4, size.root, "inside");
        const deficit = word("", x, y - radius - size.root * 0.8, size.root, "deficit");
        const bodies = ["halo", "body"].map((name) => shape("rect", { ...box, class: name }));
        const title = word("root", x, y - radius * 0.4, size.root, "inside");
        const id = this.game === game ? "root-node" : "root-beside";
        const group = shape("g", { id, "data-vertex": "root" }, ...bodies, title, state, deficit);
        this.drawing.append(group);
        this.fixed.push({ x, y: y - size.root / 2, width: width + 8, height: 2 * radius + size.root * 1.6 });
        this.root = { group, state, deficit };
    }

    drawVertex(vertex) {
        const { x, y } = placeOf(vertex);
        const isSink = vertex === run.sink;
        const square = { x: x - radius, y: y - radius, width: 2 * radius, height: 2 * radius, rx: 3 };
        const circle = { cx: x, cy: y, r: radius };
        const bodies = ["halo", "body"].map((name) =>
            isSink ? shape("rect", { ...square, class: name }) : shape("circle", { ...circle, class: name }),
        );
        const chips = word("", x, y - radius * 0.2, size.chips, "chips inside");
        const deficit = word("", x, y + radius * 0.5, size.note, "inside");
        const halt = word("", x, y + radius + size.note * 0.8, size.note, "halt");
        this.fixed.push({ x, y, width: 2 * radius + 6, height: 2 * radius + 6 });
        const name = this.nameOf(vertex, x, y);
        const group = shape("g", { "data-vertex": vertex }, ...bodies, chips, deficit, name, halt);
        this.drawing.append(group);
        return { group, chips, deficit, halt };
    }

    // The name of a vertex, on a side of it where no edge leads past.
    nameOf(vertex, x, y) {
        const title = isRoomy ? vertexTitle(vertex) : String(run.names[vertex]);
        if (!isRoomy) return word(title, x - radius * 0.75, y - radius, size.name, "name");
        const box = { width: textWidth(title, size.name), height: size.name * 1.3 };
        const off = radius + size.name * 0.9;
        const beside = radius + box.width / 2 + 6;
        const sides = [
            [0, off], [-beside, 0], [beside, 0], [0, -off], [-beside, off], [beside, off], [-beside, -off], [beside, -off],
        ];
        const taken = [...this.fixed, ...[...this.edges.values()].flatMap(({ way }) => alongEdge(way))];
        const found = roomFor(box, sides.map(([right, down]) => ({ x: x + right, y: y + down })), taken);
        this.fixed.push(found);
        return word(title, found.x, found.y, size.name, "name beside");
    }

    // A grid's sink: the frame round the squares, with its chips beside it.
    drawFrame() {
        const [upper, lower] = run.places.frame.map(point);
        const box = { x: upper.x, y: upper.y, width: lower.x - upper.x, height: lower.y - upper.y, rx: 10 };
        const y = lower.y + size.chips;
        const middle = (upper.x + lower.x) / 2;
        const chips = word("", middle, y, size.chips, "chips inside");
        const group = shape("g", {}, shape("rect", { ...box, class: "halo" }), shape("rect", { ...box, class: "body" }));
        group.append(word(vertexTitle(run.sink), middle - 2 * radius, y, size.root, "name"), chips);
        this.drawing.append(group);
        // (a sink sends nothing and never halts, so there is nothing to wait for)
        return { group, chips, deficit: null, halt: null };
    }

    numberEdges() {
        const ways = [...this.edges.values()].map(({ way }) => way);
        const lines = ways.flatMap(alongEdge);
        const middles = ways.map((way) => ({ ...way.on(0.5), width: 2.2 * size.box, height: 1.6 * size.box }));
        for (const [edge, { group, way }] of this.edges) {
            const text = `edge ${edge}`;
            const box = { width: textWidth(text, size.note * 0.85), height: size.note };
            const places = besideEdge(way, [0.36, 0.42, 0.58, 0.28, 0.64], box);
            const { x, y } = roomFor(box, places, [...middles, ...lines, ...this.fixed]);
            this.fixed.push({ ...box, x, y });
            group.append(word(text, x, y, size.note * 0.85, "number"));
        }
    }

    // --- Showing one state

    show(from) {
        const parts = this.game.mark(from);
        for (const [kind, index] of parts) {
            if (kind === "root") this.showRoot();
            else if (kind === "vertices") this.showVertex(index);
            else if (this.edges.has(index)) this.showEdge(index);
        }
        if (isRoomy) this.showMarks();
        else this.showTold([]);
        return parts;
    }

    showVertex(vertex) {
        const { group, chips, deficit, halt } = this.vertices[vertex];
        const facts = this.game.state.vertices[vertex];
        const names = ["vertex"];
        if (isFramed(vertex)) names.push("frame");
        if (facts.parent !== null) names.push("engaged");
        if (facts.halted !== null) names.push("halted");
        if (this.game.hasChanged("vertices", vertex)) names.push("changed");
        group.setAttribute("class", names.join(" "));
        chips.textContent = facts.chips.toLocaleString("en");
        chips.setAttribute("font-size", Math.min(size.chips, (2.9 * radius) / chips.textContent.length));
        const waits = isRoomy ? `waits ${facts.deficit}` : `?${facts.deficit}`;
        if (deficit) deficit.textContent = facts.deficit ? waits : "";
        if (halt) halt.textContent = facts.halted === null ? "" : "halted";
    }

    showRoot() {
        const facts = this.game.state.root[0];
        const names = ["vertex", facts.closed ? "closed" : "open"];
        if (this.game.hasChanged("root", 0)) names.push("changed");
        this.root.group.setAttribute("class", names.join(" "));
        this.root.state.textContent = facts.closed ? "closed" : "open";
        this.root.deficit.textContent = facts.deficit ? `waits for ${facts.deficit}` : "";
    }

    showEdge(edge) {
        const { group, way, marks } = this.edges.get(edge);
        const facts = this.game.state.edges[edge];
        const names = ["edge"];
        if (edge >= run.graphEdges) names.push("of-root");
        if (this.game.state.vertices[run.edges[edge][1]].parent === edge) names.push("parent");
        if (facts.sealed) names.push("sealed");
        if (this.game.hasChanged("edges", edge)) names.push("changed");
        group.setAttribute("class", names.join(" "));
        if (isRoomy) return;
        const taken = isSmall ? [...this.fixed] : [];
        marks.replaceChildren(...this.boxesOf(facts, way, taken), ...this.tagsOf(facts, way, taken));
    }

    // The marks of all edges: first the boxes on them, then what finds room beside.
    showMarks() {
        const taken = [...this.fixed];
        const facts = this.game.state.edges;
        const made = new Map([...this.edges].map(([edge, { way }]) => [edge, this.boxesOf(facts[edge], way, taken)]));
        taken.push(...this.drawnLines());
        this.showTold(taken);
        for (const [edge, { way, marks }] of this.edges) {
            marks.replaceChildren(...made.get(edge), ...this.tagsOf(facts[edge], way, taken));
        }
    }

    drawnLines() {
        return [...this.edges.values()].flatMap(({ way }) => alongEdge(way));
    }

    // The last event of the detector's own up to now, with a mark where it came to: there is the token, or the wave.
    showTold(taken) {
        const steps = this.game.steps.slice(0, this.game.at);
        const { tells = [], kind } = steps.findLast((step) => step.tells) ?? {};
        const ways = tells.map((pair) => this.ways.get(pair.map(String).join(" ")));
        for (const group of [this.told, this.tokens]) {
            group.setAttribute("class", steps.at(-1)?.tells === tells ? "told changed" : "told");
        }
        taken.push(...ways.flatMap(alongEdge));
        this.showWays(ways);
        this.tokens.replaceChildren(...ways.map((way) => tokenAt(way.on(1))));
        if (isRoomy && ways.length) this.tokens.append(this.kindOf(kind, ways[0], taken));
    }

    // What an event of the detector's own is called, beside its way.
    kindOf(kind, way, taken) {
        const box = { width: textWidth(kind, size.note * 0.85), height: size.note };
        const isInside = (place) => overlap({ ...box, ...place }, this.frame) === box.width * box.height;
        const places = besideEdge(way, [0.5, 0.4, 0.6, 0.3, 0.7], box).filter(isInside);
        const { x, y } = roomFor(box, [...places, way.on(0.5)], taken);
        return word(kind, x, y, size.note * 0.85, "number");
    }

    // The boxes in the middle of an edge, one beside the other.
    boxesOf(facts, way, taken) {
        const boxes = facts.cells.map(([place, chips]) => ["message", chips.toLocaleString("en"), place]);
        if (facts.claimed) boxes.push(["claimed", facts.claimed.toLocaleString("en"), facts.sent - 1]);
        if (facts.pending) boxes.push(["pending", `+${facts.pending.toLocaleString("en")}`, null]);
        if (!boxes.length) return [];
        const widths = boxes.map(([, text]) => size.box * (0.75 + 0.65 * text.length));
        const below = boxes.map(([, , place]) => isRoomy && boxes.length > 1 && place !== null ? `place ${place}` : null);
        const rooms = widths.map((width, index) => Math.max(width, textWidth(below[index] ?? "", size.note * 0.8)));
        const all = { width: rooms.reduce((sum, room) => sum + room + 3, -3), height: 1.4 * size.box };
        const middles = isRoomy ? [0.5, 0.56, 0.44, 0.62, 0.38] : [0.47, 0.4, 0.55, 0.33, 0.62];
        const room = roomFor(all, middles.map(way.on), taken);
        let x = room.x - all.width / 2;
        return boxes.map(([name, text], index) => {
            const middle = x + rooms[index] / 2;
            x += rooms[index] + 3;
            return boxOf(name, text, below[index], middle, room.y, widths[index]);
        });
    }

    // What stands beside an edge: what is owed at its head, the acknowledgements given and not seen, and its seal.
    tagsOf(facts, way, taken) {
        const unseen = facts.acknowledged - facts.settled;
        const tags = [];
        if (facts.owed) tags.push([[`owes ${facts.owed}`, `!${facts.owed}`], [0.8, 0.74, 0.86, 0.68, 0.62], "owes"]);
        if (unseen) tags.push([[`◁ ack ${unseen}`, `◁${unseen}`], [0.22, 0.28, 0.16, 0.34, 0.4], "answer"]);
        if (facts.sealed) tags.push([[facts.refused ? "sealed, refused" : "sealed"], [0.6, 0.5, 0.4], "seal"]);
        return tags.map(([texts, points, name]) => {
            const [text, room] = isRoomy ? roomOfTag(texts, points, way, taken) : [texts.at(-1), null];
            const box = { width: textWidth(text, size.note), height: size.note * 1.3 };
            return tag(text, room ?? roomFor(box, points.map(way.on), taken), name);
        });
    }
}

// The first of some texts that finds room near its edge, and where; else that which lies least on others.
function roomOfTag(texts, points, way, taken) {
    const found = texts.map((text) => {
        const box = { width: textWidth(text, size.note), height: size.note * 1.3 };
        return { text, ...bestRoom(box, besideEdge(way, points, box, []), taken) };
    });
    const { text, found: room } = found.reduce((best, it) => (it.over < best.over ? it : best));
    taken.push(room);
    return [text, room];
}

function boxOf(name, text, below, x, y, width) {
    const height = size.box * 1.35;
    const box = shape("rect", { x: x - width / 2, y: y - height / 2, width, height, rx: 3 });
    const group = shape("g", { class: name }, box, word(text, x, y, size.box));
    if (below === null) return group;
    return shape("g", {}, group, word(below, x, y + size.box * 1.15, size.note * 0.8, "number"));
}

function tag(text, { x, y, width, height }, name) {
    const box = shape("rect", { x: x - width / 2, y: y - height / 2, width, height, rx: 3 });
    return shape("g", { class: `tag ${name}` }, box, word(text, x, y, size.note));
}

const drawings = [new Drawing(game, byId("drawing"))];
if (beside) drawings.push(new Drawing(beside, byId("drawing-beside")));

const isNarrow = () => matchMedia("(max-width: 50rem)").matches;

// On a phone a drawing is never so small that it cannot be read: what has no room is scrolled to.
function keepLegible(drawing, { width, height }, smallest) {
    const least = isNarrow() ? LEGIBLE / smallest : 0;
    drawing.style.minWidth = `${Math.ceil(width * least)}px`;
    drawing.style.minHeight = least ? `${Math.ceil(height * least)}px` : "";
}

// Draws for this screen: as usual if that can be read with ease, else on the side or nearer, where letters are largest.
function layOut() {
    const [first] = drawings;
    if (byId("picture").dataset.view === "diagram") return;
    const unit = nearest([...run.places.vertices, run.places.root]);
    const tries = APART.flatMap((apart) => (run.mayTurn ? [false, true] : [false]).map((turned) => [turned, apart / unit]));
    let best = { letters: 0, turned: false, apart: APART[0] / unit };
    for (const [turned, apart] of isSmall ? tries : []) {
        [isTurned, scale] = [turned, apart];
        first.draw();
        const letters = first.letters();
        if (letters > best.letters + 0.1) best = { letters, turned, apart };
        if (letters >= LEGIBLE + (isNarrow() || apart * unit < APART[0] ? 0.1 : 2)) break;
    }
    [isTurned, scale] = [best.turned, best.apart];
    drawAll();
}

// --- Dragging: a vertex goes where it is put, in both drawings, and the page says what to write into --positions

let dragged = null;

function onDrag(drawing) {
    drawing.addEventListener("pointerdown", (press) => {
        const group = press.target.closest("[data-vertex]");
        if (!group) return;
        const name = group.dataset.vertex;
        dragged = name === "root" ? null : Number(name);
        drawing.setPointerCapture(press.pointerId);
        drawing.onpointermove = (move) => {
            const { x, y } = new DOMPoint(move.clientX, move.clientY).matrixTransform(drawing.getScreenCTM().inverse());
            const place = isTurned ? [y / scale, x / scale] : [x / scale, y / scale];
            if (dragged === null) run.places.root = place;
            else run.places.vertices[dragged] = place;
            drawAll();
            showPositions();
        };
    });
    for (const end of ["pointerup", "pointercancel"]) {
        drawing.addEventListener(end, () => {
            drawing.onpointermove = null;
        });
    }
}

function allParts() {
    return new Set(Object.entries(run.start).flatMap(([kind, parts]) => parts.map((_, i) => `${kind} ${i}`)));
}

function drawAll() {
    for (const it of drawings) {
        it.draw();
        it.game.stale = allParts();
        it.show(stopBefore(at));
    }
}

function showPositions() {
    const rows = run.names.map((name, vertex) => {
        const place = run.places.vertices[vertex].map((it) => it.toFixed(2));
        return [name, ...place].join(",");
    });
    byId("positions").textContent = ["vertex,right,down", ...rows].join("\n");
    byId("dragged").hidden = false;
}

// --- The stops: all events, or with whole sends those at which no send is in the middle of its events

let stops = [];
let isCoarse = false;
const FOLLOWS = { claim: "clear", feed: "clear", put: "claim" };

function isInSend(step) {
    const [here, next] = [run.steps[step - 1], run.steps[step]];
    const isNext = here && next && here.done && next.done && here.at === next.at;
    return isNext && (FOLLOWS[next.kind] === here.kind || (next.kind === "put" && here.kind === "feed"));
}

function makeStops() {
    stops = [...Array(last + 1).keys()].filter((step) => !isCoarse || !isInSend(step));
}

// The number of the first stop at a state or after it.
function stopOf(step) {
    let [low, high] = [0, stops.length - 1];
    while (low < high) {
        const middle = (low + high) >> 1;
        if (stops[middle] < step) low = middle + 1;
        else high = middle;
    }
    return low;
}

const stopBefore = (step) => (step === 0 ? 0 : stops[stopOf(step) - 1]);

function eventWords(step) {
    const { event, send } = run.steps[step - 1];
    return run.words[step - stopBefore(step) > 1 && send !== undefined ? send : event];
}

// --- The space-time diagram: a column for each part, time goes down

const UNSAID = ["take", "ack", "clear", "claim", "put", "settle", "read", "feed", "end"];
const SPACE = { column: 120, row: 30, head: 40, above: 13, below: 5, most: 12, words: 13 };
// The part that makes an event.
function partOf({ kind, at: place }) {
    if (kind === "take" || kind === "ack") return run.edges[place]?.[1] ?? null;
    if (kind === "read" || kind === "end") return null;
    if (["clear", "claim", "put", "settle", "seal", "feed"].includes(kind)) return run.edges[place]?.[0] ?? null;
    return place < run.names.length ? place : null;
}
let story = tellStory();

// Which messages and acknowledgements went from which event to which, and from when to when each vertex was engaged.
function tellStory() {
    const found = { messages: [], answers: [], bands: [], own: [] };
    const messages = run.edges.map((_, edge) =>
        run.start.edges[edge].cells.map(([, chips]) => ({ edge, from: 0, chips })));
    const acks = run.edges.map(() => []);
    const engaged = new Map();
    for (const sent of messages) found.messages.push(...sent);
    run.steps.forEach(({ kind, at: edge, done, changes, tells = [] }, index) => {
        const step = index + 1;
        if (!done) return;
        found.own.push(...tells.map(([tail, head]) => ({ tail, head, from: step, to: step })));
        if (kind === "put") {
            const chips = changes.find(([, , name]) => name === "cells")[3].at(-1)[1];
            messages[edge].push({ edge, from: step, chips });
            found.messages.push(messages[edge].at(-1));
        } else if (kind === "take" && changes.length) {
            messages[edge].shift().to = step;
        } else if (kind === "ack") {
            acks[edge].push({ edge, from: step });
            found.answers.push(acks[edge].at(-1));
        } else if (kind === "settle" || kind === "end") {
            const seen = kind === "end" ? run.graphEdges : edge;
            for (const ack of acks[seen].splice(0)) ack.to = step;
        }
        for (const [part, vertex, name, value] of changes) {
            if (part !== "vertices" || name !== "parent") continue;
            if (value === null) engaged.get(vertex).to = step;
            else engaged.set(vertex, { vertex, from: step });
            if (value !== null) found.bands.push(engaged.get(vertex));
        }
    });
    return found;
}

// What the diagram shows: the events round the present one, from first to end, and the parts that have a column. Among
// many these are the parts of the events.
function windowOf(now) {
    const first = Math.max(0, now - SPACE.above);
    const end = Math.min(stops.length - 1, isPredicting ? now : Math.max(now + SPACE.below, first + SPACE.above + SPACE.below));
    const all = [null, ...run.names.keys()];
    const busy = new Set(stops.slice(Math.max(first, 1), end + 1).map((step) => partOf(run.steps[step - 1])));
    const columns = all.length <= SPACE.most ? all : all.filter((part) => part === null || busy.has(part));
    const x = (part) => SPACE.column * (columns.indexOf(part) + 0.5);
    const row = (step) => SPACE.head + SPACE.row * (stopOf(step) - first + 0.7);
    const isSeen = ({ from, to }) => stopOf(from) <= end && (to === undefined || stopOf(to) >= first);
    return { first, end, columns, x, row, isSeen, bottom: row(stops[end]) + SPACE.row * 0.6, now: row(at) };
}

function showDiagram() {
    const diagram = byId("diagram");
    if (byId("picture").dataset.view !== "diagram") return;
    const seen = windowOf(stopOf(at));
    const { columns, x, bottom } = seen;
    const lines = columns.map(x).map((x) => shape("line", { x1: x, y1: SPACE.head, x2: x, y2: bottom, class: "life" }));
    const titleOf = (part) => (part === null ? "root" : vertexTitle(part));
    const heads = columns.map((part) => word(titleOf(part), x(part), SPACE.head / 2, 16, "name beside"));
    const bands = story.bands.filter((it) => seen.isSeen(it) && columns.includes(it.vertex)).flatMap((it) => bandOf(it, seen));
    const arrows = [["answers", 1, 0], ["messages", 0, 1]].flatMap(([kind, from, to]) =>
        story[kind].filter(seen.isSeen).flatMap((it) => {
            const [tail, head] = [run.edges[it.edge][from], run.edges[it.edge][to]];
            return columns.includes(tail) || columns.includes(head) ? arrowOf(it, kind, tail, head, seen) : [];
        }));
    const own = story.own.filter((it) => seen.isSeen(it) && columns.includes(it.tail) && columns.includes(it.head));
    const dots = stops.slice(Math.max(seen.first, 1), seen.end + 1).map((step) => dotOf(step, seen));
    const size = { width: SPACE.column * columns.length, height: bottom + 6 };
    const bar = shape("line", { x1: 0, y1: seen.now, x2: size.width, y2: seen.now, class: "now" });
    diagram.replaceChildren(...bands, ...lines, bar, ...arrows, ...own.map((it) => toldOf(it, seen)), ...dots, ...heads);
    diagram.setAttribute("viewBox", `0 0 ${size.width} ${size.height}`);
    keepLegible(diagram, size, SPACE.words);
}

const laterIf = (isLater) => (isLater ? " later" : "");

// A spell of engagement: up to now, and pale what comes then.
function bandOf({ vertex, from, to }, { x, row, bottom, now }) {
    const top = Math.max(row(from), SPACE.head);
    const until = to === undefined ? (at === last ? now : bottom) : Math.min(row(to), bottom);
    return [[top, Math.min(until, now), false], [Math.max(top, now), until, true]]
        .filter(([above, below]) => below > above)
        .map(([above, below, isLater]) => shape("rect", {
            x: x(vertex) - 11, y: above, width: 22, height: below - above, class: `band${laterIf(isLater)}`,
        }));
}

// A message, or an acknowledgement, from one part to another. What is still in transit now ends in a box or a point.
function arrowOf({ from, to, chips }, kind, tail, head, { x, row, columns, end, now }) {
    const isMessage = kind === "messages";
    const hasArrived = to !== undefined && stopOf(to) <= end;
    const start = { x: x(tail), y: Math.max(row(from), SPACE.head) };
    // (what nobody takes comes near to its head now)
    const stop = { x: x(head), y: hasArrived ? row(to) : start.y + Math.max(1.2 * (now - start.y), 2 * SPACE.row) };
    // (a part without a column is named where the arrow is cut)
    if (!columns.includes(tail)) Object.assign(start, { x: stop.x + 0.45 * SPACE.column, y: stop.y - SPACE.row });
    if (!columns.includes(head)) Object.assign(stop, { x: start.x + 0.45 * SPACE.column, y: start.y + SPACE.row });
    const other = columns.includes(tail) ? (columns.includes(head) ? null : head) : tail;
    const isOnWay = columns.includes(tail) && from <= at && (to === undefined || to > at);
    const isLater = (columns.includes(tail) ? from : to ?? from) > at;
    const part = Math.min(0.85, Math.max(0.3, (now - start.y) / (stop.y - start.y)));
    const here = { x: start.x + part * (stop.x - start.x), y: start.y + part * (stop.y - start.y) };
    const line = (a, b, later) => shape("g", { class: (isMessage ? "way" : "answer-way") + laterIf(later) },
        shape("line", { x1: a.x, y1: a.y, x2: b.x, y2: b.y, class: "line" }),
        shape("path", { d: arrowAt(b, a, 11), class: "arrow" }));
    const middle = { x: (start.x + stop.x) / 2, y: (start.y + stop.y) / 2 - 8 };
    const made = isOnWay ? [line(start, here, false)] : [line(start, stop, isLater)];
    if (isOnWay && hasArrived) made.unshift(line(here, stop, true));
    const text = isMessage ? chips.toLocaleString("en") : "";
    const label = word(text, middle.x, middle.y, SPACE.words, `number${laterIf(isLater)}`);
    made.push(isMessage && isOnWay ? boxOf("flight", text, null, here.x, here.y, textWidth(text, size.box)) : label);
    const cut = other === head ? stop : start;
    const said = `${other === head ? "to" : "from"} ${run.names[other]}`;
    return other === null ? made : [...made, word(said, cut.x + 6, cut.y, SPACE.words, "said")];
}

// What a detector's own event says, from one part to another.
function toldOf({ tail, head, from }, { x, row }) {
    const [start, end] = [{ x: x(tail), y: row(from) }, { x: x(head), y: row(from) + 0.7 * SPACE.row }];
    const line = shape("line", { x1: start.x, y1: start.y, x2: end.x, y2: end.y, class: "line" });
    return shape("g", { class: `told${laterIf(from > at)}` }, line, shape("path", { d: arrowAt(end, start, 11), class: "token" }));
}

function dotOf(step, { x, row }) {
    const { kind, done, note } = run.steps[step - 1];
    const centre = { x: x(partOf(run.steps[step - 1])), y: row(step) };
    const said = done ? (UNSAID.includes(kind) ? "" : kind) : `${kind}: refused`;
    const dot = shape("circle", { cx: centre.x, cy: centre.y, r: 5 });
    const label = word(said, centre.x + 12, centre.y, SPACE.words, "said");
    const title = shape("title", {}, `${step}. ${eventWords(step)}${note ? ` ${note}` : ""}`);
    const names = `dot${done ? "" : " refused"}${laterIf(step > at)}`;
    return shape("g", { class: names, "data-step": step }, title, dot, label);
}

// --- The tables: the same in words

const flag = (name) => (facts) => (facts[name] ? "yes" : "");
const number = (name) => (facts) => facts[name].toLocaleString("en");
const some = (name) => (facts) => (facts[name] ? facts[name].toLocaleString("en") : "");
const COLUMNS = {
    root: [
        ["deficit", number("deficit")],
        ["more is fed", (facts) => (facts.ended ? "no" : "perhaps"), "ended"],
        ["root", (facts) => (facts.closed ? "closed" : "open"), "closed"],
    ],
    vertices: [
        ["chips", number("chips")],
        ["fired", number("fired")],
        ["engaged by", (facts) => (facts.parent === null ? "" : `edge ${facts.parent}`), "parent"],
        ["deficit", number("deficit")],
        ["halted by", (facts) => facts.halted ?? "", "halted"],
    ],
    edges: [
        ["pending", some("pending")],
        ["claimed", some("claimed")],
        ["cells", (facts) => facts.cells.map(([place, chips]) => `${place}: ${chips.toLocaleString("en")}`).join("; ")],
        ["sent", number("sent")],
        ["taken", number("taken")],
        ["owed", some("owed")],
        ["acknowledged", number("acknowledged")],
        ["settled", number("settled")],
        ["unseen", (facts) => (facts.acknowledged - facts.settled || "").toLocaleString("en")],
        ["seen empty", flag("clear"), "clear"],
        ["sealed", flag("sealed")],
        ["claim refused", flag("refused"), "refused"],
    ],
};
if ("own" in run.start.root[0]) COLUMNS.root.push(["detector", (facts) => facts.own, "own"]);
for (const columns of Object.values(COLUMNS)) {
    const kept = columns.filter(([title]) => !run.hidden?.includes(title));
    columns.splice(0, columns.length, ...kept.map(([title, text, fact = title]) => [run.titles?.[title] ?? title, text, fact]));
}
const vertexName = (vertex) => {
    const name = run.names[vertex];
    return vertex === run.sink && name !== "sink" ? `${name} (sink)` : name;
};
const edgeName = (edge) => {
    const [tail, head, mult] = run.edges[edge];
    const ends = `${tail === null ? "root" : vertexName(tail)} to ${vertexName(head)}`;
    return mult > 1 ? `${ends}, ${mult} chips a firing` : ends;
};
const HEADS = {
    root: { titles: [], of: () => [] },
    vertices: { titles: ["vertex"], of: (vertex) => [vertexName(vertex)] },
    edges: { titles: ["edge", "from and to"], of: (edge) => [edge, edgeName(edge)] },
};
const cellsDrawn = { root: new Map(), vertices: new Map(), edges: new Map() };

function makeTable(kind, indices) {
    const titles = [...HEADS[kind].titles, ...COLUMNS[kind].map(([title]) => title)];
    const head = element("tr", {}, ...titles.map((title) => element("th", { scope: "col" }, title)));
    const rows = indices.map((index) => {
        const heads = HEADS[kind].of(index).map((text) => element("th", { scope: "row" }, String(text)));
        const cells = COLUMNS[kind].map(() => element("td"));
        cellsDrawn[kind].set(index, cells);
        return element("tr", { id: `${kind}-${index}` }, ...heads, ...cells);
    });
    byId(kind).append(element("thead", {}, head), element("tbody", {}, ...rows));
}

function showRow(kind, index) {
    const facts = game.state[kind][index];
    const changes = game.changed.get(`${kind} ${index}`);
    cellsDrawn[kind].get(index)?.forEach((cell, column) => {
        const [title, textOf, fact = title] = COLUMNS[kind][column];
        const was = changes?.has(fact) ? textOf({ ...facts, [fact]: changes.get(fact) }) : undefined;
        cell.className = was === undefined ? "" : "changed";
        cell.replaceChildren(textOf(facts));
        if (was !== undefined) cell.append(element("small", {}, `was ${was || "–"}`));
    });
}

// --- Predicting: the reply is asked for before it is shown, and of a forbidden acknowledgement the reason

// What the rule allows or forbids; the other questions are about what is there.
const MAY = ["fire", "halt", "read", "ack"];
let isPredicting = false;
let isAcksOnly = false;
let asked = null;
let isWhy = false;
let verdict = "";
// The first answer to each event: whether it and the reason were right, and whether the event is forbidden.
const answered = new Map();

// The event that comes next, if there is something to predict of it.
function nextQuestion() {
    const step = stops[stopOf(at) + 1];
    if (!isPredicting || step !== at + 1 || run.steps[at].ask === undefined) return null;
    return isAcksOnly && run.steps[at].kind !== "ack" ? null : step;
}

function answer(isYes) {
    if (asked === null || isWhy) return;
    const { kind, yes, why } = run.steps[asked - 1];
    const isRight = isYes === yes;
    if (!answered.has(asked)) answered.set(asked, { isRight, isForbidden: !yes && MAY.includes(kind) });
    verdict = `${isRight ? "Right" : "Wrong"}: ${run.answers[kind][yes ? 0 : 1]}. `;
    if (why) isWhy = true;
    if (why) show();
    else tell();
}

function answerWhy(reason) {
    const { why } = run.steps[asked - 1];
    const isRight = why.includes(reason);
    answered.get(asked).isReason ??= isRight;
    verdict = `${isRight ? "Right" : "Wrong"}: ${why.map((it) => run.reasons[it]).join(", and ")}. `;
    tell();
}

// Goes to the event that was asked about. A wrong detector may do what the rule forbids.
function tell() {
    const { kind, yes, done } = run.steps[asked - 1];
    if (kind === "ack" && yes !== done) verdict += done ? "This detector does it all the same. " : "This detector does not. ";
    const step = asked;
    forget();
    goTo(step);
}

function reset() {
    answered.clear();
    showQuestion();
}

function showQuestion() {
    const hadFocus = document.activeElement?.closest("#answers, #reasons");
    byId("answers").hidden = asked === null || isWhy;
    byId("reasons").hidden = !isWhy;
    for (const name of ["acks", "reset", "score"]) byId(name).hidden = !isPredicting;
    if (hadFocus) (isWhy ? byId("reasons").firstElementChild : byId("forward")).focus();
    const all = [...answered.values()];
    const [forbidden, reasons] = [all.filter((it) => it.isForbidden), all.filter((it) => "isReason" in it)];
    const counts = [[all, "isRight", ""], [forbidden, "isRight", "forbidden: "], [reasons, "isReason", "why: "]].map(
        ([found, name, said]) => `${said}${found.filter((it) => it[name]).length} of ${found.length}`);
    byId("score").textContent = `Right: ${counts.join("; ")}`;
}

// --- Choosing: the page has all states of its game, and whoever reads it picks each event among those that may happen

// The state after each event at which no send is in the middle of its events, and which move was picked there.
const reached = new Map([[0, 0]]);
const picked = new Map();

function choose(move) {
    const [steps, state] = run.choices.moves[reached.get(at)][move];
    for (const known of [reached, picked]) for (const step of known.keys()) if (step > at) known.delete(step);
    picked.set(at, move);
    game.goOn(steps.map((step) => run.choices.steps[step]));
    last = game.steps.length;
    reached.set(last, state);
    story = tellStory();
    makeStops();
    leap(last);
}

// The verdict on what was picked: where the root was closed too early, it stays so.
function choiceEnd() {
    const { ends, early } = run.choices;
    const end = ends[reached.get(at)];
    const [first] = [...reached].find(([step, state]) => step < at && ends[state]?.isWrong) ?? [null];
    return first === null || end?.isWrong ? end : { text: early.replace("{event}", first), isWrong: true };
}

// The events that may happen now; that which was picked appears pressed.
function showChoices() {
    const hadFocus = document.activeElement?.closest("#possible");
    const choices = run.choices.moves[reached.get(at)].map(([steps], move) => {
        const { send, event } = run.choices.steps[steps.at(-1)];
        const isPicked = picked.get(at) === move && at < last;
        const button = element("button", { type: "button", "aria-pressed": isPicked }, run.words[send ?? event]);
        button.addEventListener("click", () => choose(move));
        return element("li", {}, button);
    });
    byId("possible").replaceChildren(...choices);
    byId("how-many").textContent = choices.length;
    if (hadFocus) (byId("possible").querySelector("button") ?? byId("events")).focus();
}

// --- Showing one state

// Goes to the state after this number of events.
function goTo(step) {
    const wanted = Math.max(0, Math.min(step, last));
    const stop = stopOf(wanted);
    // (with whole sends one goes on to the end of a send, or back to its start)
    at = isCoarse && stops[stop] > wanted && wanted < at ? stops[stop - 1] : isCoarse ? stops[stop] : wanted;
    game.goTo(at);
    beside?.goTo(at);
    show();
    verdict = "";
}

function show() {
    const from = stopBefore(at);
    const parts = drawings.map((it) => it.show(from))[0];
    for (const [kind, index] of parts) showRow(kind, index);
    showWords(from);
    fit();
    follow();
    showDiagram();
    showQuestion();
    if (run.choices) showChoices();
    showControls();
}

// What is drawn ends with the screen, also if the words above it are long.
function fit() {
    const top = byId(byId("picture").dataset.view === "diagram" ? "diagram" : "drawing").getBoundingClientRect().top;
    const room = window.innerHeight - top - window.scrollY - 8;
    document.documentElement.style.setProperty("--room", `${Math.round(room)}px`);
}

// Scrolls each drawing that is larger than its window to the part that made the event.
function follow() {
    const part = at > 0 ? partOf(run.steps[at - 1]) : null;
    for (const { drawing, root, vertices } of drawings) {
        const room = drawing.parentElement;
        const [seen, box] = [room, (part === null ? root : vertices[part]).group].map((it) => it.getBoundingClientRect());
        if (box.left < seen.left || box.right > seen.right) {
            room.scrollLeft += (box.left + box.right - seen.left - seen.right) / 2;
        }
    }
}

function showWords(from) {
    const step = run.steps[at - 1];
    byId("event").textContent = step ? `${at}. ${eventWords(at)}` : "Before the first event.";
    byId("reply").textContent = step ? verdict + run.words[step.reply] : run.opening;
    if (asked !== null) {
        byId("event").textContent = `${asked}. ${run.words[run.steps[asked - 1].ask]}`;
        byId("reply").textContent = isWhy ? `${verdict}Why?` : "";
    }
    byId("note").textContent = (asked === null && step?.note) || "";
    showEnd();
    if (beside) showBeside();
    const words = run.steps.slice(from, at).flatMap(({ changes }) => changes.map((change) => run.words[change[4]]));
    byId("changes").replaceChildren(...(words.length ? words : ["nothing"]).map((text) => element("li", {}, text)));
}

// The verdict, in large letters: red if the root is closed and something is left.
function showEnd() {
    const end = run.choices ? choiceEnd() : at === last && asked === null ? run.end : null;
    byId("end").hidden = !end;
    byId("end").className = end?.isWrong ? "wrong" : "";
    byId("end").textContent = end?.text ?? "";
}

// What the right detector replies to the same event. The first reply that differs from the wrong one's is marked.
function showBeside() {
    const step = at > 0 && asked === null ? run.beside.steps[at - 1] : null;
    byId("reply-beside").textContent = step ? run.words[step.reply] : "";
    const { steps } = run.beside;
    const differs = run.steps.findIndex(({ reply }, index) => !steps[index].isOwn && reply !== steps[index].reply);
    byId("reply-beside").className = step && differs === at - 1 ? "differs" : "";
}

function showControls() {
    const slider = byId("slider");
    slider.max = last;
    slider.value = at;
    slider.setAttribute("aria-valuetext", `event ${at} of ${last}`);
    byId("counter").textContent = `event ${at} of ${last}`;
    for (const name of ["first", "back"]) byId(name).disabled = at === 0;
    for (const name of ["forward", "last"]) byId(name).disabled = at === last;
    byId("play").textContent = playing === null ? "Play" : "Pause";
    byId("predict").setAttribute("aria-pressed", isPredicting);
    byId("acks").setAttribute("aria-pressed", isAcksOnly);
    byId("coarse").setAttribute("aria-pressed", isCoarse);
    byId("view").setAttribute("aria-pressed", byId("picture").dataset.view === "diagram");
    selectEvent();
    history.replaceState(null, "", `#${at}`);
}

// --- The list of events: all rows are equally high, and only those that can be seen are there

const list = byId("events");
const rows = byId("rows");
const rowHeight = () => {
    const style = getComputedStyle(rows);
    return parseFloat(style.getPropertyValue("--row")) * parseFloat(style.fontSize);
};
// (who predicts does not see what comes)
const rowCount = () => (isPredicting ? stopOf(at) + 1 : stops.length);

function eventRow(row) {
    const step = stops[row];
    const counts = { "aria-setsize": rowCount(), "aria-posinset": row + 1 };
    const made = element("li", { role: "option", id: `event-${step}`, ...counts });
    if (step === 0) {
        made.append("The start");
    } else {
        const { done, note } = run.steps[step - 1];
        made.append(`${step}. ${eventWords(step)}${done ? "" : " Refused."}`);
        if (note) made.append(element("small", {}, ` ${note}`));
        if (!done) made.className = "refused";
    }
    if (row === stopOf(at)) made.setAttribute("aria-selected", "true");
    return made;
}

function showEvents() {
    const height = rowHeight();
    const all = rowCount();
    const first = Math.max(0, Math.floor(list.scrollTop / height) - 2);
    const end = Math.min(all, first + Math.ceil(list.clientHeight / height) + 5);
    rows.style.paddingTop = `${first * height}px`;
    rows.style.paddingBottom = `${(all - end) * height}px`;
    rows.replaceChildren(...Array.from({ length: Math.max(0, end - first) }, (_, i) => eventRow(first + i)));
}

// Shows the rows round the event that the page is at.
function selectEvent() {
    const height = rowHeight();
    const top = stopOf(at) * height;
    // (the list has its full height before it is scrolled)
    rows.style.paddingBottom = `${rowCount() * height}px`;
    const isSeen = top >= list.scrollTop && top + height <= list.scrollTop + list.clientHeight;
    if (!isSeen) list.scrollTop = top - list.clientHeight / 3;
    showEvents();
    list.setAttribute("aria-activedescendant", `event-${stops[stopOf(at)]}`);
}

// --- Playing, keys and buttons

function pause() {
    clearInterval(playing);
    playing = null;
    showControls();
}

function play() {
    if (at === last) goTo(0);
    playing = setInterval(() => {
        forward();
        if (at === last || asked !== null) pause();
    }, Number(byId("pace").value));
    showControls();
}

function leap(step) {
    if (playing !== null) pause();
    forget();
    verdict = "";
    goTo(step);
}

function forget() {
    asked = null;
    isWhy = false;
}

// One stop on; who predicts is asked first, and goes on without an answer if asked once more.
function forward() {
    const question = asked === null ? nextQuestion() : null;
    forget();
    asked = question;
    if (question !== null) show();
    else goTo(stops[Math.min(stopOf(at) + 1, stops.length - 1)]);
}

function stepOn() {
    if (playing !== null) pause();
    forward();
}

// The next state, or the one before, that an event led to which changed the tree or closed the root.
function treeChange(way) {
    const isOne = ({ changes }) => changes.some(([, , name]) => name === "parent" || name === "closed");
    for (let step = at + way; step > 0 && step <= last; step += way) if (isOne(run.steps[step - 1])) return step;
    return way > 0 ? last : 0;
}

function toggle(what) {
    if (byId(what).hidden) return;
    if (what === "predict") {
        isPredicting = !isPredicting;
        forget();
    } else if (what === "acks") {
        isAcksOnly = !isAcksOnly;
        forget();
    } else if (what === "coarse") {
        isCoarse = !isCoarse;
        makeStops();
    } else {
        const picture = byId("picture");
        picture.dataset.view = picture.dataset.view === "diagram" ? "graph" : "diagram";
        fit();
        layOut();
    }
    goTo(at);
}

function help() {
    const keys = byId("keys");
    if (keys.open) keys.close();
    else keys.showModal();
}

const BACK = () => leap(asked === null ? stopBefore(at) : at);
const KEYS = {
    ArrowRight: stepOn,
    ArrowLeft: BACK,
    PageDown: stepOn,
    PageUp: BACK,
    Home: () => leap(0),
    End: () => leap(last),
    " ": () => (playing === null ? play() : pause()),
    "]": () => leap(treeChange(1)),
    "[": () => leap(treeChange(-1)),
    p: () => toggle("predict"),
    a: () => toggle("acks"),
    r: reset,
    s: () => toggle("coarse"),
    d: () => toggle("view"),
    y: () => answer(true),
    n: () => answer(false),
    "?": help,
};
const LIST_KEYS = { ArrowDown: KEYS.ArrowRight, ArrowUp: KEYS.ArrowLeft };
const BUTTONS = {
    first: "Home", back: "ArrowLeft", forward: "ArrowRight", last: "End", play: " ", predict: "p", coarse: "s", view: "d",
    "tree-back": "[", "tree-on": "]", help: "?", yes: "y", no: "n", acks: "a", reset: "r",
};

function onKey(press) {
    if (press.altKey || press.ctrlKey || press.metaKey || (byId("keys").open && press.key !== "?")) return;
    // (the slider has its own keys, but for the space bar, which plays wherever the focus is)
    if (press.key !== " " && press.target.closest("input, select, textarea")) return;
    const isInList = press.target.id === "events";
    const numbered = (isWhy ? byId("reasons") : byId("possible")).querySelectorAll("button")[press.key - 1];
    const action = numbered ? () => numbered.click() : KEYS[press.key] ?? (isInList ? LIST_KEYS[press.key] : undefined);
    if (action) {
        press.preventDefault();
        action();
    }
}

function listen() {
    for (const [name, key] of Object.entries(BUTTONS)) byId(name).addEventListener("click", () => KEYS[key]());
    // (a button that has the focus would be pressed by the space bar as it is let go)
    document.addEventListener("keyup", (press) => {
        if (press.key === " " && press.target.closest("main, header")) press.preventDefault();
    });
    run.reasons.forEach((reason, index) => {
        const button = element("button", { type: "button" }, `${reason} (${index + 1})`);
        button.addEventListener("click", () => answerWhy(index));
        byId("reasons").append(button);
    });
    const slider = byId("slider");
    slider.addEventListener("input", () => leap(Number(slider.value)));
    byId("pace").addEventListener("change", () => {
        if (playing !== null) {
            clearInterval(playing);
            play();
        }
    });
    list.addEventListener("scroll", showEvents);
    window.addEventListener("resize", () => {
        showEvents();
        fit();
        layOut();
    });
    list.addEventListener("click", (click) => {
        const row = click.target.closest("li");
        if (row) leap(Number(row.id.slice("event-".length)));
    });
    byId("diagram").addEventListener("click", (click) => {
        const dot = click.target.closest("[data-step]");
        if (dot) leap(Number(dot.dataset.step));
    });
    for (const it of drawings) onDrag(it.drawing);
    document.addEventListener("keydown", onKey);
    window.addEventListener("hashchange", () => leap(eventOfAddress()));
}

const eventOfAddress = () => Math.trunc(Number(location.hash.slice(1))) || 0;

// (a state in the middle of a send has no choices)
isCoarse = Boolean(run.choices);
for (const name of ["predict", "coarse"]) byId(name).hidden = isCoarse;
byId("choices").hidden = !isCoarse;
makeStops();
makeTable("root", [0]);
makeTable("vertices", run.names.map((_, vertex) => vertex));
makeTable("edges", shownEdges);
fit();
layOut();
game.stale = allParts();
listen();
goTo(eventOfAddress());
