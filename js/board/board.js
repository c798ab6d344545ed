/* The board: what is drawn, and what is asked of the worker. Nothing here plays. */
"use strict";

const PALETTES = {
  colours: ["#ffffff", "#f0c83c", "#286ebe", "#14141e", "#ec7050"],
  greys: ["#ffffff", "#c8c8c8", "#8c8c8c", "#505050", "#000000"],
  viridis: spread(
    "#440154 #482878 #3e4989 #31688e #26828e #1f9e89 #35b779 #6ece58 #b5de2b #fde725".split(" "),
    255,
  ),
};
/** What squares are mixed with that the last avalanche fired. */
const LIT = "#d6006c";
/** The least width of a picture that is saved, in points. */
const WIDTH = 1024;
/** How many chips may stand in an address one by one. */
const MOST_PLACED = 200;
const DEFAULTS = { lattice: "square", borders: "open", rows: 101, columns: 101, fill: "heap", amount: 10000 };

const at = (id) => document.getElementById(id);
const canvas = at("board");
const context = canvas.getContext("2d");
const board = { ...DEFAULTS, seed: 1 };
let chips = new Float64Array(2);
let fired = new Float64Array(2);
let lit = null;
let cursor = null;
/** What was put on the board since the worker was asked, as [vertex, chips]. */
let painted = [];
/** What the worker has a pile for with these chips, "round" or "drops", or nothing. */
let kept = "";
/** Whether the address lacks what was done since the beginning. */
let isChanged = false;
let isRunning = false;
let isStopped = false;
/** How many avalanches had no firing, and then from 2^n to below 2^(n + 1) of them. */
let counts = [];
let worker;
let number = 0;
const waiting = new Map();

/* ---- Colours and numbers */

function rgb(colour) {
  return [1, 3, 5].map((place) => parseInt(colour.slice(place, place + 2), 16));
}

function mixed(one, other, share) {
  const theirs = rgb(other);
  const sums = rgb(one).map((part, place) => Math.round(part * (1 - share) + theirs[place] * share));
  return `#${sums.map((part) => part.toString(16).padStart(2, "0")).join("")}`;
}

/** `count` colours, from the first of these to the last. */
function spread(corners, count) {
  return Array.from({ length: count }, (_, step) => {
    const place = (step * (corners.length - 1)) / (count - 1);
    const low = Math.min(Math.floor(place), corners.length - 2);
    return mixed(corners[low], corners[low + 1], place - low);
  });
}

/** A colour as four bytes of a picture. */
const pointOf = (colour) => new Uint32Array(Uint8Array.of(...rgb(colour), 255).buffer)[0];

const said = (count) => count.toLocaleString("en");
const counted = (count, one, many) => `${said(count)} ${count === 1 ? one : many}`;

/* ---- The picture */

const squares = () => board.rows * board.columns;
const shown = () => (at("show").value === "fired" ? fired : chips);
/** Counts of firings are spread over their colours, and so is what viridis shows. */
const isSpread = () => at("palette").value === "viridis" || at("show").value === "fired";
const palette = () => PALETTES[isSpread() ? "viridis" : at("palette").value];

function mostOf(numbers) {
  let most = 0;
  for (let square = 0; square < squares(); square++) most = Math.max(most, numbers[square]);
  return most;
}

function draw() {
  const numbers = shown();
  const colours = palette().map(pointOf);
  const lights = palette().map((colour) => pointOf(mixed(colour, LIT, 0.75)));
  const last = colours.length - 1;
  const share = isSpread() ? last / Math.max(mostOf(numbers), 1) : 1;
  const image = context.createImageData(board.columns, board.rows);
  const points = new Uint32Array(image.data.buffer);
  for (let square = 0; square < points.length; square++) {
    const colour = Math.min(Math.floor(numbers[square] * share), last);
    points[square] = lit?.[square] ? lights[colour] : colours[colour];
  }
  context.putImageData(image, 0, 0);
  explainColours();
}

function explainColours() {
  const colours = palette();
  const last = colours.length - 1;
  let labels = colours.map((colour, count) => [colour, count === last ? `${count} or more` : `${count}`]);
  if (isSpread()) labels = [[colours[0], "0"], [colours[last], said(mostOf(shown()))]];
  if (lit) labels.push([LIT, "fired in the last avalanche"]);
  at("legend").replaceChildren(...labels.map(([colour, label]) => {
    const box = document.createElement("i");
    box.style.background = colour;
    const item = document.createElement("span");
    item.append(box, ` ${label}`);
    return item;
  }));
}

function fit() {
  [canvas.width, canvas.height] = [board.columns, board.rows];
  at("frame").style.setProperty("--wide", board.columns / board.rows);
}

function say(text, isWrong = false) {
  at("status").textContent = text;
  at("status").classList.toggle("wrong", isWrong);
}

/* ---- The worker */

function bytesOf(text) {
  return Uint8Array.from(atob(text), (sign) => sign.charCodeAt(0));
}

/** Where the worker's script is. */
const WORKER = URL.createObjectURL(new Blob([at("worker").textContent], { type: "text/javascript" }));

function begin() {
  worker?.terminate();
  waiting.clear();
  worker = new Worker(WORKER);
  worker.onmessage = ({ data }) => {
    const { done, fail } = waiting.get(data.id);
    waiting.delete(data.id);
    if (data.error === undefined) done(data);
    else fail(new Error(data.error));
  };
  worker.onerror = ({ message }) => waiting.forEach(({ fail }) => fail(new Error(message)));
  kept = "";
  return ask("load", { module: bytesOf(at("module").textContent) });
}

/** Asks the worker. */
function ask(what, given = {}) {
  number += 1;
  worker.postMessage({ ...given, ask: what, id: number });
  return new Promise((done, fail) => waiting.set(number, { done, fail }));
}

/** Has the worker play: it gets the chips, if its pile is for something else or has others. */
function play(what, given = {}) {
  painted = [];
  return ask(what, kept === what ? given : { ...given, chips });
}

/** Takes what the worker has played; what was put on the board meanwhile stays. */
function take(its, what = "") {
  chips = its.chips;
  fired = its.fired ?? fired;
  kept = painted.length === 0 ? what : "";
  for (const [square, count] of painted) chips[square] += count;
  draw();
}

const pause = (time) => new Promise((done) => setTimeout(done, time));
const nextPicture = () => new Promise((done) => requestAnimationFrame(done));

/** Does something that takes time, one thing at once, and reports what goes wrong. */
async function work(name, does) {
  if (isRunning) return;
  setRunning(true);
  isStopped = false;
  say(`${name} ..`);
  try {
    await does();
  } catch (error) {
    say(`${name}: ${error.message}`, true);
  }
  setRunning(false);
}

/** Screen readers read no message aloud while something runs, but the last. */
function setRunning(is) {
  isRunning = is;
  at("stop").disabled = !is;
  at("status").setAttribute("aria-live", is ? "off" : "polite");
}

/** Stops what runs: after a picture or some drops, and a longer play with its worker. */
async function stop() {
  isStopped = isRunning;
  await pause(300);
  if (!isStopped || waiting.size === 0) return;
  for (const { fail } of waiting.values()) fail(new Error("stopped, and the board is as it was before"));
  await begin();
  await ask("grid", board);
}

/* ---- What the buttons do */

function stabilize() {
  return work("Stabilizing", async () => {
    const begun = performance.now();
    lit = null;
    const its = await play("stabilize");
    take(its);
    const time = ((performance.now() - begun) / 1000).toFixed(2);
    say(`${counted(its.total, "firing", "firings")} in ${time} s; ${said(chips[squares()])} chips left the board.`);
  });
}

function watch() {
  return work("Watching", async () => {
    const most = Number(at("pace").value);
    let [isOver, rounds, total] = [false, 0, 0];
    lit = null;
    while (!isOver && !isStopped) {
      const its = await play("round", { most });
      take(its, "round");
      [isOver, rounds, total] = [its.isOver, rounds + 1, total + its.total];
      const end = isOver ? ", and no square may fire" : "";
      say(`${counted(total, "firing", "firings")} in ${counted(rounds, "picture", "pictures")}${end}.`);
      await nextPicture();
    }
  });
}

/** Drops chips one after another, on a square or anywhere. */
function drop(isOne, vertex) {
  return work("Dropping", async () => {
    do {
      const count = isOne ? 1 : Number(at("drops").value);
      const its = await play("drops", { count, vertex, seed: Math.floor(Math.random() * 2 ** 32) });
      lit = its.lit;
      take(its, "drops");
      its.avalanches.forEach(note);
      const [size, area, lost] = its.avalanches[count - 1];
      const drops = counts.reduce((sum, it) => sum + it, 0);
      const avalanche = `${counted(size, "firing", "firings")} of ${counted(area, "square", "squares")}`;
      const left = `${counted(lost, "chip", "chips")} lost; ${counted(drops, "drop", "drops")}`;
      say(`Square ${placeOf(its.at)}: ${avalanche}, ${left}.`);
      showSizes();
      await nextPicture();
    } while (!isOne && !isStopped);
    isChanged = true;
  });
}

const placeOf = (square) => `${Math.floor(square / board.columns) + 1}, ${(square % board.columns) + 1}`;

/** Counts an avalanche by its size. */
function note([size]) {
  const place = size === 0 ? 0 : Math.floor(Math.log2(size)) + 1;
  while (counts.length <= place) counts.push(0);
  counts[place] += 1;
}

function showSizes() {
  const most = Math.max(...counts);
  at("sizes").hidden = counts.length === 0;
  at("bars").replaceChildren(...counts.map((count, place) => {
    const [low, high] = place === 0 ? [0, 0] : [2 ** (place - 1), 2 ** place - 1];
    const [item, name, bar, many] = ["li", "span", "b", "span"].map((kind) => document.createElement(kind));
    name.textContent = low === high ? said(low) : `${said(low)} to ${said(high)}`;
    bar.style.width = `${(100 * count) / most}%`;
    many.textContent = said(count);
    item.append(name, bar, many);
    return item;
  }));
}

/** Begins anew with the chips of a function, on the lattice that there is. */
function renew(name, makes) {
  return work(name, async () => {
    chips = await makes();
    fired = new Float64Array(chips.length);
    [lit, kept, isChanged, painted, counts] = [null, "", false, [], []];
    showSizes();
    draw();
    share();
    const total = chips.reduce((sum, count) => sum + count, 0);
    say(`${counted(total, "chip", "chips")} on ${said(board.rows)} by ${said(board.columns)} squares.`);
  });
}

const fill = () => renew("Beginning", async () => (await ask("fill", board)).chips);
const clear = () => renew("Clearing", async () => new Float64Array(squares() + 1));

/** Makes the lattice of the board, and puts chips on it. */
function make(makes) {
  return renew("Making", async () => {
    await ask("grid", board);
    cursor = null;
    at("cursor").hidden = true;
    fit();
    return makes ? makes() : (await ask("fill", board)).chips;
  });
}

/** Reads what the forms say. */
function readForms() {
  for (const name of ["lattice", "borders", "fill"]) board[name] = at(name).value;
  for (const name of ["rows", "columns", "amount"]) board[name] = Math.floor(Number(at(name).value));
}

function writeForms() {
  for (const name of Object.keys(DEFAULTS)) at(name).value = board[name];
}

/* ---- Chips by hand */

function put(square, count = Math.floor(Number(at("brush").value)) || 1) {
  chips[square] += count;
  painted.push([square, count]);
  kept = "";
  isChanged = true;
  lit = null;
  draw();
  if (!isRunning) say(`Square ${placeOf(square)}: ${counted(chips[square], "chip", "chips")}.`);
}

function squareAt({ clientX, clientY }) {
  const box = canvas.getBoundingClientRect();
  const column = Math.floor(((clientX - box.left) / box.width) * board.columns);
  const row = Math.floor(((clientY - box.top) / box.height) * board.rows);
  const isInside = column >= 0 && row >= 0 && column < board.columns && row < board.rows;
  return isInside ? row * board.columns + column : null;
}

/** The squares on the way from one to another, without the first. */
function way(from, to) {
  const [row, column] = [Math.floor(from / board.columns), from % board.columns];
  const [down, right] = [Math.floor(to / board.columns) - row, (to % board.columns) - column];
  const steps = Math.max(Math.abs(down), Math.abs(right));
  return Array.from({ length: steps }, (_, step) => {
    const share = (step + 1) / steps;
    return (row + Math.round(down * share)) * board.columns + column + Math.round(right * share);
  });
}

let dragged = null;

function press(event) {
  dragged = squareAt(event);
  if (dragged === null) return;
  canvas.setPointerCapture(event.pointerId);
  put(dragged);
}

function drag(event) {
  const square = squareAt(event);
  if (dragged === null || square === null || square === dragged) return;
  way(dragged, square).forEach((it) => put(it));
  dragged = square;
}

function move(down, right) {
  const { rows, columns } = board;
  const [row, column] = cursor ?? [Math.floor(rows / 2), Math.floor(columns / 2)];
  cursor = [(row + down + rows) % rows, (column + right + columns) % columns];
  const [y, x] = cursor;
  const box = { top: y / rows, left: x / columns, height: 1 / rows, width: 1 / columns };
  for (const [name, share] of Object.entries(box)) at("cursor").style[name] = `${100 * share}%`;
  at("cursor").hidden = false;
  const square = y * columns + x;
  if (!isRunning) say(`Square ${placeOf(square)}: ${counted(chips[square], "chip", "chips")}.`);
}

/* ---- Files and the address */

function save(name, blob) {
  const link = document.createElement("a");
  link.href = URL.createObjectURL(blob);
  link.download = name;
  link.click();
  setTimeout(() => URL.revokeObjectURL(link.href), 10000);
}

function savePicture() {
  const scale = Math.max(1, Math.ceil(WIDTH / board.columns));
  const large = document.createElement("canvas");
  [large.width, large.height] = [board.columns * scale, board.rows * scale];
  const points = large.getContext("2d");
  points.imageSmoothingEnabled = false;
  points.drawImage(canvas, 0, 0, large.width, large.height);
  large.toBlob((blob) => save("sandpile.png", blob));
}

function saveGame() {
  return work("Saving", async () => {
    const its = await ask("save", { chips });
    save("graph.json", new Blob([its.graph], { type: "application/json" }));
    save("chips.csv", new Blob([its.chips], { type: "text/csv" }));
    say("Saved: chipfire plain graph.json chips.csv plays the same game.");
  });
}

async function openGame(files) {
  let found;
  await work("Opening", async () => {
    const texts = await Promise.all(Array.from(files, (file) => file.text()));
    found = await ask("open", { texts });
  });
  if (!found) return;
  Object.assign(board, found.board);
  writeForms();
  await make(() => found.chips);
  isChanged = true;
}

/** Puts the board into the address, and what it begins with; chips by hand too, if they are few. */
function share() {
  const { seed, ...words } = board;
  const address = new URLSearchParams(words);
  if (["random", "recurrent"].includes(board.fill)) address.set("seed", seed);
  const placed = [];
  if (isChanged) chips.forEach((count, square) => count && square < squares() && placed.push(`${square}-${count}`));
  if (isChanged && placed.length <= MOST_PLACED) address.set("chips", placed.join("_"));
  history.replaceState(null, "", `#${address}`);
  return placed.length <= MOST_PLACED;
}

async function copy() {
  const isWhole = share();
  await navigator.clipboard?.writeText(location.href).catch(() => {});
  if (isWhole) say("The address has this board. It is in the clipboard, if the browser allows that.");
  else say("Too many chips were put by hand: the address has how the board began. Save the game instead.", true);
}

/** Reads the address: what it says of the board, and chips by hand. */
function readAddress() {
  const address = new URLSearchParams(location.hash.slice(1));
  for (const name of ["lattice", "borders", "fill"]) {
    const values = Array.from(at(name).options, (option) => option.value);
    if (values.includes(address.get(name))) board[name] = address.get(name);
  }
  for (const [name, most] of [["rows", 1024], ["columns", 1024], ["amount", 1e9], ["seed", 2 ** 32]]) {
    const value = Number(address.get(name) ?? NaN);
    if (Number.isInteger(value) && value >= (name === "amount" ? 0 : 1) && value <= most) board[name] = value;
  }
  return address.get("chips");
}

/** The chips that an address has one by one. */
function placedChips(text) {
  const found = new Float64Array(squares() + 1);
  for (const [, square, count] of text.matchAll(/(\d{1,7})-(\d{1,12})/g)) {
    if (Number(square) < squares()) found[Number(square)] = Number(count);
  }
  return found;
}

/* ---- The beginning */

const KEYS = { s: stabilize, w: watch, d: () => drop(true), m: () => drop(false), c: clear, Escape: stop };
const MOVES = { ArrowUp: [-1, 0], ArrowDown: [1, 0], ArrowLeft: [0, -1], ArrowRight: [0, 1] };

function key(event) {
  if (event.ctrlKey || event.metaKey || event.altKey) return;
  if (event.target === canvas && MOVES[event.key]) {
    event.preventDefault();
    move(...MOVES[event.key]);
  } else if (event.target === canvas && ["Enter", " "].includes(event.key)) {
    event.preventDefault();
    if (cursor) put(cursor[0] * board.columns + cursor[1]);
  } else if (!/INPUT|SELECT/.test(event.target.tagName) || event.key === "Escape") {
    KEYS[event.key]?.();
  }
}

function submitted(form, does) {
  at(form).addEventListener("submit", (event) => {
    event.preventDefault();
    readForms();
    board.seed = 1 + Math.floor(Math.random() * 1e9);
    does();
  });
}

const CLICKS = {
  stabilize, watch, stop, clear, copy,
  one: () => drop(true),
  many: () => drop(false),
  "save-picture": savePicture,
  "save-game": saveGame,
  "open-game": () => at("files").click(),
};

async function start() {
  for (const [id, does] of Object.entries(CLICKS)) at(id).addEventListener("click", () => does());
  for (const id of ["show", "palette"]) at(id).addEventListener("change", draw);
  submitted("chips", fill);
  submitted("lattice-form", () => make());
  at("files").addEventListener("change", ({ target }) => openGame(target.files));
  canvas.addEventListener("pointerdown", press);
  canvas.addEventListener("pointermove", drag);
  for (const name of ["pointerup", "pointercancel"]) canvas.addEventListener(name, () => (dragged = null));
  canvas.addEventListener("focus", () => move(0, 0));
  canvas.addEventListener("blur", () => (at("cursor").hidden = true));
  document.addEventListener("keydown", key);
  const placed = readAddress();
  writeForms();
  at("version").textContent = (await begin()).version;
  await make(placed ? () => placedChips(placed) : null);
  isChanged = Boolean(placed);
}

start().catch((error) => say(`The board cannot begin: ${error.message}`, true));
