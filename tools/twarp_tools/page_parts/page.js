"use strict";

// The run as the tool `page` recorded it. A path stands by its number in run.paths, which has the nodes of each.
const run = JSON.parse(document.getElementById("run").textContent);

const ORIGIN = 0;
const RADIUS = 15;
const DOT = 6;
// The names of the edges of boxes.
const ACROSS = ["left", "right"];
const DOWN = ["top", "bottom"];
const STEP_MILLISECONDS = 700;
const ARROW_HEAD = 9;
const ARROW_INSET = RADIUS + 2;
// How far messages stay from the middle of the routers that they come from and go to.
const DOT_INSET = RADIUS + DOT + 2;
// How far from a link's middle line an arrow (to its right) and a message (to its left) stand, seen in its direction.
const ARROW_ASIDE = 5;
const DOT_ASIDE = -7;

const SVG = "http://www.w3.org/2000/svg";
const byId = (id) => document.getElementById(id);
const controls = Object.fromEntries(["time", "now", "router", "play", "whole", "messages", "zoom"].map((id) => [id, byId(id)]));
const points = new Map(run.routers.map((router) => [router.router, router]));
const view = { stop: 0, router: (run.routers[1] ?? run.routers[0]).router, zoom: 1 };

function add(parent, tag, attributes = {}, text = "") {
  const isDrawn = parent instanceof SVGElement;
  const element = isDrawn ? document.createElementNS(SVG, tag) : document.createElement(tag);
  for (const [name, value] of Object.entries(attributes)) element.setAttribute(name, value);
  element.append(text);
  parent.append(element);
  return element;
}

// What the run is at a time.

const pathWords = (path) => `(${run.paths[path].join(" ")})`;
const placeOf = (number) => run.places[Math.min(number, run.places.length - 1)];
const countOf = (number, word) => `${number} ${word}${number === 1 ? "" : "s"}`;

function apply(state, event) {
  state.counters = event.counters;
  if (event.rib !== undefined) state.rib = event.rib;
  if (event.order) state.order = event.order;
  if (event.barred) state.barred = event.barred;
  if (event.row) state.rows = state.rows.map((row) => (row[0] === event.row[0] ? event.row : row));
}

/** The state of each router in view, after all that happens at the time. */
function statesAt(time) {
  const states = new Map(run.routers.map(({ router, opening }) => [router, { ...opening }]));
  for (const event of run.events) {
    if (event.time > time) break;
    apply(states.get(event.router), event);
  }
  return states;
}

const messagesAt = (time) => run.messages.filter((message) => message.sent <= time && time < message.arrives);

function isDown([a, b], states) {
  return states.get(a).rows.some(([peer, , isUp]) => peer === b && !isUp);
}

// The network.

const network = byId("network");
network.setAttribute("viewBox", `0 0 ${run.width} ${run.height}`);
const LAYERS = ["wheel", "wires", "arrows", "delays", "dots", "routers"];
const layers = Object.fromEntries(LAYERS.map((name) => [name, add(network, "g")]));

/** Shows the network at its own size, with bars to scroll where it is larger than its pane, or as a whole. */
function sizeNetwork() {
  const isWhole = controls.whole.checked;
  network.style.width = isWhole ? "100%" : `${run.width}px`;
  network.style.maxHeight = isWhole ? "70vh" : "none";
}

/** How far a pane has to be scrolled, along an axis, to have a part of it in the middle; 0 where the part is seen. */
function wayTo(part, pane, [start, end], covered = 0) {
  const [inner, outer] = [part.getBoundingClientRect(), pane.getBoundingClientRect()];
  const least = outer[start] + covered;
  if (inner[start] >= least && inner[end] <= outer[end]) return 0;
  return (inner[start] + inner[end] - least - outer[end]) / 2;
}

/** The point of a link from a to b at a part of its way between their edges, moved aside. */
function along(a, b, part, aside, inset = RADIUS) {
  const [from, to] = [points.get(a), points.get(b)];
  const [x, y] = [to.x - from.x, to.y - from.y];
  const length = Math.hypot(x, y);
  const way = inset + part * (length - 2 * inset);
  return [from.x + (x * way - y * aside) / length, from.y + (y * way + x * aside) / length];
}

function writeDelay(a, b, part, delay) {
  const [x, y] = along(a, b, part, 0, 0);
  add(layers.delays, "text", { class: "delay", x, y: y + 4 }, delay.toLocaleString("en"));
}

function drawWire([a, b, delay, back, parts]) {
  const [from, to] = [points.get(a), points.get(b)];
  const line = add(layers.wires, "line", { class: "wire", x1: from.x, y1: from.y, x2: to.x, y2: to.y });
  const words = delay === back ? `delay ${delay}` : `delay ${delay} from ${a} and ${back} from ${b}`;
  add(line, "title", {}, `link ${a} ${b}, ${words}`);
  if (run.has_words) parts.forEach((part, place) => writeDelay(a, b, part, [delay, back][place]));
  return line;
}

function drawRouter({ router, x, y, words_y: wordsY, name }) {
  const group = add(layers.routers, "g", { class: "router", "data-router": router });
  const title = add(group, "title");
  add(group, "circle", { class: "ring", cx: x, cy: y, r: RADIUS + 4 });
  const side = 2 * RADIUS;
  const body =
    router === ORIGIN
      ? add(group, "rect", { class: "body", x: x - RADIUS, y: y - RADIUS, width: side, height: side, rx: 3 })
      : add(group, "circle", { class: "body", cx: x, cy: y, r: RADIUS });
  const number = add(group, "text", { x, y: y + 4 }, router);
  const words = run.has_words ? add(layers.routers, "text", { class: "words", x, y: wordsY + 4 }) : null;
  group.addEventListener("click", () => choose(router));
  return { group, title, body, number, words, name: `router ${router} ${name}`.trim() };
}

const wires = run.links.map(drawWire);
const drawn = new Map(run.routers.map((router) => [router.router, drawRouter(router)]));

// What holds for all timings, where the page has it: the paths that each router may still use, and a dispute wheel.

const left = new Map(run.policy ? run.routers.map(({ router }, place) => [router, run.policy.left[place]]) : []);

/** The paths that a router may still use, in words. */
function leftWords(router) {
  const words = left.get(router).map((path) => (path ? pathWords(path) : "no path"));
  return words.length === 1 ? `uses ${words[0]} in the end` : `may go on to use ${words.join(", ")}`;
}

/** A step of the wheel, from a to b: a band below the link with an arrow's head, or a dashed line for a spoke. */
function drawStep([a, b], look) {
  const head = 2 * ARROW_HEAD;
  const [from, to] = [points.get(a), points.get(b)];
  const neck = 1 - head / Math.max(2 * head, Math.hypot(to.x - from.x, to.y - from.y) - 2 * ARROW_INSET);
  const corners = look === "rim" ? [[0, -4], [neck, -4], [neck, -11], [1, 0], [neck, 11], [neck, 4], [0, 4]] : [[0, 0], [1, 0]];
  const places = corners.map(([part, aside]) => along(a, b, part, aside, ARROW_INSET));
  const d = `M${places.map(([x, y]) => `${x.toFixed(1)} ${y.toFixed(1)}`).join("L")}${look === "rim" ? "z" : ""}`;
  add(add(layers.wheel, "path", { class: look, d }), "title", {}, `the dispute wheel: a ${look === "rim" ? "step of its rim" : "spoke"}, from ${a} to ${b}`);
}

if (run.policy) {
  run.policy.spokes.forEach((step) => drawStep(step, "spoke"));
  run.policy.rim.forEach((step) => drawStep(step, "rim"));
  left.forEach((paths, router) => drawn.get(router).group.classList.toggle("choice", paths.length > 1));
}

function showRouter(router, state) {
  const { group, title, body, number, words, name } = drawn.get(router);
  const place = placeOf(state.order.indexOf(state.rib));
  group.classList.toggle("pathless", !state.rib);
  group.classList.toggle("chosen", router === view.router);
  body.style.fill = state.rib ? place.fill : "";
  number.style.fill = state.rib ? place.ink : "";
  title.textContent = state.rib ? `${name}: ${pathWords(state.rib)}, its ${place.name} path` : `${name}: no path`;
  if (words) words.textContent = state.rib ? pathWords(state.rib) : "no path";
}

/** The outline of an arrow beside a link from a to b, as points by their part of the way and how far aside they are. */
function arrowOutline(a, b) {
  const [from, to] = [points.get(a), points.get(b)];
  const length = Math.hypot(to.x - from.x, to.y - from.y) - 2 * ARROW_INSET;
  const neck = 1 - ARROW_HEAD / Math.max(2 * ARROW_HEAD, length);
  const asides = { left: ARROW_ASIDE - 1.5, right: ARROW_ASIDE + 1.5 };
  const head = [[neck, ARROW_ASIDE - 5], [1, ARROW_ASIDE], [neck, ARROW_ASIDE + 5]];
  return [[0, asides.left], [neck, asides.left], ...head, [neck, asides.right], [0, asides.right]];
}

/** The arrow of a path in use, to the next router. */
function showArrow(router, state) {
  const next = run.paths[state.rib][1];
  if (!points.has(next)) return;
  const corners = arrowOutline(router, next).map(([part, aside]) => along(router, next, part, aside, ARROW_INSET));
  const d = `M${corners.map(([x, y]) => `${x.toFixed(1)} ${y.toFixed(1)}`).join("L")}z`;
  const place = placeOf(state.order.indexOf(state.rib));
  const arrow = add(layers.arrows, "path", { class: "arrow", d, fill: place.fill });
  add(arrow, "title", {}, `router ${router} uses ${pathWords(state.rib)}`);
}

/** Messages by what they have in common: the link, its direction and when they were sent. */
function groups(messages) {
  const found = new Map();
  for (const message of messages) {
    const key = `${message.from} ${message.to} ${message.sent}`;
    found.set(key, [...(found.get(key) ?? []), message]);
  }
  return [...found.values()];
}

function showDot(messages, time) {
  const last = messages[messages.length - 1];
  const part = (time - last.sent) / (last.arrives - last.sent);
  const [x, y] = along(last.from, last.to, part, DOT_ASIDE, DOT_INSET);
  const look = ["dot", last.path ? "" : "withdrawal", last.is_dropped ? "lost" : ""].filter(Boolean).join(" ");
  const dot = add(layers.dots, "circle", { class: look, cx: x, cy: y, r: DOT });
  const words = messages.map(
    ({ from, to, sent, arrives, path, is_dropped }) =>
      `${from} to ${to}, sent ${sent}, arrives ${arrives}${is_dropped ? " and is dropped" : ""}: ${pathWords(path)}`,
  );
  add(dot, "title", {}, words.join("\n"));
  if (messages.length > 1) add(layers.dots, "text", { class: "count", x, y: y + 3 }, messages.length);
}

function showNetwork(time, states) {
  const messages = messagesAt(time);
  layers.arrows.replaceChildren();
  layers.dots.replaceChildren();
  states.forEach((state, router) => showRouter(router, state));
  states.forEach((state, router) => showArrow(router, state));
  if (controls.messages.checked) groups(messages).forEach((group) => showDot(group, time));
  const down = run.links.map((link) => isDown(link, states));
  wires.forEach((wire, place) => wire.classList.toggle("down", down[place]));
  const pathless = [...states.values()].filter((state) => !state.rib).length;
  byId("state").textContent = [
    countOf(messages.length, "message") + " under way",
    countOf(pathless, "router") + " without a path",
    countOf(down.filter(Boolean).length, "link") + " down",
  ].join(", ");
}

// The table of a router.

function addTable(parent, caption, heads, rows) {
  const table = add(parent, "table");
  add(table, "caption", {}, caption);
  const head = add(add(table, "thead"), "tr");
  heads.forEach((word) => add(head, "th", { scope: "col" }, word));
  const body = add(table, "tbody");
  for (const { look = "", cells } of rows) {
    const row = add(body, "tr", { class: look });
    cells.forEach((cell) => row.append(cell));
  }
}

function cell(words, look = "") {
  const made = document.createElement("td");
  made.className = look;
  made.append(words);
  return made;
}

function placeCell(number) {
  const { name, fill, ink } = placeOf(number);
  const isNamed = number < run.places.length - 1;
  const made = cell("");
  add(made, "span", { class: "place", style: `background:${fill};color:${ink}` }, isNamed ? name : number + 1);
  return made;
}

/** Whether a neighbour offers the rest of a path: whether the router heard it last. */
function isOffered(path, rows) {
  const [, ...rest] = run.paths[path];
  return rows.some(([, , , , heard]) => rest.length > 0 && run.paths[heard].join() === rest.join());
}

function pathRow(path, number, state) {
  const [isUsed, isBarred] = [path === state.rib, state.barred.includes(path)];
  const words = isUsed ? ["in use"] : isOffered(path, state.rows) ? ["offered"] : [];
  const now = [...words, ...(isBarred ? ["forbidden"] : [])].join(", ");
  const nodes = cell(pathWords(path), isBarred ? "nodes barred" : "nodes");
  const cells = [placeCell(number), nodes, cell(now)];
  if (run.policy) cells.push(cell(left.get(view.router).includes(path) ? "left" : ""));
  return { look: isUsed ? "used" : "", cells };
}

function peerRow([peer, delay, isUp, session, heard]) {
  const link = isUp ? "up" : "down";
  const cells = [peer, delay.toLocaleString("en"), link, session].map((word) => cell(String(word)));
  return { cells: [...cells, cell(heard ? pathWords(heard) : "no path", "nodes")] };
}

function showTable(time, state) {
  const table = byId("table");
  table.replaceChildren();
  const use = state.rib ? `uses ${pathWords(state.rib)}` : "has no path";
  const name = drawn.get(view.router).name;
  add(table, "p", {}, `At ${time.toLocaleString("en")} ${name} ${use}.`);
  const [sent, handled, dropped, changed] = state.counters;
  add(table, "p", {}, `sent ${sent}, handled ${handled}, dropped ${dropped}, changed ${changed}`);
  const paths = state.order.map((path, number) => pathRow(path, number, state));
  if (run.policy) add(table, "p", {}, `Whatever the delays it ${leftWords(view.router)}.`);
  addTable(table, "Permitted paths, the best first", ["Place", "Path", "Now", ...(run.policy ? ["All timings"] : [])], paths);
  addTable(table, "Neighbours", ["Router", "Delay", "Link", "Session", "Heard last"], state.rows.map(peerRow));
}

function showEvents(time) {
  const list = byId("events");
  list.replaceChildren();
  const events = run.events.filter((event) => event.time === time);
  events.forEach((event) => add(list, "li", {}, event.words));
  if (!events.length) add(list, "li", {}, "nothing");
  byId("events-title").textContent = `What happens at ${time.toLocaleString("en")}`;
}

// The timeline.

const timeline = byId("timeline");
const area = timeline.querySelector(".area");
const [cursor, later] = [area.querySelector(".cursor"), area.querySelector(".later")];
const [names, times] = [timeline.querySelector(".names"), timeline.querySelector(".times")];
const lanes = new Map([...names.querySelectorAll(".name")].map((name, place) => [run.routers[place].router, name]));

// The timeline is drawn wider or narrower from its left end on.

const { axis } = run;
const LEAST_ZOOM = 0.02;
// At most so many times as wide, or so many pixels a tick.
const GREATEST_ZOOM = Math.max(4, Math.min(64, 240 / axis.scale));
const zoomed = (x) => axis.left + (x - axis.left) * view.zoom;

/** Where a time stands in the timeline as it was made. */
function placeOfTime(time) {
  let [folded, widths] = [0, 0];
  for (const [start, end] of axis.folds) {
    const part = Math.max(0, Math.min(1, (time - start) / (end - start)));
    folded += part * (end - start);
    widths += part * axis.fold_width;
  }
  return axis.left + (time - axis.first - folded) * axis.scale + widths;
}

/** The least of 1, 2, 5, 10, 20, .. that is not below a number. */
function niceStep(least) {
  for (let power = 1; ; power *= 10) {
    const found = [1, 2, 5].find((factor) => factor * power >= least);
    if (found) return found * power;
  }
}

const numberOf = (element, name) => Number(element.getAttribute(name));

/** What moves along with the width: functions that put each thing where it belongs. */
function movers() {
  const isLoose = (element) => !element.closest("[data-at], defs, .grid, .cursor, .later");
  const moveLine = (line) => {
    const ends = ["x1", "x2"].map((name) => [name, numberOf(line, name)]);
    return () => ends.forEach(([name, x]) => line.setAttribute(name, zoomed(x)));
  };
  const moveBox = (box) => {
    const [x, width] = ["x", "width"].map((name) => numberOf(box, name));
    const text = box.parentElement.querySelector(":scope > text");
    const inset = text ? numberOf(text, "x") - x : 0;
    return () => {
      const room = width * view.zoom;
      box.setAttribute("x", zoomed(x));
      box.setAttribute("width", room);
      if (!text || box.parentElement === area) return;
      text.setAttribute("x", zoomed(x) + inset);
      text.style.display = axis.letter_width * text.textContent.length + 6 <= room ? "inline" : "none";
    };
  };
  const moveText = (text) => {
    const x = numberOf(text, "x");
    return () => text.setAttribute("x", zoomed(x));
  };
  const moveMark = (mark) => {
    const x = numberOf(mark, "data-at");
    return () => mark.setAttribute("transform", `translate(${zoomed(x) - x})`);
  };
  const all = (selector, move) => [...area.querySelectorAll(selector)].filter(isLoose).map(move);
  const marks = [...area.querySelectorAll("[data-at]")].map(moveMark);
  return [...all("line", moveLine), ...all("rect", moveBox), ...all(":scope > text", moveText), ...marks];
}

const moving = movers();
const grid = document.createElementNS(SVG, "g");
area.querySelectorAll(".grid").forEach((line) => line.remove());
area.insertBefore(grid, area.querySelector(".lane"));

/** Writes the times that have room, none within a fold. */
function drawTimes() {
  const room = axis.digit_width * (axis.last.toLocaleString("en").length + 1);
  const step = niceStep((room + 2 * axis.digit_width) / (axis.scale * view.zoom));
  let free = -Infinity;
  const ends = [axis.first, ...axis.folds.flat(), axis.last];
  grid.replaceChildren();
  times.replaceChildren();
  for (let place = 0; place < ends.length; place += 2) {
    for (let time = Math.ceil(ends[place] / step) * step; time <= ends[place + 1]; time += step) {
      const x = zoomed(placeOfTime(time));
      add(grid, "line", { class: "grid", x1: x, y1: axis.top, x2: x, y2: axis.bottom });
      if (x < free) continue;
      add(times, "text", { class: "quiet middle", x, y: axis.times }, time.toLocaleString("en"));
      free = x + room;
    }
  }
}

const widthAtFirst = numberOf(area, "width") - (axis.right - axis.left);

/** Draws the timeline so many times as wide; what is at an x of the window stays there, or else the time chosen. */
function zoomTo(factor, pointer = null) {
  const seen = pointer ?? cursor.getBoundingClientRect().left;
  const { x: left } = area.viewBox.baseVal;
  const time = (left + seen - area.getBoundingClientRect().left - axis.left) / view.zoom;
  view.zoom = Math.max(LEAST_ZOOM, Math.min(GREATEST_ZOOM, factor));
  const width = widthAtFirst + (axis.right - axis.left) * view.zoom;
  for (const picture of [area, times]) {
    const { x, y, height } = picture.viewBox.baseVal;
    picture.setAttribute("viewBox", `${x} ${y} ${width} ${height}`);
    picture.setAttribute("width", width);
  }
  moving.forEach((move) => move());
  drawTimes();
  timeline.classList.toggle("narrow", view.zoom < 1);
  controls.zoom.textContent = `${Number((100 * view.zoom).toPrecision(3))} %`;
  showCursor(zoomed(run.xs[view.stop]));
  timeline.scrollLeft += area.getBoundingClientRect().left + axis.left + time * view.zoom - left - seen;
}

/** Draws the timeline as wide as its pane. */
function zoomToFit() {
  zoomTo((timeline.clientWidth - names.clientWidth - widthAtFirst) / (axis.right - axis.left));
}

const ZOOM_KEYS = { "+": 2, "=": 2, "-": 0.5 };

function zoomByKey(press) {
  const factor = ZOOM_KEYS[press.key];
  if (factor && !press.ctrlKey && !press.metaKey) zoomTo(view.zoom * factor);
}

function zoomByWheel(turn) {
  if (!turn.ctrlKey) return;
  turn.preventDefault();
  zoomTo(view.zoom * 2 ** (-turn.deltaY / 200), turn.clientX);
}

function showCursor(x) {
  cursor.setAttribute("x1", x);
  cursor.setAttribute("x2", x);
  const { x: left, width } = area.viewBox.baseVal;
  later.setAttribute("x", x);
  later.setAttribute("width", Math.max(0, left + width - x));
  timeline.scrollLeft += wayTo(cursor, timeline, ACROSS, names.clientWidth);
}

/** Goes to the time nearest to where the timeline was clicked. */
function goToClick(click) {
  const { x: left } = area.viewBox.baseVal;
  const x = left + click.clientX - area.getBoundingClientRect().left;
  const distances = run.xs.map((place) => Math.abs(zoomed(place) - x));
  goTo(distances.indexOf(Math.min(...distances)));
}

// All together.

function show() {
  const time = run.stops[view.stop];
  const words = `time ${time.toLocaleString("en")}`;
  const states = statesAt(time);
  controls.time.value = view.stop;
  controls.time.setAttribute("aria-valuetext", words);
  controls.now.textContent = time.toLocaleString("en");
  controls.router.value = view.router;
  showNetwork(time, states);
  showTable(time, states.get(view.router));
  showEvents(time);
  showCursor(zoomed(run.xs[view.stop]));
}

function goTo(stop) {
  view.stop = Math.max(0, Math.min(stop, run.stops.length - 1));
  show();
}

/** Shows a router's table, and the router in the network and in the timeline. */
function choose(router) {
  view.router = router;
  show();
  const pane = network.parentElement;
  const { group } = drawn.get(router);
  pane.scrollLeft += wayTo(group, pane, ACROSS);
  pane.scrollTop += wayTo(group, pane, DOWN);
  lanes.forEach((name, lane) => name.classList.toggle("chosen", lane === router));
  timeline.scrollTop += wayTo(lanes.get(router), timeline, DOWN, times.clientHeight);
}

/** Shows messages in both pictures, or in none. */
function showMessages() {
  timeline.classList.toggle("bare", !controls.messages.checked);
  show();
}

let timer = null;

function stopPlaying() {
  clearInterval(timer);
  timer = null;
  controls.play.textContent = "Play";
}

function playOn() {
  goTo(view.stop + 1);
  if (view.stop === run.stops.length - 1) stopPlaying();
}

function play() {
  if (timer !== null) return stopPlaying();
  if (view.stop === run.stops.length - 1) goTo(0);
  timer = setInterval(playOn, STEP_MILLISECONDS);
  controls.play.textContent = "Pause";
}

for (const { router, name } of run.routers) {
  add(controls.router, "option", { value: router }, `${router} ${name}`.trim());
}
controls.time.addEventListener("input", () => goTo(Number(controls.time.value)));
controls.router.addEventListener("change", () => choose(Number(controls.router.value)));
byId("earlier").addEventListener("click", () => goTo(view.stop - 1));
byId("later").addEventListener("click", () => goTo(view.stop + 1));
controls.play.addEventListener("click", play);
area.addEventListener("click", goToClick);
lanes.forEach((name, router) => name.addEventListener("click", () => choose(router)));
controls.whole.addEventListener("change", sizeNetwork);
controls.messages.addEventListener("change", showMessages);
byId("narrower").addEventListener("click", () => zoomTo(view.zoom / 2));
byId("wider").addEventListener("click", () => zoomTo(view.zoom * 2));
byId("fit").addEventListener("click", zoomToFit);
timeline.addEventListener("keydown", zoomByKey);
timeline.addEventListener("wheel", zoomByWheel, { passive: false });
sizeNetwork();
zoomTo(1);
choose(view.router);
