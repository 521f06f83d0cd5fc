// The script of the page. Names and lines come from files and from the network, so they are only ever put in as text.
"use strict";

const PAUSE = 500, SILENT = 40000, AGAIN = 5000; // milliseconds to an ask that a version causes, without a sign of life, and to another try
const MOST_SVG = 200; // routers that are drawn as SVG; more are drawn on a canvas
const MOST_ROWS = 200, MOST_NAMES = 2000, MOST_VERSIONS = 50, MOST_PAST = 40; // in the table, the form, the changes, and a history
const LAYERS = ["links", "arrows", "routes", "ends", "routers", "names"], SHAPES = ["svg", "g", "path", "text"];

const at = id => document.getElementById(id), [frame, form] = [at("frame"), at("form")];
const emptyNetwork = () => ({ version: null, at: 0, links: new Map(), marks: new Set(), routers: new Set() });
const network = emptyNetwork(), pins = new Map(), past = new Map(), out = new Map(); // `past` has older histories, `out` what is taken out
const view = { scale: 1, x: 0, y: 0 }, curves = new Map(), drawAsk = () => [answer];
let token = document.querySelector("meta[name=token]").content, page = { names: {}, groups: {} }, versions = [], older = null;
let picture = null, root = null, asked = null, answer = null, effects = null; // `asked` has the words of the last ask
let drawn = drawAsk, dragged = 0, heard = 0, lostAt = null; // whose routes are drawn; pixels of a drag; times of signs of life

// ---- elements
function set(element, attributes) {
  for (const [name, value] of Object.entries(attributes)) {
    if (typeof value === "function") element.addEventListener(name, value);
    else if (element.getAttribute(name) !== String(value)) element.setAttribute(name, value);
  }
  return element;
}

/** A new element. A child that is text stays text. */
function make(tag, attributes = {}, ...children) {
  const made = SHAPES.includes(tag) ? document.createElementNS("http://www.w3.org/2000/svg", tag) : document.createElement(tag);
  made.append(...children);
  return set(made, attributes);
}

/** Makes the children of an element those of a list, by their keys; those that are there already stay as they are. */
function sync(parent, items, keyOf, makeOne) {
  const there = new Map([...parent.children].map(child => [child.dataset.key, child]));
  let next = parent.firstElementChild;
  for (const item of items) {
    const key = String(keyOf(item)), child = there.get(key) || makeOne(item);
    child.dataset.key = key;
    there.delete(key);
    if (child === next) next = next.nextElementSibling;
    else parent.insertBefore(child, next);
  }
  for (const child of there.values()) child.remove();
}

function say(id, words, isBad = false) {
  if (at(id).textContent !== words) at(id).textContent = words;
  at(id).classList.toggle("bad", isBad);
}

const button = (words, click) => make("button", { type: "button", click }, words);
const fill = (body, rows) => sync(body, rows, JSON.stringify, cells => make("tr", {}, ...cells.map(cell => make("td", {}, cell))));

// ---- the network
/** Makes the changes of rows, as they are in the journal. */
function change(net, { version, at, rows }) {
  for (const row of rows) {
    const [kind, router, local, neighbor, remote, metric, group, ...free] = row.split(","), key = `${router} ${local}`;
    const link = { key, back: `${neighbor} ${remote}`, router, local, neighbor, remote, metric, group: Number(group), free };
    if (kind === "put") net.links.set(key, link);
    else if (kind === "drop") net.links.delete(key);
    else if (local === "0") net.marks.add(router);
    else net.marks.delete(router);
  }
  net.routers = new Set([...net.links.values()].flatMap(link => [link.router, link.neighbor]));
  return Object.assign(net, { version, at });
}

const shown = () => older || network;
const reverse = link => [shown().links.get(link.back)].find(back => back?.back === link.key); // the other direction, if it is there
const groupsIn = net => [...new Set([...net.links.values()].map(link => link.group))].sort((one, other) => one - other);
const stylesIn = net => groupsIn(net).map((group, place) => [group, picture.look.groups[place % picture.look.groups.length]]);
const priority = () => Number(form.elements.setup.value);
const mostFree = (net, setup) => [...net.links.values()].reduce((most, link) => Math.max(most, Number(link.free[setup])), 0);

// ---- words
const nameOf = router => page.names[router] || router;
const named = router => `\u2068${nameOf(router)}\u2069`; // apart, so that a name of another script doesn't turn the words beside it round
const addressOf = text => Object.keys(page.names).find(address => page.names[address] === text.trim()) || text.trim();
const links = count => `${count.toLocaleString("en")} ${count === 1 ? "link" : "links"}`;
const outcome = entry => entry.outcome === "route" ? `cost ${entry.cost}, ${links(entry.links.length)}` : entry.outcome;
const passed = (keys, tail) => [...keys.map(key => key.split(" ")[0]), ...(keys.length ? [tail] : [])].map(named).join(", ");
const clock = seconds => new Date(seconds * 1000).toLocaleString("sv");
const ends = ({ head, tail, bandwidth }) => `${named(head)} to ${named(tail)}${bandwidth === "0" ? "" : `, ${bandwidth}`}`;

function rate(bytes) { // as bits per second, by the greatest unit that has them in three decimals
  const bits = BigInt(bytes) * 8000n, units = [["G", 10n ** 9n], ["M", 10n ** 6n], ["k", 1000n]];
  const [unit, size] = units.find(([, it]) => bits >= it * 1000n && bits % it === 0n) || units[2];
  return bits ? `${bits / size / 1000n}.${String(bits / size % 1000n).padStart(3, "0")}`.replace(/\.?0+$/, "") + unit : "0";
}

function groupsOf(mask) {
  const bits = [...Array(32).keys()].filter(bit => Math.floor(mask / 2 ** bit) % 2);
  return bits.map(bit => Object.keys(page.groups).find(name => page.groups[name] === bit) || String(bit)).join(", ") || "none";
}

function linkWords({ key, local, remote, metric, group, free }, reasons) {
  const words = `${local} to ${remote}: metric ${metric}, groups ${groupsOf(group)}, ${rate(free[priority()])} unreserved`;
  return reasons.has(key) ? `${words}\nmay not be used: ${reasons.get(key)}` : words;
}

/** The routes that are drawn, the reasons of links that the request may not use, and what is out; none of these in an older version. */
function overlay() {
  const [now, before] = older ? [] : drawn(), isAsk = drawn === drawAsk && !older, isSame = String(before?.links) === String(now?.links);
  const routes = [[now, 0, isAsk ? "route" : "now"], [isSame ? null : before, 4, "before"]].filter(([entry]) => entry?.links.length)
    .map(([entry, style, words]) => ({ keys: entry.links, style: picture?.look.routes[style], words: `${words}: ${outcome(entry)}` }));
  const reasons = Object.entries(isAsk && answer?.why || {}).flatMap(([reason, keys]) => keys.map(key => [key, reason]));
  const worst = ["lost", "longer"].find(effect => effects?.pins.some(it => it.effect === effect)) || "none";
  return { routes, reasons: new Map(reasons), gone: new Set(older ? [] : effects?.out), effect: picture?.look.effects[worst] };
}

// ---- curves: a start, a control point and an end
const number = ([x, y]) => `${x.toFixed(1)} ${y.toFixed(1)}`;
const between = (one, other, part) => [one[0] + (other[0] - one[0]) * part, one[1] + (other[1] - one[1]) * part];
const point = ([from, by, to], part) => between(between(from, by, part), between(by, to, part), part);
const half = curve => [curve[0], between(curve[0], curve[1], 0.5), point(curve, 0.5)];
const path = ([from, by, to], verb = "M") => `${verb}${number(from)}Q${number(by)} ${number(to)}`;
const bound = (least, value, most) => Math.max(least, Math.min(value, most));
const cross = ([x, y], far) => `M${number([x - far, y - far])}l${2 * far} ${2 * far}m0 ${-2 * far}l${-2 * far} ${2 * far}`;
const circle = ([x, y], far) => `M${number([x - far, y])}a${far} ${far} 0 1 0 ${2 * far} 0a${far} ${far} 0 1 0 ${-2 * far} 0z`;
const square = ([x, y], far) => `M${number([x - far, y - far])}h${2 * far}v${2 * far}h${-2 * far}z${cross([x, y], far)}`;
const diamond = ([x, y], far) => `M${number([x, y - far])}l${far} ${far}l${-far} ${far}l${-far} ${-far}z`;
const onFrame = ([x, y]) => [x * view.scale + view.x, y * view.scale + view.y];

function arrow(curve, part, size) {
  const [x, y] = point(curve, part), [toX, toY] = point(curve, part + 0.01), angle = Math.atan2(toY - y, toX - x);
  const corners = [0, 2.5, -2.5].map(turn => [x + size * Math.cos(angle + turn), y + size * Math.sin(angle + turn)]);
  return `M${corners.map(number).join("L")}z`;
}

function aside(curve, far) {
  const [[x, y], , [toX, toY]] = curve, length = Math.hypot(toX - x, toY - y) || 1;
  return curve.map(it => [it[0] - far * (toY - y) / length, it[1] + far * (toX - x) / length]);
}

/** The curves of the links between the picture's routers. A circuit that is newer than the picture bends a little. */
function layCurves() {
  const { routers, circuits } = picture, bent = (from, to, far) => aside([from, between(from, to, 0.5), to], far)[1];
  curves.clear();
  for (const { key, back, router, neighbor } of shown().links.values()) {
    const from = routers[router], to = routers[neighbor], known = circuits[`${key} ${back}`] || circuits[`${back} ${key}`];
    if (from && to) curves.set(key, [from, known || bent(from, to, router < neighbor ? 30 : -30), to]);
  }
}

const wayOf = (curve, link) => reverse(link) ? half(curve) : curve; // a circuit's half at its router, or all of a link of one way

// ---- the picture as shapes: layers, keys and attributes
const shape = (layer, key, d, { stroke = "none", width = 1, dash = "", opacity = 1, fill = "none", state = "" }) =>
  ({ layer, key, state, attributes: { d, stroke, "stroke-width": width, "stroke-dasharray": dash || "none", opacity, fill } });

function* linkShapes({ routes, reasons, gone, effect }) {
  const { look } = picture, net = shown(), styles = new Map(stylesIn(net));
  const setup = priority(), most = mostFree(net, setup), size = bound(0.6 * look.size, look.size * view.scale, 1);
  for (const [key, curve] of curves) {
    const link = net.links.get(key), way = wayOf(curve, link).map(onFrame), free = Number(link.free[setup]);
    const width = ((look.thinnest + (look.widest - look.thinnest) * Math.sqrt(most && free / most)) * size).toFixed(1);
    let style = { ...styles.get(link.group), width, opacity: routes.length || reasons.size ? 0.6 : 1 };
    if (!free) style.dash = "1 5";
    if (gone.has(key)) style = { ...effect, width: effect.width * size, state: "out" };
    else if (reasons.has(key)) style = { ...style, width: size, dash: "", opacity: 0.5, state: reasons.get(key) };
    yield shape("links", key, path(way) + (style.state && look.size === 1 ? cross(point(way, 0.5), 4) : ""), style);
    if (!reverse(link)) yield shape("arrows", key, arrow(way, 0.7, 11 * bound(0.4, size, 1)), { fill: "#222", stroke: "#fff" });
  }
}

/** Each route beside its circuits, with an arrow on each link, a ring where it begins and a diamond where it ends. */
function* routeShapes({ routes }) {
  for (const [place, { keys, style }] of routes.entries()) {
    const known = keys.filter(key => curves.has(key)).map(key => curves.get(key).map(onFrame));
    const ways = known.map(way => aside(way, (6.5 + 5 * place) * bound(0.7, view.scale, 1)));
    const d = ways.map((way, turn) => path(way, turn ? "L" : "M")).join("");
    if (!ways.length) continue;
    yield shape("arrows", `under ${place}`, d, { stroke: "#fff", width: 6 });
    yield shape("routes", `route ${place}`, d, style);
    yield shape("routes", `arrows ${place}`, ways.map(way => arrow(way, 0.55, 7)).join(""), { fill: style.stroke });
    yield shape("ends", `head ${place}`, circle(known[0][0], 10 + 4 * place), style);
    yield shape("ends", `tail ${place}`, diamond(known.at(-1)[2], 14 + 4 * place), style);
  }
}

function* routerShapes({ marks, routers } = shown()) {
  for (const [router, [x, y, radius]] of Object.entries(picture.routers)) {
    const size = bound(2.5, radius * view.scale, 6), state = !routers.has(router) ? "absent" : marks.has(router) ? "marked" : "";
    const style = state === "absent" ? { stroke: "#888", dash: "2 3" } : { stroke: "#000", width: Math.min(2, size / 3) };
    yield shape("routers", router, (state === "marked" ? square : circle)(onFrame([x, y]), size), { ...style, fill: "#fff", state });
  }
}

/** The names that have room, at a size that can be read: where the layout has put them, else beside their routers. */
function* nameShapes() {
  const { look, routers, names } = picture, [wide, high] = [frame.clientWidth, frame.clientHeight], isLarge = look.size < 1;
  const font = bound(11, look.text * view.scale, look.text), part = font / look.text;
  const boxes = isLarge ? [] : Object.values(routers).map(it => [...onFrame(it), 5, 5]); // their middles, and half their widths and heights
  for (const [router, [nameX, nameY, text, width, isPlaced]] of Object.entries(names)) {
    const [x, y] = onFrame(routers[router]), [ownX, ownY] = routers[router], half = width * part / 2;
    if (x < 0 || x > wide || y < 0 || y > high || isLarge && !isPlaced && view.scale <= 1) continue;
    const beside = [[(nameX - ownX) * part, (nameY - ownY) * part], [0, -9], [half + 10, 4], [-half - 10, 4], [0, font + 8]];
    const spots = beside.map(([right, down]) => [bound(half + 2, x + right, wide - half - 2), y + down - 0.35 * font, half, 0.6 * font]);
    const spot = spots.find(it => boxes.every(box => [0, 1].some(axis => Math.abs(it[axis] - box[axis]) >= it[axis + 2] + box[axis + 2])));
    if (!spot) continue;
    boxes.push(spot);
    const attributes = { x: spot[0], y: spot[1] + 0.35 * font, "font-size": font, fill: shown().routers.has(router) ? "#000" : "#777" };
    yield { layer: "names", key: router, text, attributes };
  }
}

function paint(over) {
  const shapes = [...linkShapes(over), ...routeShapes(over), ...routerShapes(), ...nameShapes()];
  for (const layer of LAYERS) (root.getContext ? paintCanvas : paintSvg)(layer, shapes.filter(it => it.layer === layer));
}

function paintSvg(layer, shapes) {
  const parent = root.querySelector(`.${layer}`) || root.appendChild(make("g", { class: layer }));
  sync(parent, shapes, it => it.key, it => make(it.text ? "text" : "path", {}, it.text || ""));
  shapes.forEach(({ attributes, state = "" }, place) => set(parent.children[place], { ...attributes, "data-state": state }));
}

function paintCanvas(layer, shapes) {
  const context = root.getContext("2d"), sharp = window.devicePixelRatio;
  if (layer === LAYERS[0]) Object.assign(root, { width: root.clientWidth * sharp, height: root.clientHeight * sharp });
  context.setTransform(sharp, 0, 0, sharp, 0, 0);
  for (const { text, attributes: it } of shapes) {
    const what = text ? [text, it.x, it.y] : [new Path2D(it.d)], dash = it["stroke-dasharray"] || "none";
    const font = `${it["font-size"] || 9}px ${picture.look.font}`, lineWidth = it["stroke-width"] || 3, globalAlpha = it.opacity ?? 1;
    Object.assign(context, { font, lineWidth, globalAlpha, textAlign: "center", strokeStyle: it.stroke || "#fff", fillStyle: it.fill });
    context.setLineDash(dash === "none" ? [] : dash.split(" ").map(Number));
    if (it.stroke !== "none") text ? context.strokeText(...what) : context.stroke(...what);
    if (it.fill !== "none") text ? context.fillText(...what) : context.fill(...what);
  }
}

// ---- what is shown round the picture
const changed = (isAll = true) => { show.isAll ||= isAll; show.due ??= requestAnimationFrame(show); };

function show() { // all that has changed, or the picture alone, once before the browser's next frame
  const net = shown(), over = overlay(), { size } = net.routers, { isAll } = show;
  [show.due, show.isAll] = [null, false];
  if (picture) { if (isAll) layCurves(); paint(over); }
  if (!isAll) return;
  say("version", String(net.version ?? "–"));
  say("counts", net.at ? `of ${clock(net.at)}: ${size} routers, ${links(net.links.size)}, ${net.marks.size} without transit` : "");
  say("then", older ? `This is version ${older.version}. The newest is version ${network.version}.` : "");
  if (picture) showLegend(net, over);
  if (at("table").open) showTable(net, over);
  showPins();
  showOut();
}

function showLegend(net, { routes, reasons, gone, effect }) {
  const notes = stylesIn(net).map(([group, style]) => [style, group ? `groups ${groupsOf(group)}` : "no group"]);
  const widest = `widest: ${rate(mostFree(net, priority()))} unreserved at priority ${priority()}; dotted: none`;
  notes.push([{ stroke: "#444", width: picture.look.widest }, widest], ...routes.map(({ style, words }) => [style, words]));
  if (reasons.size) notes.push([{ stroke: "#444" }, "thin, with a cross in a small network: the request may not use it"]);
  if (gone.size) notes.push([effect, `taken out: ${effect.words}`]);
  sync(at("legend"), notes, JSON.stringify, ([style, words]) =>
    make("li", {}, make("svg", {}, make("path", shape("", "", "M2 9h40", style).attributes)), words));
}

function showTable(net, { reasons }) {
  const wanted = at("filter").value.trim().toLowerCase(), otherwise = answer && !older ? "may be used" : "";
  const rows = [...net.links.values()].map(link => [nameOf(link.router), link.local, nameOf(link.neighbor), link.metric,
    groupsOf(link.group), rate(link.free[priority()]), reasons.get(link.key) || otherwise])
    .filter(cells => cells.join("\n").toLowerCase().includes(wanted));
  say("found", rows.length > MOST_ROWS ? `the first ${MOST_ROWS} of ${links(rows.length)}` : links(rows.length));
  fill(at("links"), rows.slice(0, MOST_ROWS));
}

const place = (scale, x, y) => { Object.assign(view, { scale, x, y }); changed(false); };
const move = (x, y) => place(view.scale, view.x + x, view.y + y);

function zoom(by, x = frame.clientWidth / 2, y = frame.clientHeight / 2) {
  const scale = bound(0.1, view.scale * by, 20), part = scale / view.scale;
  place(scale, x - (x - view.x) * part, y - (y - view.y) * part);
}

function fit({ wide, high } = picture) {
  Object.assign(view, { width: frame.clientWidth, wide, high });
  frame.style.height = `${Math.round(bound(240, frame.clientWidth * high / wide, 0.78 * innerHeight))}px`;
  const scale = Math.min(frame.clientWidth / wide, frame.clientHeight / high, 2);
  place(scale, (frame.clientWidth - wide * scale) / 2, (frame.clientHeight - high * scale) / 2);
}

function hit(...here) { // the router at a point of the frame, else the link
  const far = place => Math.hypot(...onFrame(place).map((it, axis) => it - here[axis])), near = 9;
  const router = Object.keys(picture.routers).find(it => far(picture.routers[it]) < near);
  let [nearest, link] = [near, null];
  for (const [key, curve] of router ? [] : curves) {
    const way = wayOf(curve, shown().links.get(key)), ends = way.map(onFrame);
    const isFar = [0, 1].some(axis => ends.every(it => it[axis] > here[axis] + near) || ends.every(it => it[axis] < here[axis] - near));
    const least = isFar ? near : Math.min(...Array.from({ length: 41 }, (_, step) => far(point(way, step / 40))));
    if (least < nearest) [nearest, link] = [least, key];
  }
  return { router, link };
}

function tell({ router, link: key }, x, y) {
  const tip = at("tip"), net = shown(), { reasons } = overlay(), link = net.links.get(key), back = link && reverse(link);
  const ofRouter = [named(router), router, !net.routers.has(router) && "not in this version", net.marks.has(router) && "no transit"];
  const ofLink = link && [`${named(link.router)} – ${named(link.neighbor)}`, !back && "one way", linkWords(link, reasons),
    back && linkWords(back, reasons)];
  tip.textContent = (router ? ofRouter : ofLink || []).filter(Boolean).join("\n");
  tip.style.left = `${bound(0, x + 14, frame.clientWidth - tip.offsetWidth - 2)}px`;
  tip.style.top = `${y + 18 + tip.offsetHeight < frame.clientHeight ? y + 18 : Math.max(0, y - tip.offsetHeight - 12)}px`;
}

function choose({ router, link }) { // the head-end, then the tail-end, which asks; or what is taken out
  const { head, tail } = form.elements;
  if (at("clicks").checked && (router || link)) toggle(router ? "router" : "circuit", router || link);
  else if (router && (!head.value || tail.value)) [head.value, tail.value] = [nameOf(router), ""];
  else if (router && addressOf(head.value) !== router) { tail.value = nameOf(router); form.requestSubmit(); }
}

const KEYS = { "+": () => zoom(1.4), "-": () => zoom(1 / 1.4), 0: fit, ArrowUp: () => move(0, 60), ArrowDown: () => move(0, -60),
  ArrowLeft: () => move(60, 0), ArrowRight: () => move(-60, 0) };
const POINTER = {
  pointerdown() { dragged = 0; },
  pointermove(event, ...here) {
    if (event.buttons) dragged += Math.hypot(event.movementX, event.movementY);
    if (event.buttons && dragged > 4) move(event.movementX, event.movementY);
    else tell(hit(...here), ...here);
  },
  pointerleave() { tell({}, 0, 0); },
  click(event, ...here) { if (dragged <= 4) choose(hit(...here)); },
  wheel(event, ...here) { if (event.ctrlKey) { event.preventDefault(); zoom(1.2 ** Math.sign(-event.deltaY), ...here); } },
  keydown(event) { if (KEYS[event.key] && !event.ctrlKey && !event.altKey) { event.preventDefault(); KEYS[event.key](); } },
};

// ---- asks
async function get(path, words) { // a refusal is raised as an error with its words
  const reply = await fetch(`${path}?${new URLSearchParams([["token", token], ...words])}`).catch(() => null);
  const told = await reply?.json().catch(() => null);
  if (reply?.ok && told) return told;
  throw new Error(told?.refused || (reply ? `the page's server says ${reply.status}` : "no connection to the page's server"));
}

const attempt = (id, call) => call().catch(fault => say(id, fault.message, true)).finally(changed);
const draw = what => { [drawn, older] = [what, null]; changed(); };
const wordsOf = () => [...new FormData(form)].filter(([, value]) => value.trim());

/** Asks for a route. The reply of an ask that isn't the last one is dropped. */
const ask = words => attempt("said", async () => {
  const isNew = asked !== words;
  asked = words;
  const found = await get("ask", words);
  if (words !== asked) return;
  answer = found;
  if (isNew) { draw(drawAsk); say("why", ""); }
  if (isNew && found.outcome !== "route") explain();
  showReply();
});

const explain = () => attempt("said", async () => {
  const { version, lines } = await get("why", asked);
  say("why", [`on version ${version}`, ...lines].join("\n"));
});

function showReply() {
  const known = answer?.links.map(key => network.links.get(key)).filter(Boolean) || [], setup = answer?.form.setup;
  say("said", answer ? `${outcome(answer)}, on version ${answer.version}` : "");
  for (const id of ["row", "line"]) say(id, answer?.[id] || "");
  say("barred", Object.entries(answer?.why || {}).map(([reason, keys]) => `${reason}: ${links(keys.length)}`).join(", "));
  fill(at("route"), known.map(it => [nameOf(it.router), it.local, nameOf(it.neighbor), it.metric, rate(it.free[setup])]));
}

// ---- pinned asks, and what is without some parts
function historyOf(id) { // what a pinned ask was answered, also before the page connected again
  const now = pins.get(id)?.history || [], before = (past.get(id) || []).filter(it => it.since < (now[0]?.since ?? Infinity));
  const same = it => it && `${it.outcome} ${it.cost} ${it.links}`;
  return [...before, ...now.slice(same(before.at(-1)) === same(now[0]) ? 1 : 0)].slice(-MOST_PAST);
}

const pin = async words => (await get("pin", [["page", page.page], ...words])).pin;
const unpin = id => get("unpin", [["page", page.page], ["pin", id]]).then(() => pins.delete(id));
const drawUpTo = (id, since) => draw(() => historyOf(id).filter(it => it.since <= since).slice(-2).reverse());
const drawEffect = id => draw(() => (found => [found?.after, found?.before])(effects?.pins.find(it => it.pin === id)));

function showPins() {
  sync(at("pins"), pins.keys(), id => id, id => make("li", {}, make("b"), make("code"), make("p", { role: "status" }),
    button("Show", () => drawUpTo(id, Infinity)), " ", button("Remove", () => attempt("said", () => unpin(id))),
    make("details", {}, make("summary"), make("ol"))));
  for (const [place, [id, { form, row }]] of [...pins].entries()) {
    const item = at("pins").children[place], history = historyOf(id), now = history.at(-1), [title, code, words] = item.children;
    [title.textContent, code.textContent, words.textContent] = [ends(form), row, `${outcome(now)}, since version ${now.since}`];
    item.querySelector("summary").textContent = `History (${history.length})`;
    sync(item.querySelector("ol"), history.toReversed(), entry => entry.since, entry => make("li", {},
      `Version ${entry.since}, ${clock(entry.at)}: ${outcome(entry)}. ${passed(entry.links, form.tail)} `,
      button("Compare", () => drawUpTo(id, entry.since))));
  }
}

function toggle(kind, key) {
  const { back } = network.links.get(key) || {}, name = out.has(back) ? back : key; // a circuit has the key of either link
  if (!out.delete(name)) out.set(name, [kind, name]);
  suppose();
}

const suppose = () => attempt("whatif", async () => {
  effects = await get("whatif", [["page", page.page], ...out.values()]).catch(fault => { effects = null; throw fault; });
  const { version, pins: found, out: keys } = effects, touched = found.filter(it => it.effect !== "same");
  if (touched.length) drawEffect(touched[0].pin);
  say("whatif", out.size ? `Version ${version} without ${links(keys.length)}: ${touched.length} of ${found.length} pins differ.` : "");
});

function showOut() {
  sync(at("out"), out.values(), it => it, ([kind, key]) => {
    const link = network.links.get(key), words = link ? `${named(link.router)} – ${named(link.neighbor)} (${link.local})` : named(key);
    return make("li", {}, `${words} `, button("Put back", () => toggle(kind, key)));
  });
  sync(at("effects"), out.size ? effects?.pins || [] : [], JSON.stringify, ({ pin: id, effect, before, after }) => make("li", {},
    make("b", { class: effect }, effect), ` ${ends(pins.get(id).form)}: ${outcome(before)}; then ${outcome(after)} `,
    button("Show", () => drawEffect(id))));
}

function takeOut() {
  const text = at("part").value.trim(), link = [...network.links.values()].find(it => [it.key, it.local].includes(text));
  if (network.routers.has(addressOf(text))) toggle("router", addressOf(text));
  else if (link) toggle("circuit", link.key);
  else say("whatif", "The network has no such router or link.", true);
}

// ---- versions and events
function showVersions() {
  sync(at("changes"), versions.toReversed(), it => it.version, ({ version, at: when, words }) => make("li", {},
    button(`Version ${version}`, () => showVersion(version)), ` ${clock(when)}`, make("ul", {}, ...words.map(it => make("li", {}, it)))));
}

const showVersion = version => attempt("said", async () => {
  older = version === network.version ? null : change(emptyNetwork(), await get("at", [["version", version]]));
});
const lost = () => say("state", `no connection since ${clock((lostAt ??= Date.now()) / 1000)}`, true);
const askAgain = () => { askAgain.due = null; if (asked) ask(asked); if (out.size) suppose(); };
const EVENTS = {
  hello(told) {
    [page, lostAt] = [told, null];
    sync(at("routers"), Object.values(page.names).slice(0, MOST_NAMES), name => name, value => make("option", { value }));
    const before = [...pins].map(([id, { form }]) => [Object.entries(form), historyOf(id)]);
    for (const it of [pins, past]) it.clear();
    for (const [words, history] of before) attempt("said", async () => past.set(await pin(words), history));
    say("state", "live");
  },
  server(told) { say("server", told.words, !told.there || !told.journal); },
  network(told) {
    if (told.version < network.version) past.clear(); // the server has begun again, with version 1
    EVENTS.version(told, Object.assign(network, emptyNetwork()));
  },
  version(told) {
    change(network, told);
    versions = [...versions, ...told.words ? [told] : []].slice(-MOST_VERSIONS);
    showVersions();
    if (answer) say("said", `Version ${network.version} is newer than this reply: asking again`);
    askAgain.due ??= setTimeout(askAgain, PAUSE); // however many versions come until then
  },
  changes(told) { versions = told.versions; showVersions(); },
  picture(told) {
    root?.remove();
    [picture, root] = [told, make(Object.keys(told.routers).length > MOST_SVG ? "canvas" : "svg", { "aria-hidden": true })];
    frame.prepend(root);
    if (view.wide !== told.wide || view.high !== told.high) fit(); // else the view stays as it is
  },
  pin(told) { pins.set(told.pin, told); },
  here() { heard = Date.now(); },
};

/** Follows the events. EventSource connects again by itself; where it gives up, the page has begun again, with another token. */
function follow() {
  const source = new EventSource(`events?token=${token}`);
  for (const [name, call] of Object.entries(EVENTS)) {
    source.addEventListener(name, event => { call(JSON.parse(event.data)); changed(); });
  }
  source.onerror = () => { lost(); if (source.readyState === EventSource.CLOSED) setTimeout(renew, AGAIN); };
  const watch = setInterval(() => {
    if (heard && Date.now() - heard > SILENT) { lost(); source.close(); heard = 0; follow(); }
    if (source.readyState === EventSource.CLOSED) clearInterval(watch);
  }, 1000);
}

async function renew() {
  const text = await fetch(".").then(reply => reply.text()).catch(() => "");
  token = text.match(/name="token" content="([0-9a-f]+)"/)?.[1] || token;
  follow();
}

const CLICKS = {
  larger: () => zoom(1.4), smaller: () => zoom(1 / 1.4), whole: () => fit(), explain, newest: () => draw(drawn),
  pin: () => attempt("said", () => pin(wordsOf())),
  async copy() { try { await navigator.clipboard.writeText(answer.line); } catch { getSelection().selectAllChildren(at("line")); } },
  clear() { [asked, answer] = [null, null]; draw(drawAsk); form.reset(); showReply(); },
};
for (const [id, click] of Object.entries(CLICKS)) set(at(id), { click });
for (const [name, call] of Object.entries(POINTER)) {
  const here = ({ clientX, clientY }, { left, top } = frame.getBoundingClientRect()) => [clientX - left, clientY - top];
  frame.addEventListener(name, event => picture && call(event, ...here(event)), { passive: false });
}
set(form, { submit(event) { event.preventDefault(); ask(wordsOf()); } });
set(at("without"), { submit(event) { event.preventDefault(); takeOut(); } });
for (const it of [form.elements.setup, at("filter"), at("table")]) set(it, { input: changed, toggle: changed });
new ResizeObserver(() => { if (picture && frame.clientWidth !== view.width) fit(); }).observe(frame);
follow();
