// The nodes and the parcels under way between them, as SVG. Names are only ever set as texts.

const DRAWN = 48; // so many arrows at most
const PARTS = [0.5, 0.42, 0.58, 0.34, 0.66, 0.26, 0.74]; // of an arrow, where the middle of its label may be
const LANE = 40, LANES = 320; // how far lanes are apart, and where the last of many is
const WIDTH = 6.7, CELL = 6; // of a character of a label; of the cells by which labels keep clear of all else
const TIPS = { arrives: "M-12 -5.5L0 0L-12 5.5Z", lost: "M-7 -6L5 6M-7 6L5 -6", waits: "M-7 -4H1V4H-7Z",
  towards: "M-11 -8L1 0L-11 8" };
const OUTLINES = { // of half this width and height
  __proto__: null, // a file may have any phase
  idle: (w, h) => `M${h - w} ${-h}H${w - h}a${h} ${h} 0 0 1 0 ${2 * h}H${h - w}a${h} ${h} 0 0 1 0 ${-2 * h}Z`,
  waiting: (w, h) => `M${-w} 0L${h / 2 - w} ${-h}H${w - h / 2}L${w} 0L${w - h / 2} ${h}H${h / 2 - w}Z`,
  inside: (w, h) => `M${-w} ${-h}H${w}V${h}H${-w}Z`,
};

const build = space => (tag, attributes, ...children) => {
  const made = document.createElementNS(`http://www.w3.org/${space}`, tag);
  Object.entries(attributes).forEach(([name, value]) => made.setAttribute(name, value));
  made.append(...children);
  return made;
};
const html = build("1999/xhtml"), svg = build("2000/svg");
const classes = table => Object.keys(table).filter(name => table[name]).join(" ");

const clamp = (value, least, most) => Math.max(least, Math.min(most, value));
const xy = ({ x, y }) => `${x.toFixed(1)} ${y.toFixed(1)}`;
const mid = (a, b, part = 0.5) => ({ x: a.x + (b.x - a.x) * part, y: a.y + (b.y - a.y) * part });
const along = ([tail, turn, head], part) => mid(mid(tail, turn, part), mid(turn, head, part), part);
const pathOf = ([tail, turn, head]) => `M${xy(tail)}Q${xy(turn)} ${xy(head)}`;
const dots = (points, count) => Array.from({ length: count }, (_, i) => along(points, (i + 0.5) / count));
const cellAt = (x, y) => Math.round(x / CELL) * 1e4 + Math.round(y / CELL);
const covers = (box, { x, y }, far) => Math.abs(x - box.x) < box.wide / 2 + far && Math.abs(y - box.y) < box.high / 2 + far;

/** The cells around these places, so many on each side. */
function cellsNear(places, count) {
  const near = new Set(), steps = Array.from({ length: 2 * count + 1 }, (_, i) => (i - count) * CELL);
  for (const { x, y } of places) for (const right of steps) for (const down of steps) near.add(cellAt(x + right, y + down));
  return near;
}

function unit(from, to) {
  const x = to.x - from.x, y = to.y - from.y, far = Math.hypot(x, y) || 1;
  return { x: x / far, y: y / far };
}

/** Where a line from the middle of a node leaves it. */
function edge(node, towards) {
  const x = Math.abs(towards.x - node.x), y = Math.abs(towards.y - node.y);
  return mid(node, towards, Math.min((node.wide / 2 + 5) / x, (node.high / 2 + 5) / y));
}

/** The tail, the turn and the head of an arrow, bowed to the middle of the ring; of so many, each has a lane. */
function bow(a, b, lane, count) {
  if (a === b) return loop(a, lane);
  const { x, y } = unit(a, b), half = mid(a, b), apart = Math.min(LANE, LANES / count);
  const far = (half.x * y < half.y * x ? -apart : apart) * (lane + 1);
  const turn = { x: half.x - y * far, y: half.y + x * far };
  return [edge(a, turn), turn, edge(b, turn)];
}

/** The same of an arrow from a node to itself, which leads out of the ring and back. */
function loop(node, lane) {
  const { x, y } = node.x || node.y ? unit({ x: 0, y: 0 }, node) : { x: 0, y: -1 };
  const at = (far, side) => ({ x: node.x + x * far - y * side, y: node.y + y * far + x * side });
  const far = node.high + node.out * (1 + lane * 8 / 9) + Math.abs(x) * node.wide / 2;
  return [edge(node, at(40, 20)), at(far, 0), edge(node, at(40, -20))];
}

function tip(kind, [, turn, head]) {
  const angle = Math.atan2(head.y - turn.y, head.x - turn.x) * 180 / Math.PI;
  return svg("path", { d: TIPS[kind], class: "tip", transform: `translate(${xy(head)}) rotate(${angle})` });
}

class Ring {
  constructor(element, run, isNarrow) {
    Object.assign(this, { element, tree: run.tree, isMany: run.names.length > FEW });
    const margin = run.parcels.some(({ from, to }) => from === to) ? isNarrow || this.isMany ? 40 : 66 : 10;
    element.classList.toggle("many", this.isMany);
    const { x, y } = this.isMany && this.fill(run, margin) || this.surround(run, margin, isNarrow);
    element.setAttribute("viewBox", [-x, -y, 2 * x, 2 * y].join(" "));
  }

  /** Places many nodes so that they fill the drawing, as large as they have room; returns half its size, if it has room. */
  fill({ names, tree }, margin) {
    const { width, height } = this.element.getBoundingClientRect(), scale = Math.max(1, Math.min(width / 620, height / 400));
    const halves = [1, 1.2, 1.4, 1.7, 2, 3].map(more => ({ x: width / 2 / scale * more, y: height / 2 / scale * more }));
    return halves.find(({ x, y }) => (this.places = placesIn({ x: x - 1.5 * margin, y: y - margin }, names, tree)));
  }

  /** Places nodes as far apart as they have to be; returns half the size of a drawing that surrounds them. */
  surround({ names, steps }, margin, isNarrow) {
    const most = steps.findLast(({ event }) => event?.outcome === "entered")?.event.number ?? 0, high = 46;
    const wide = 26 + 7.6 * Math.max(8, `inside ${most}`.length, ...names.map(name => name.length));
    const places = fewPlaces(names.length, { wide, high }, isNarrow);
    const reach = (way, least) => Math.max(...places.map(it => Math.abs(it[way])), names.length > 1 ? least : 0);
    this.places = new Map(names.map((name, i) => [name, { ...places[i], wide, high, out: 54, text: name }]));
    return { x: reach("x", 0) + wide / 2 + margin, y: reach("y", 150) + high / 2 + margin };
  }

  /** What is drawn of a scene; of too many arrows, those that the scene is about. */
  draw({ nodes, parcels, cuts, shows, ...scene }) {
    const { chosen, arrived } = scene, isChosen = parcel => parcel.parcel === chosen.parcel;
    const drawn = unique([arrived, ...parcels.filter(isChosen), ...parcels]).slice(0, DRAWN);
    this.lines = []; // places on straight lines, which labels rather leave free
    const linesOf = (kind, others, title) => [...nodes].flatMap(([name, node], i) =>
      others(node, i).map(other => this.line(kind, [name, other], title(name, other))));
    const waits = (node, i) => shows.waits && i === (chosen.node ?? i) ? waitsFor(node) : [];
    const edges = this.tree.map(pair => this.line("tree", pair, `${pair.join(" and ")} are neighbours in the tree`));
    const links = cuts.map(pair => this.line("cut", pair, `the link between ${pair.join(" and ")} is cut`));
    const lines = linesOf("waits", waits, (name, other) => `${name} waits for ${other}`);
    const pointers = linesOf("towards", ({ told }) => towards(told), (name, other) => `${name}: privilege towards ${other}`);
    const shapes = [...nodes].map((entry, i) => this.node(i, ...entry, scene)), [arrows, labels] = this.arrows(drawn, scene);
    return [...edges, ...links, ...lines, ...pointers, ...arrows, ...shapes, ...labels];
  }

  /** A straight line from one node to another, or only its start; nothing if one is not known, or both are the same. */
  line(kind, [name, other], title) {
    const a = this.places.get(name), b = this.places.get(other);
    if (!a || !b || a === b) return "";
    const from = edge(a, b), { x, y } = unit(a, b), to = kind === "towards" ? { x: from.x + 30 * x, y: from.y + 30 * y } : edge(b, a);
    const points = [from, mid(from, to), to];
    if (TIPS[kind]) this.lines.push(...dots(points, 48));
    return svg("g", { class: kind }, svg("title", {}, title), svg("path", { d: pathOf(points) }), TIPS[kind] ? tip(kind, points) : "");
  }

  node(i, name, node, { step, chosen, marked }) {
    const place = this.places.get(name), outline = OUTLINES[node.phase] ?? OUTLINES.idle;
    const star = node.told?.knows.some(({ fact }) => fact === "has the privilege") ? " \u2605" : "";
    const kinds = { node: true, [node.phase]: true, acts: step?.node === name, marked: marked.includes(name), chosen: chosen.node === i };
    const button = { role: "button", tabindex: 0, "aria-pressed": kinds.chosen, "data-node": i };
    const whole = `${name}, ${phaseText(node)}`;
    const phase = this.isMany ? svg("title", {}, whole) : svg("text", { y: 14 }, phaseText(node));
    return svg("g", { ...button, "aria-label": whole, class: classes(kinds), transform: `translate(${xy(place)})` },
      svg("path", { d: outline(place.wide / 2, place.high / 2) }),
      svg("text", { y: this.isMany ? 5 : -4, class: "name" }, place.text + star), phase);
  }

  /** All arrows, and their labels. */
  arrows(parcels, scene) {
    const pairOf = ({ from, to }) => [from, to].sort().join(), lanes = Map.groupBy(parcels, pairOf);
    const ways = parcels.map(it => {
      const all = lanes.get(pairOf(it));
      return bow(this.places.get(it.from), this.places.get(it.to), all.indexOf(it), all.length);
    });
    const curves = ways.map(points => cellsNear(dots(points, 48), 1)), straight = cellsNear(this.lines, 1);
    const counts = new Map(), texts = new Set();
    curves.forEach(cells => cells.forEach(cell => counts.set(cell, (counts.get(cell) ?? 0) + 1)));
    const labels = parcels.map((parcel, i) => {
      const isArrow = cell => counts.get(cell) > (curves[i].has(cell) ? 1 : 0);
      const label = this.label(parcel, ways[i], texts, isArrow, cell => straight.has(cell));
      cellsNear(label.dots, 2).forEach(cell => texts.add(cell));
      return this.text(label, parcel, scene);
    });
    return [parcels.map((parcel, i) => this.arrow(parcel, ways[i], scene)).reverse(), labels];
  }

  kinds(parcel, { at, arrived, chosen }) {
    const here = parcel === arrived;
    return { [kindOf(parcel, at)]: true, chosen: chosen.parcel === parcel.parcel, new: here || parcel.sentAt === at,
      again: here && parcel.deliveries[0] < at };
  }

  arrow(parcel, points, scene) {
    const d = pathOf(points), here = parcel === scene.arrived;
    return svg("g", { class: classes({ arrow: true, ...this.kinds(parcel, scene) }), "data-parcel": parcel.parcel },
      svg("title", {}, fullText(parcel)), svg("path", { d, class: "wide" }), svg("path", { d }),
      tip(isLost(parcel, scene.at) ? "lost" : "arrives", points), here ? this.dot(points, scene.lasts) : "");
  }

  /** The text of an arrow. One that has no room is shown as long as its parcel is chosen, or below the pointer. */
  text({ x, y, angle, text }, parcel, scene) {
    const place = { transform: `translate(${xy({ x, y })}) rotate(${angle.toFixed(1)})`, y: 4 }, whole = labelText(parcel);
    const kinds = { label: true, brief: text !== whole, ...this.kinds(parcel, scene) };
    return svg("g", { class: classes(kinds), "data-parcel": parcel.parcel }, svg("text", place, text),
      kinds.brief ? svg("text", { ...place, class: "whole" }, whole) : "");
  }

  /** A text along its arrow, clear of nodes and other labels, and if that goes of other arrows and lines; the number
    * alone, or none, if there is no room. */
  label(parcel, points, texts, isArrow, isLine) {
    const full = this.spots(labelText(parcel), points), short = this.spots(`#${parcel.parcel}`, points);
    const isNode = dot => [...this.places.values()].some(it => covers(it, dot, 9));
    const apart = (...hits) => ({ dots }) => !dots.some(dot => {
      const cell = cellAt(dot.x, dot.y);
      return texts.has(cell) || hits.some(isHit => isHit(cell)) || isNode(dot);
    });
    const ways = [apart(isArrow, isLine), apart(isArrow)];
    const found = [full, short].flatMap(spots => ways.map(way => spots.find(way))).find(Boolean) ?? short.find(apart());
    return found ?? { ...short[0], text: "", dots: [] };
  }

  /** Where a text may be along an arrow: beside it, first on the side to which the arrow is bowed. */
  spots(text, points) {
    const [tail, turn, head] = points, half = text.length * WIDTH / 2, out = unit(mid(tail, head), turn);
    const chord = Math.hypot(head.x - tail.x, head.y - tail.y), end = along(points, 0.5);
    if (text.includes(" ") && 2 * half > chord - 24) return [];
    if (chord < 60) { // a loop
      const beyond = { x: end.x + out.x * (5 + half), y: end.y + out.y * 11 };
      return [{ ...beyond, angle: 0, text, dots: [beyond] }];
    }
    return PARTS.flatMap(part => [10, -14].map(far => {
      const ahead = unit(along(points, part - 0.05), along(points, part + 0.05)), at = along(points, part);
      const { x, y } = ahead.x < -0.01 ? { x: -ahead.x, y: -ahead.y } : ahead; // it is read from left to right
      const side = Math.sign(x * out.y - y * out.x) || 1, middle = { x: at.x - y * side * far, y: at.y + x * side * far };
      const count = Math.ceil(half / 5), dot = i => ({ x: middle.x + x * half * i / count, y: middle.y + y * half * i / count });
      const dots = Array.from({ length: 2 * count + 1 }, (_, i) => dot(i - count));
      return { ...middle, angle: Math.atan2(y, x) * 180 / Math.PI, text, dots };
    }));
  }

  /** The mark of a delivery, at the end of its arrow; if it lasts some seconds, it moves there. */
  dot(points, lasts) {
    if (!lasts) return svg("circle", { class: "dot", r: 7, cx: points[2].x, cy: points[2].y });
    const motion = { path: pathOf(points), begin: `${this.element.getCurrentTime()}s`, dur: `${lasts}s`, fill: "freeze" };
    return svg("circle", { class: "dot", r: 7 }, svg("animateMotion", motion));
  }
}
