// The page: it follows from the run and the view. Only `show` changes the view, and only `load` the run.

const PAGE = 100, SHOWN = 40, LISTED = 200; // so many steps are listed at a time, events of a node, and parcels
const RECENT = 50; // so many events
const byId = id => document.getElementById(id);
const isDriven = Boolean(byId("answer")), narrow = matchMedia("(max-width: 40rem)");
const timers = {}, drawers = []; // what else draws, after a view has changed
let run, last, nodesAfter, broken, ring, ready = act => act(); // what does an act once the page is ready for it
let view = { at: -1, chosen: {}, shows: { lost: true, waits: true, old: false }, note: "" };
addEventListener("error", ({ message }) => { byId("now").textContent = `This page cannot show the run: ${message}`; });

const outcomeAt = at => run.steps[at].event?.outcome;
const parcelAt = at => run.parcels[+run.steps[at]?.event?.parcel];
const textAt = at => stepText(run.steps[at], run.parcels);
const lineAt = at => parcelAt(at) ? `${textAt(at)} ${fullText(parcelAt(at))}` : textAt(at);
const firstAt = at => Math.max(Math.floor(at / PAGE) * PAGE - 1, 0); // the first step that is listed then
const addressAt = at => `#${run.steps[at]?.place ?? "start"}`;
const sought = () => byId("sought").value.toLowerCase();

const stepLink = at => html("a", { href: addressAt(at) }, lineAt(at));
const parcelButton = parcel => html("button", { type: "button", class: `parcel ${kindOf(parcel, view.at)}`,
  "data-parcel": parcel.parcel, "aria-pressed": view.chosen.parcel === parcel.parcel }, fullText(parcel));
const parcelItem = parcel => html("li", {}, parcelButton(parcel));

/** Moves a list so that one of its items is seen. */
function reveal(list, item) {
  if (!item) return;
  const { top, bottom } = list.getBoundingClientRect(), box = item.getBoundingClientRect();
  list.scrollTop += Math.min(box.top - top - 2, 0) || Math.max(box.bottom - bottom + 2, 0);
}

const revealNode = () => reveal(byId("nodes"), byId("nodes").querySelector(".chosen") ?? byId("nodes").querySelector(".acts"));

/** Puts these into a place; what had the focus there gets it again. */
function fill(id, ...children) {
  const place = byId(id), focused = document.activeElement, { dataset } = place.contains(focused) ? focused : { dataset: {} };
  place.replaceChildren(...children);
  Object.entries(dataset).forEach(([key, value]) => place.querySelector(`[data-${key}="${value}"]`)?.focus());
}

/** What the node of a refused event knows, if that is known. */
function knownAt(at) {
  const name = run.steps[at].node, { facts } = nodeParts(nodesAfter(at).get(name) ?? {});
  return outcomeAt(at) === "refused" && facts.length ? `${name}: ${facts.map(([, text]) => text).join(", ")}. ` : "";
}

function drawNow() {
  const { at, note } = view, { event, sent } = run.steps[at] ?? {}, { clause, reason } = run.verdict;
  const { fault, message } = run.fault ?? {}, isEnd = fault && at === last && !isDriven;
  const ends = isEnd ? html("span", { class: "broken" }, faultText(run.fault, fault + message)) : "";
  if (at < 0) return fill("now", html("b", {}, "Start"), ` before the first of ${counted(run.count, "event")}. ${note}`, ends);
  if (!event) return fill("now", html("b", {}, textAt(at)), ` ${note}`, ends);
  const sends = sent.length > 2 ? [` sends ${sent.length} parcels`] : sent.flatMap((it, i) => [i ? ", " : " sends ", parcelButton(it)]);
  const more = parcelAt(at) ? [parcelButton(parcelAt(at)), ...sends] : sends, known = knownAt(at);
  const why = reason ? `: ${reason}` : "", rule = `${clause}, ${broken.join(" and ")}`;
  const breaks = at === run.brokenAt ? `This breaks the run: ${rule}${why}. ` : "";
  return fill("now", html("b", { class: event.outcome }, textAt(at)), " ", ...more, ` ${known}${breaks}${note}`, ends);
}

/** The list has the page of steps around this one, and at its ends steps that lead on. */
function drawRows(before) {
  const rows = byId("rows"), first = firstAt(view.at), steps = run.steps.slice(first, first + PAGE + 2);
  const mark = at => outcomeAt(at) === "refused" ? "\u2717 " : "";
  const row = at => html("option", { class: outcomeAt(at) ?? "change" }, mark(at) + lineAt(at));
  if (!rows.length || first !== firstAt(before.at)) fill("rows", ...steps.map((_, i) => row(first + i)));
  rows.selectedIndex = view.at - first;
  rows.scrollTop = (view.at - first - rows.size / 2) * rows.scrollHeight / rows.length;
}

/** What is shown of a node, in which the parts are marked that were other before; what is known no more stays for the eye
  * alone. */
function nodeTexts(node, was) {
  const { state, facts } = nodeParts(node), before = nodeParts(was), isKnown = Boolean(was.told && node.told);
  const old = new Map([...before.state, ...before.facts]), now = new Map([...state, ...facts]);
  const isNew = ([word, text]) => old.get(word) !== text && (isKnown || old.has(word));
  const part = it => isNew(it) ? html("mark", { title: `before: ${old.get(it[0]) ?? "not so"}` }, it[1]) : it[1];
  const list = parts => parts.flatMap((it, i) => i ? [", ", part(it)] : [part(it)]);
  const gone = isKnown ? before.facts.filter(([word]) => !now.has(word)) : [];
  const more = node.told ? ["; ", html("span", { class: "facts" }, ...list(facts),
    ...gone.map(([, text]) => html("del", { "data-gone": text })))] : [];
  return [...list(state), ...more];
}

function nodeItem(name, i, ...nodes) {
  const kinds = { acts: run.steps[view.at]?.node === name, chosen: view.chosen.node === i };
  return html("li", { class: classes(kinds) }, html("b", {}, name), ": ", ...nodeTexts(...nodes));
}

function parcelHistory(parcel) {
  const { sentAt, lostAt, deliveries } = parcel, item = (at, text) => html("li", {}, text, stepLink(at));
  const got = deliveries.map((at, i) => item(at, i ? "delivered again: " : "delivered: "));
  const lost = lostAt === undefined ? [] : [item(lostAt, "")];
  const open = got.length + lost.length ? [] : [html("li", { class: run.isOpen ? "" : "broken" }, run.isOpen ? "under way" : "never delivered")];
  return [html("h3", {}, fullText(parcel)), html("ul", {}, item(sentAt, "sent: "), ...lost, ...got, ...open)];
}

function nodeHistory(name) {
  const done = [...run.steps.keys()].filter(at => at <= view.at && run.steps[at].node === name).reverse();
  const item = at => html("li", {}, stepLink(at), html("ul", {}, ...run.steps[at].sent.map(parcelItem)));
  return [html("h3", {}, `${name}: ${counted(done.length, "event")} up to this step, newest first`),
    html("ul", {}, ...done.slice(0, SHOWN).map(item))];
}

const historyOf = ({ node, parcel }) => run.parcels[parcel] ? parcelHistory(run.parcels[parcel])
  : run.names[node] === undefined ? ["Choose a node or a parcel."] : nodeHistory(run.names[node]);

/** Whether a parcel of many nodes was lost so long ago that its arrow would only hide others. */
const isOld = (it, { at, chosen, shows }) => ring.isMany && !shows.old && isLost(it, at) && it.sentAt < at - RECENT
  && it.parcel !== chosen.parcel;

function draw(before) {
  const { at, chosen, shows } = view, nodes = nodesAfter(at), earlier = nodesAfter(Math.max(at - 1, -1));
  const name = ring.isMany ? run.names[chosen.node] : undefined;
  const isMeant = it => it && (shows.lost || !isLost(it, at)) && [it.from, it.to, undefined].includes(name);
  const parcels = underWay(run, at).filter(isMeant), arrived = [parcelAt(at)].find(isMeant);
  const moves = at === before.at + 1 && !matchMedia("(prefers-reduced-motion: reduce)").matches;
  const lasts = moves ? Math.min(0.6, 0.7 / byId("speed").value) : 0, more = parcels.length - LISTED;
  const scene = { nodes, parcels: parcels.filter(it => !isOld(it, view)), at, chosen, lasts, step: run.steps[at], arrived };
  fill("ring", ...ring.draw({ ...scene, shows, cuts: cutAfter(run, at), marked: at === run.brokenAt ? broken : [] }));
  fill("way", `Parcels under way${name === undefined ? "" : ` to or from ${name}`}`);
  const lost = lostBefore(run, at).filter(isMeant).map(it => html("li", { class: "lostParcels faint" }, parcelButton(it)));
  fill("parcels", ...parcels.slice(0, LISTED).map(parcelItem), more > 0 ? `and ${more} more` : "", ...lost);
  fill("nodes", ...run.names.map((it, i) => nodeItem(it, i, nodes.get(it), earlier.get(it))));
  fill("history", ...historyOf(chosen));
  drawNow();
  drawRows(before);
  drawers.forEach(it => it(before));
  revealNode();
  byId("slider").value = at;
  byId("slider").setAttribute("aria-valuetext", at < 0 ? "start" : textAt(at));
}

/** What a line means: without an end, it is one of those without a tip. */
function sample(text, kind = text, end = "") {
  const line = svg("path", { d: end ? "M2 0H36" : "M2 0H46" });
  const tip = end && svg("path", { d: TIPS[end], class: "tip", transform: "translate(42 0)" });
  return html("li", { class: kind }, svg("svg", { class: end ? "arrow" : kind, viewBox: "0 -7 48 14" }, line, tip), text);
}

/** What a shape means that has no text. */
const sign = phase => html("li", { class: `sign ${phase}` },
  svg("svg", { viewBox: "-24 -7 48 14" }, svg("path", { d: OUTLINES[phase](20, 6) })), phase);

/** What can be known in this run: who waits for whom, and parcels under way, lost, and lost long ago. */
function knownIn({ parcels, told, steps, isOpen }) {
  const lost = parcels.length > 0;
  return { waits: told.length > 0 || steps.some(it => it.told.length), way: lost || isOpen, lost, old: lost && ring.isMany && !isOpen };
}

/** What only the run changes. */
function drawRun() {
  const { verdict, index, clause } = run.verdict, { algorithm, tree, names, isOpen } = run;
  const size = `${counted(run.count, "event")}, ${counted(names.length, "node")}`, known = knownIn(run);
  for (const id of ["waits", "lost", "old"]) byId(id).parentElement.hidden = !known[id];
  byId("way").hidden = !known.way;
  byId("title").textContent = document.title = algorithm ? `${algorithm}: ${size}` : `A run of ${size}`;
  byId("slider").max = last;
  const link = html("a", { href: `#${index}`, class: "broken" }, `broken at ${index}: ${clause} \u2717`);
  fill("verdict", "Verdict: ", clause ? link : `${verdict} \u2713`);
  const gone = isOpen ? "lost" : "never delivered";
  byId("lost").nextSibling.textContent = ` also those ${gone}`;
  const letters = ["request", "grant", "other"].map(kind => sample(kind, kind, "arrives"));
  const fates = [sample("delivered again", "other again", "arrives"), sample(gone, "lost", "lost")];
  fill("legend", ...(ring.isMany ? Object.keys(OUTLINES).map(sign) : []), ...(known.way ? letters : []),
    ...(known.waits ? [sample("waits for", "waits", "waits")] : []),
    ...(tree.length ? [sample("tree"), sample("towards the privilege", "towards", "towards")] : []),
    ...(known.way ? fates : []), ...(isOpen ? [sample("cut link", "cut")] : []));
}

/** Takes the lines of a run. The view stays, so that `show` has to follow. */
function load(lines) {
  run = readRun(lines, isDriven);
  last = run.steps.length - 1;
  nodesAfter = statesOf(run);
  broken = concerned(run, nodesAfter);
  ring = new Ring(byId("ring"), run, narrow.matches);
  fill("rows");
  drawRun();
}

function show(change) {
  const before = view, next = { ...view, note: "", ...change }, at = clamp(next.at, -1, last);
  view = { ...next, at };
  draw(before);
  clearTimeout(timers.address); // browsers bound how often the address may change
  timers.address = setTimeout(() => history.replaceState(null, "", addressAt(at)), 200);
}

function play(isOn) {
  const step = () => view.at < last ? DO.on() : play(false);
  clearInterval(timers.play);
  timers.play = isOn && setInterval(step, 1000 / byId("speed").value);
  byId("play").textContent = isOn ? "\u275A\u275A Pause" : "\u25B6 Play";
  byId("now").setAttribute("aria-live", isOn ? "off" : "polite");
}

/** Goes to the next event like this, or, the other way, to the one before. */
function seek(way, what, isSought) {
  let at = view.at + way;
  while (run.steps[at] && !isSought(at)) at += way;
  show(run.steps[at] ? { at } : { note: `There is no ${way > 0 ? "later" : "earlier"} ${what}.` });
}

/** Goes to the next event with the text that is sought, or to the one before; after the last comes the first. */
function find(way) {
  const found = [...run.steps.keys()].filter(at => lineAt(at).toLowerCase().includes(sought()));
  const i = way > 0 ? found.findIndex(at => at > view.at) : found.findLastIndex(at => at < view.at);
  const at = found.at(i < 0 && way > 0 ? 0 : i), text = byId("sought").value;
  show(found.length ? { at, note: `${found.indexOf(at) + 1} of ${found.length} with ${text}.` }
    : { note: `There is no event with ${text}.` });
}

const DO = { // of buttons and keys; with Shift, the way is -1
  first: () => show({ at: -1 }), last: () => show({ at: last }),
  back: () => show({ at: view.at - 1 }), on: () => show({ at: view.at + 1 }),
  play: () => { if (!timers.play && view.at === last) DO.first(); play(!timers.play); },
  section: way => seek(way, "section", at => outcomeAt(at) === "entered"),
  refusal: way => seek(way, "refusal", at => outcomeAt(at) === "refused"),
  next: way => sought() ? find(way) : DO.find(), find: () => byId("sought").focus(), none: () => show({ chosen: {} }),
};
const KEYS = { __proto__: null, arrowleft: "back", arrowright: "on", home: "first", end: "last", " ": "play",
  s: "section", r: "refusal", n: "next", "/": "find", escape: "none" };

/** Does what a button, a node or a parcel is for. */
function press({ target }) {
  const { do: word, node, parcel } = target.closest("[data-do], [data-node], [data-parcel]")?.dataset ?? {};
  if (word) ready(() => DO[word](1));
  else if (node ?? parcel) ready(() => show({ chosen: node ? { node: +node } : { parcel } }));
}

function pressKey(event) {
  const { key, target } = event, presses = key === " " || key === "Enter", word = KEYS[key.toLowerCase()];
  const field = target.closest("input:not([type=range]), textarea, select:not(#rows)");
  if (field && key === "Escape") field.blur();
  else if (field || presses && target.closest("button, a, summary") || event.ctrlKey || event.altKey || event.metaKey) return;
  else if (presses && target.dataset.node) press(event);
  else if (word === "find") DO.find(); // at once, so that it gets what is typed next
  else if (word) ready(() => DO[word](event.shiftKey ? -1 : 1));
  else return;
  event.preventDefault();
}

function showAddress() {
  const place = location.hash.slice(1), at = run.steps.findIndex(it => it.place === place);
  show({ at: place === "" ? run.brokenAt : at < 0 && +place ? last : at });
}

/** Marks the arrow and the text of the parcel below the pointer, also of one in a list. */
function point({ target }) {
  const { parcel } = target.closest("[data-parcel]")?.dataset ?? {};
  document.querySelectorAll("#ring [data-parcel]").forEach(it => it.classList.toggle("hovered", it.dataset.parcel === parcel));
}

/** Places the nodes again, in another room. */
function fit() {
  ring = new Ring(byId("ring"), run, narrow.matches);
  show({ note: view.note });
}

const on = (id, kind, act) => byId(id).addEventListener(kind, act);
/** Shows what a field asks for, once the page is ready for it. */
const onShow = (id, kind, change) => on(id, kind, ({ target }) => {
  const next = change(target);
  ready(() => show(next));
});
document.addEventListener("click", press);
document.addEventListener("keydown", pressKey);
document.addEventListener("pointerover", point);
addEventListener("hashchange", () => ready(showAddress));
onShow("slider", "input", ({ value }) => ({ at: +value }));
onShow("rows", "change", ({ selectedIndex }) => ({ at: firstAt(view.at) + selectedIndex }));
for (const id of ["lost", "waits", "old"]) onShow(id, "change", ({ checked }) => ({ shows: { ...view.shows, [id]: checked } }));
on("speed", "change", () => play(timers.play));
on("find", "submit", event => { event.preventDefault(); ready(() => DO.next(1)); });
addEventListener("resize", () => { clearTimeout(timers.size); timers.size = setTimeout(fit, 100); });
load(JSON.parse(byId("run").textContent));
showAddress();
