// Driving: each change makes a new script, the program runs all of it, and the page shows what it printed. No rule of an
// algorithm is here: a button is disabled only if the phase of its node, or the state of its parcel, says why.

const PHASES = { ask: "idle", enter: "waiting", cancel: "waiting", read: "inside", write: "inside", leave: "inside" };
const LINES = { // what a button adds to the script, of a node or of a parcel
  __proto__: null,
  read: name => `read ${name} ${byId("register").value}`, settle: name => `settle ${name} ${byId("upto").value.trim()}`,
  write: name => `write ${name} ${byId("register").value} ${byId("value").value.trim()}`,
  want: name => `want ${name} ${byId("other").value}`, cut: name => `cut ${name} ${byId("other").value}`,
  mend: name => `heal ${name} ${byId("other").value}`, crash: name => `cut ${name}`, recover: name => `heal ${name}`,
  deliver: (_, it) => `deliver ${it?.parcel}`, again: (_, it) => `deliver ${it?.parcel}`, lose: (_, it) => `lose ${it?.parcel}`,
  all: () => "deliver all", heal: () => "heal", expect: () => `expect ${lastEvent() ? partOf(lastEvent(), 1) : ""}`,
  partition: () => `partition ${sides(true).join(" ")} | ${sides(false).join(" ")}`,
};
const tabs = new BroadcastChannel("drive"); // the other tabs of this browser
const later = []; // what was pressed during a change
let answer = JSON.parse(byId("answer").textContent), isBusy = false;

const sides = isOff => [...byId("sides").querySelectorAll("input")].filter(it => it.checked === isOff).map(it => it.value);
const linesOf = script => script === "" ? [] : script.split("\n");
const textOf = list => list.join("\n");
const chosenNode = () => run.names[view.chosen.node];
const chosenParcel = () => run.parcels[view.chosen.parcel];
const lastEvent = () => run.steps.findLast(({ event }) => event)?.event;
const lineOf = act => (LINES[act] ?? (name => `${act} ${name}`))(chosenNode(), chosenParcel());
const add = line => change("try", textOf([...linesOf(answer.script), line]));
const tell = (text, isBroken) => fill("told", html("span", { class: isBroken ? "broken" : "" }, text));

/** Why a button cannot be used now; nothing if the program is to decide. */
function whyNot(act) {
  const name = chosenNode(), parcel = chosenParcel();
  if (answer.fault) return `Line ${answer.fault.line + 1} of the script is at fault: mend it first, or undo.`;
  if (view.at < last) return "This is the past: go to the end, or choose \u201CGo on from here\u201D.";
  if (["deliver", "again", "lose"].includes(act) && !parcel) return "Choose a parcel first.";
  if (act in WHY) return WHY[act](parcel);
  const { phase } = nodesAfter(last).get(name) ?? {}, wanted = PHASES[act];
  return phase && wanted && phase !== wanted ? `${name} is ${phase}; ${act} is for a node that is ${wanted}.` : "";
}

const isCut = (...names) => cutAfter(run, last).some(pair => names.every(it => pair.includes(it)));
const isFlying = parcel => underWay(run, last).includes(parcel) && !isLost(parcel, last);
const WHY = {
  __proto__: null,
  deliver: it => it.deliveries.length ? "It is delivered: see \u201Cdeliver again\u201D." : "",
  again: it => it.deliveries.length ? "" : "It is not delivered yet.",
  lose: it => isFlying(it) ? "" : "It is not under way.",
  all: () => underWay(run, last).some(isFlying) ? "" : "Nothing is under way.",
  heal: () => cutAfter(run, last).length ? "" : "No link is cut.",
  mend: () => isCut(chosenNode(), byId("other").value) ? "" : "It is whole.", recover: () => isCut(chosenNode()) ? "" : "All are whole.",
  expect: () => lastEvent() ? "" : "Nothing has happened yet.",
  partition: () => sides(true).length && sides(false).length ? "" : "Tick some of the nodes, and not all.",
};

/** Does what was pressed at once or, during a change, after it, in order. */
ready = act => {
  if (!isBusy) return act();
  later.push(act);
  return tell(`busy: ${later.length} more to do`);
};

/** Asks for a change, and takes what comes of it; of `try`, only if no line is at fault. Whether it was taken. */
async function change(path, script = "") {
  isBusy = true;
  const next = await ask(path, script).catch(({ message }) => tell(message, true));
  isBusy = false;
  const isTaken = Boolean(next) && settle(path, script, next);
  if (!next || next.isOld) later.length = 0; // it was meant for another script
  while (later.length && !isBusy) later.shift()();
  return isTaken;
}

async function ask(path, script) {
  const options = { method: "POST", headers: { "X-Drive": answer.version }, body: script };
  const given = await fetch(path, options).catch(() => { throw new Error("./drive does not answer; the script is still here."); });
  if (!given.ok) throw new Error(await given.text());
  return given.json();
}

function settle(path, script, next) {
  const { fault, isOld, version, note } = next, isRefused = path === "try" && fault && !isOld;
  if (!isRefused) take(next);
  if (isRefused) tell(`${linesOf(script)[fault.line]}: ${fault.text}`, true);
  else if (isOld) tell("Another tab has changed the script. This is it now; nothing else was done.", true);
  else tabs.postMessage(version);
  if (note) tell(note);
  return !isOld && !isRefused;
}

function take(next) {
  answer = next;
  tell("");
  load(next.run);
  drawScript();
  show({ at: last });
}

/** Of the text of an event its line in a script, or its outcome. */
const partOf = (event, part) => eventText(event).split(": ")[part];

/** The lines up to the step that is shown; of a line with many events, those up to there. */
function scriptHere() {
  const at = view.at + 1, { ends, script } = answer, whole = ends.filter(end => end <= at).length, list = linesOf(script);
  return textOf([...list.slice(0, whole), ...run.steps.slice(ends[whole - 1] ?? 0, at).map(({ event }) => partOf(event, 0))]);
}

function drawButton(button) {
  const { act } = button.dataset, why = whyNot(act), line = lineOf(act);
  button.setAttribute("aria-disabled", Boolean(why));
  button.setAttribute("aria-label", ["again", "all", "heal", "partition", "crash", "recover"].includes(act) ? button.textContent : line);
  button.title = why || line;
}

function drawPanel() {
  const name = chosenNode(), parcel = chosenParcel();
  const state = it => it.deliveries.length ? "delivered" : isLost(it, last) ? "lost" : "under way";
  const hidden = { ofNode: name === undefined, ofParcel: !parcel, past: view.at === last || Boolean(answer.fault),
    withRegister: !byId("register").options.length };
  Object.entries(hidden).forEach(([id, isHidden]) => { byId(id).hidden = isHidden; });
  const { fault } = answer, stuck = view.at === last && run.stuck ? stuckText(run.stuck) : "";
  fill("stuck", fault ? faultText(run.fault, "mend the line, or undo") : stuck);
  fill("wrong", fault ? `line ${fault.line + 1}: ${fault.text}` : "");
  fill("what", parcel ? `${fullText(parcel)}, ${state(parcel)}` : name ? `Node ${name}` : "Choose a node or a parcel");
  fill("facts", ...(name ? nodeTexts(...[view.at, Math.max(view.at - 1, -1)].map(at => nodesAfter(at).get(name))) : []));
  document.querySelectorAll("#drive [data-act]").forEach(drawButton);
  document.querySelector("[data-do=undo]").setAttribute("aria-disabled", !answer.canUndo);
  document.querySelector("[data-do=redo]").setAttribute("aria-disabled", !answer.canRedo);
}

/** What a line did: the outcome of its event, or how many events it has; or what it lost. */
function outcomeOf(i) {
  const count = answer.ends[i] - (answer.ends[i - 1] ?? 0), { event, changes } = run.steps[answer.ends[i] - 1] ?? {};
  if (!(count > 0)) return {};
  const lost = changes.flatMap(({ lost }) => lost ? [`#${lost}`] : []);
  if (!event) return { told: lost.length > 4 ? `${lost.length} parcels` : lost.join(" ") };
  return { told: count > 1 ? `${count} events` : partOf(event, 1).replace("delivered", ""), outcome: event.outcome };
}

function lineItem(text, i) {
  const { ends, fault } = answer, isFault = i === fault?.line, { told = "", outcome } = outcomeOf(i);
  const kinds = { comment: /^\s*(#|$)/.test(text), undone: i >= ends.length && !isFault, broken: isFault, [outcome]: outcome };
  return html("li", { class: classes(kinds) }, html("button", { type: "button", "data-line": i }, text || "\u00A0"),
    html("span", { class: "faint" }, told), isFault ? html("span", { class: "fault" }, `line ${i + 1}: ${fault.text}`) : "");
}

/** The lines change with the script alone, and with the step only which of them is current. */
function drawScript() {
  const none = html("li", { class: "faint" }, "Empty so far: choose a node, and let it ask.");
  fill("script", ...answer.script ? linesOf(answer.script).map(lineItem) : [none]);
  byId("draft").defaultValue = answer.script;
}

function drawCurrent() {
  const { ends, script } = answer, place = byId("script"), done = Math.min(ends.length, linesOf(script).length);
  const current = view.at === last ? done - 1 : ends.findIndex(end => end > view.at);
  place.querySelector("[aria-current]")?.removeAttribute("aria-current");
  if (done) place.children[current]?.setAttribute("aria-current", "step");
  revealLine();
}

const revealLine = () => reveal(byId("script"), byId("script").querySelector(".fault, [aria-current]"));

function drawChoices() {
  const { registers } = [...nodesAfter(last).values()][0].told;
  fill("register", ...registers.map(([register]) => html("option", {}, register)));
  fill("sides", ...run.names.map(it => html("label", {}, html("input", { type: "checkbox", value: it }), it)));
}

function drawOthers() {
  const was = byId("other").value, names = run.names.filter(it => it !== chosenNode());
  fill("other", ...names.map(it => html("option", it === was ? { selected: "" } : {}, it)));
}

function use(button) {
  const { act, line } = button.dataset;
  if (line !== undefined) return show({ at: clamp((answer.ends[line] ?? last + 1) - 1, -1, last) });
  const why = whyNot(act);
  return why ? tell(why, true) : add(lineOf(act));
}

function tap(act) {
  const button = document.querySelector(`#drive [data-act=${act}]`), of = button.closest("#ofParcel") ? "parcel" : "node";
  return button.checkVisibility() ? use(button) : tell(`Choose a ${of} first.`, true);
}

function chooseParcel(way) {
  const flying = underWay(run, view.at).filter(it => !isLost(it, view.at)).reverse(), i = flying.indexOf(chosenParcel());
  const next = flying.at(i < 0 ? (way > 0 ? 0 : -1) : (i + way) % flying.length);
  show(next ? { chosen: { parcel: next.parcel } } : { note: "No parcel is under way." });
}

function save() {
  const link = html("a", { href: URL.createObjectURL(new Blob([`${answer.script}\n`])), download: "script.txt" });
  link.click();
  setTimeout(() => URL.revokeObjectURL(link.href), 1000);
}

/** Shows the script as a text, with its line at fault selected, or hides it. A text that was edited stays until it is run. */
function edit(isShown) {
  const { fault, script } = answer, draft = byId("draft"), list = linesOf(draft.value);
  byId("text").hidden = !isShown;
  if (!isShown) return;
  draft.focus();
  if (!fault || draft.value !== script) return;
  const start = list.slice(0, fault.line).join("\n").length + (fault.line > 0);
  draft.setSelectionRange(start, start + list[fault.line].length);
  draft.scrollTop = (fault.line - draft.rows / 2) * draft.scrollHeight / list.length;
}

async function runDraft(script) {
  if (!await change("keep", script)) return;
  byId("text").reset();
  edit(Boolean(answer.fault));
}

/** Adds a line; one that is not taken comes back to the field. */
async function addLine(line) {
  if (line && !await add(line) && !byId("line").value) byId("line").value = line;
}

/** Lets a form do this with the text of its field, once the page is ready for it. */
const onSubmit = (id, field, act) => on(id, "submit", event => {
  const text = byId(field).value;
  event.preventDefault();
  ready(() => act(text));
});

Object.assign(DO, {
  undo: way => way < 0 ? DO.redo() : answer.canUndo && change("undo"), redo: () => answer.canRedo && change("redo"),
  branch: () => change("try", scriptHere()), edit: () => edit(true), close: () => edit(false),
  save, lesson: () => { save(); byId("plan").click(); }, // the files that docs/lessons has
  parcel: chooseParcel, deliver: way => tap(way < 0 ? "all" : "deliver"),
});
for (const act of ["ask", "enter", "leave", "cancel", "tick", "lose", "again"]) DO[act] = () => tap(act);
for (let i = 1; i <= 9; i++) DO[KEYS[i] = `node${i}`] = () => i <= run.names.length && show({ chosen: { node: i - 1 } });
Object.assign(KEYS, { a: "ask", e: "enter", l: "leave", c: "cancel", t: "tick", d: "deliver", x: "lose", g: "again", u: "undo",
  p: "parcel" });

document.addEventListener("click", ({ target }) => {
  const button = target.closest("[data-act], [data-line]");
  if (button) ready(() => use(button));
});
on("drive", "input", drawPanel);
onSubmit("text", "draft", text => runDraft(text.replace(/\n+$/, "")));
on("draft", "keydown", event => { if (event.key === "Enter" && event.ctrlKey) byId("text").requestSubmit(); });
onSubmit("add", "line", text => addLine(text.trim()));
on("add", "submit", () => byId("add").reset());
tabs.onmessage = ({ data }) => ready(() => data !== answer.version && change("now"));
const lists = new ResizeObserver(() => { revealNode(); revealLine(); }); // they shrink as the panel grows
["nodes", "script"].forEach(id => lists.observe(byId(id)));
drawers.push(drawOthers, drawPanel, drawCurrent);
drawChoices();
drawScript();
show({ at: last });
