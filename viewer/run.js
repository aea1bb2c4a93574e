// A run, its states and its texts. All of this follows from the lines of the run; nothing here draws.

const SPAN = 256; // of so many states, one is kept
const GRANTS = ["reply", "locked", "privilege"]; // the kinds of parcels that grant a request
const WAITS = ["missing", "privilege towards"]; // the facts that name the nodes for which a node waits
const ALGORITHMS = { privilege: "Raymond", arbiter: "Maekawa", clock: "Ricart and Agrawala" }; // by a fact that only it has
const EFFECTS = { // of an outcome, on the node of its event
  __proto__: null, // a file may have any outcome
  asked: () => ({ phase: "waiting" }), entered: ({ number }) => ({ phase: "inside", mine: number }),
  left: () => ({ phase: "idle" }), cancelled: () => ({ phase: "idle" }),
};

const counted = (count, word) => `${count} ${word}${count === 1 ? "" : "s"}`;
const unique = items => [...new Set(items)].filter(item => item !== undefined);

/** Each step has an event, or changes that a script made without one; its node, the parcels that it sent, the lines of nodes
  * after it, and a place, which its address names: the number of an event. The run of a script is open: it may go on. */
function readRun(lines, isDriven) {
  const isOpen = isDriven || lines.some(({ line, verdict }) => line && !verdict);
  const run = { steps: [], parcels: [], told: [], links: [], nodes: [], verdict: lines.at(-1), count: 0, isOpen };
  const nodeOf = ({ node, parcel }) => node ?? run.parcels[+parcel]?.to;
  let number; // of the line of a script that did what follows
  for (const line of lines) {
    const at = run.steps.length - 1, { sent, told } = run.steps[at] ?? run;
    if (line.act) run.steps.push({ event: line, node: nodeOf(line), sent: [], told: [], changes: [], place: `${run.count++}` });
    else if (line.kind) sent.push(run.parcels[+line.parcel] = { ...line, line, sentAt: at, deliveries: [], isOpen });
    else if (line.phase) told.push(line);
    else if (line.lost || line.cut || line.heal) addChange(run, line, number);
    else if (line.fault) run.fault = line;
    else if (line.stuck) run.stuck = line.stuck;
    else if (line.nodes) run.nodes = line.nodes;
    else if (!line.verdict) number = line.line;
  }
  run.steps.forEach(({ event }, at) => run.parcels[+event?.parcel]?.deliveries.push(at));
  run.brokenAt = run.steps.findIndex(({ place }) => place === run.verdict.index);
  return { ...run, names: namesOf(run), ...shapeOf(run) };
}

/** What one line of a script changed is one step. */
function addChange(run, line, number) {
  const before = run.steps.at(-1), [event, part = 0] = before?.place.split(".") ?? ["start"];
  const isSame = number && before?.number === number;
  if (!isSame) run.steps.push({ number, sent: [], told: [], changes: [], place: `${event}.${+part + 1}` });
  const at = run.steps.length - 1;
  run.steps[at].changes.push(line);
  if (line.lost) run.parcels[+line.lost].lostAt ??= at;
  else run.links.push({ at, ...line });
}

/** The algorithm and, for Raymond's, its tree, if the last line of each node tells them. */
function shapeOf({ told, steps }) {
  const closing = new Map([...told, ...steps.flatMap(step => step.told)].map(line => [line.node, line]));
  const facts = [...closing.values()].flatMap(({ knows }) => knows.map(({ fact }) => fact)).join(" ");
  const word = Object.keys(ALGORITHMS).find(it => facts.includes(it));
  const tree = [...closing].flatMap(([name, line]) => towards(line).map(other => [name, other].sort().join()));
  return { algorithm: ALGORITHMS[word], tree: unique(tree).map(pair => pair.split(",")) };
}

/** The nodes: those of the plan, or of the last lines of nodes, in their order, which is the plan's, and then all others. */
function namesOf({ nodes, told, steps, parcels }) {
  const closing = [...told, ...steps.flatMap(step => step.told)].map(line => line.node).reverse();
  const others = [...steps.map(step => step.node), ...parcels.flatMap(({ from, to }) => [from, to])];
  return unique([...nodes, ...unique(closing).reverse(), ...others]);
}

/** The nodes after a step, each with its phase, its last section, and the line of it that still holds. */
function after(nodes, { event, node, told }) {
  const next = new Map(nodes), was = nodes.get(node);
  const hasActed = was && event && event.outcome !== "refused";
  if (hasActed) next.set(node, { ...was, told: null, ...EFFECTS[event.outcome]?.(event) });
  told.forEach(line => next.set(line.node, { phase: line.phase, mine: line.mine, told: line }));
  return next;
}

/** A function that gives the nodes after any step; -1 is the start. */
function statesOf({ names, told, steps }) {
  const start = new Map(names.map(name => [name, { phase: "idle", mine: "0", told: null }]));
  const kept = [after(start, { told })];
  const nodesAfter = at => {
    const from = Math.min(Math.floor((at + 1) / SPAN), kept.length - 1);
    return steps.slice(from * SPAN, at + 1).reduce(after, kept[from]);
  };
  for (let at = SPAN - 1; at < steps.length; at += SPAN) kept.push(nodesAfter(at));
  return nodesAfter;
}

/** Whether a parcel is lost after a step; in a run that is over, one that never arrives always is. */
const isLost = ({ deliveries, lostAt, isOpen }, at) => lostAt === undefined ? !deliveries.length && !isOpen
  : lostAt <= at && !(deliveries[0] <= at);

/** The parcels sent up to a step, and neither delivered nor lost before: newest first, those that are lost last. */
function underWay({ parcels }, at) {
  const isGone = ({ deliveries, lostAt }) => deliveries[0] <= at || lostAt < at;
  const sent = parcels.filter(it => it.sentAt <= at && !isGone(it)).reverse();
  return [...sent.filter(it => !isLost(it, at)), ...sent.filter(it => isLost(it, at))];
}

/** The parcels that a script lost before a step, and that are not delivered. */
const lostBefore = ({ parcels }, at) => parcels.filter(it => it.lostAt < at && isLost(it, at));

/** The pairs of nodes whose link is cut after a step. */
function cutAfter({ links, names }, at) {
  const pairs = ([name, ...other]) => (other.length ? other : names).map(it => [name, it].sort().join()), found = new Set();
  for (const { cut, heal } of links.filter(it => it.at <= at))
    for (const pair of heal?.length === 0 ? [...found] : pairs(cut ?? heal)) found[cut ? "add" : "delete"](pair);
  return [...found].map(pair => pair.split(","));
}

/** The nodes that a broken verdict concerns: that of its event, and those that were inside before it. */
function concerned({ steps, verdict, brokenAt }, nodesAfter) {
  if (!verdict.clause) return [];
  const inside = [...nodesAfter(brokenAt - 1)].filter(([, node]) => node.phase === "inside");
  return unique([steps[brokenAt].node, ...inside.map(([name]) => name)]);
}

const valuesOf = (line, isSought) => (line?.knows ?? []).filter(({ fact }) => isSought(fact))
  .flatMap(({ values }) => values.map(({ node }) => node));

/** The nodes for which a node waits, and the neighbour that leads to the privilege, if these are known. */
const waitsFor = ({ phase, told }) => phase === "waiting" ? valuesOf(told, fact => WAITS.includes(fact)) : [];
const towards = told => valuesOf(told, fact => fact === "privilege towards");

// The texts are those of `mx replay`.

const phaseText = ({ phase, mine }) => phase === "inside" ? `inside ${mine}` : phase;
const fullText = parcel => `#${parcel.parcel} ${parcel.from}>${parcel.to} ${parcelText(parcel)}`;
const labelText = parcel => `#${parcel.parcel} ${parcelText(parcel)}`;
const valueText = ({ node, number, stamp, of }) => of ? `${stamp}.${of}` : unique([node, number]).join("/");
const factText = ({ fact, values }) => [fact, ...values.map(valueText)].join(" ");
const kindOf = (parcel, at) => isLost(parcel, at) ? "lost" : parcel.kind === "request" ? parcel.kind
  : GRANTS.includes(parcel.kind) ? "grant" : "other";

function eventText({ event, ...rest }) {
  const words = Object.entries(rest).map(([key, word]) => key === "writes" ? `writes ${word}` : word);
  const cut = Object.keys(rest).indexOf("outcome");
  return `${words.slice(0, cut).join(" ")}: ${words.slice(cut).join(" ")}`;
}

/** The text of an event, or of what a step changed without one. */
function stepText({ event, place, changes }, parcels) {
  if (event) return `${place} ${eventText(event)}`;
  const all = changes.flatMap(({ lost }) => lost ? [fullText(parcels[+lost])] : []);
  const lost = all.length > 4 ? `${all.length} parcels` : all.join(", ");
  const cuts = changes.flatMap(({ cut }) => cut ? [cut.join(" ")] : []), links = cuts.length > 4 ? `${cuts.length} links` : cuts.join(", ");
  const healed = changes.flatMap(({ heal }) => heal ? [heal.join(" ") || "all links"] : []).join(", ");
  return [lost && `lost ${lost}`, links && `cut ${links}`, healed && `healed ${healed}`].filter(Boolean).join(", ");
}

const waitText = ({ node, for: others }) => [node, "waits", ...(others.length ? ["for", ...others] : [])].join(" ");
const faultText = ({ line }, more) => `Line ${line} is at fault, and the page shows the run before it: ${more}.`;
const stuckText = waiters => ["stuck: nothing under way", ...waiters.map(waitText)].join("; ");

function parcelText({ line: { parcel, from, to, kind, stamp, of, ...rest } }) {
  const list = value => [value].flat().map(item => [item].flat().join("..")).join(" ");
  const named = ([key, value]) => ["top", "grant", "last"].includes(key) ? `${key} ${value}` : list(value);
  return [kind, ...(of ? [`${stamp}.${of}`] : []), ...Object.entries(rest).map(named)].join(" ");
}

/** What is shown of a node, state and then facts: each text with the word that it is about. */
function nodeParts({ told, ...node }) {
  const state = [["phase", phaseText(node)], ["mine", `mine ${node.mine}`]];
  if (!told) return { state, facts: [] };
  const counts = ["records", "gapless"].map(word => [word, `${word} ${told[word]}`]);
  const values = (told.registers ?? []).map(([register, value]) => [`register ${register}`, `${register}=${value}`]);
  return { state: [...state, ...counts, ...values], facts: told.knows.map(fact => [fact.fact, factText(fact)]) };
}
