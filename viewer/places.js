// The places of the nodes, around the middle of the drawing: in a ring, or, of many nodes with a tree, as this tree.

const FEW = 7; // of more nodes, a chosen one hides the parcels of others, a tree is drawn as one, and phases have no text
const LONGEST = 24, SHORTEST = 3; // characters that are shown of a name of many nodes, and of one that has no room

/** The places in a ring of so many nodes, as far from the middle. */
function ringPlaces(count, across, down) {
  const circle = 2 * Math.PI, start = count === 2 ? Math.PI : Math.PI / 2;
  const angles = Array.from({ length: count }, (_, i) => circle * i / count - start);
  return angles.map(angle => ({ x: across * Math.cos(angle), y: down * Math.sin(angle) }));
}

/** The places of few nodes of this size. On a phone their ring is slim. */
function fewPlaces(count, { wide, high }, isNarrow) {
  const radius = (least, size) => count > 1 ? Math.max(least, count * size / (2 * Math.PI)) : 0;
  return ringPlaces(count, isNarrow ? radius(125, 0) : radius(240, wide + 26), radius(150, high + 26));
}

/** For each node its level below a root, and its slot in this level, clear of those of other subtrees. */
function levelsBelow(root, near) {
  const found = new Map(), next = []; // the free slots
  const move = (spot, far) => {
    spot.slot += far;
    next[spot.level] = Math.max(next[spot.level] ?? 0, spot.slot + 1);
    spot.below.forEach(it => move(it, far));
  };
  const visit = (name, level) => {
    const spot = { level, slot: 0, below: [] }, free = () => next[level] ?? 0;
    found.set(name, spot);
    spot.below = near.get(name).filter(it => !found.has(it)).map(it => visit(it, level + 1));
    spot.slot = spot.below.length ? (spot.below[0].slot + spot.below.at(-1).slot) / 2 : free();
    move(spot, Math.max(free() - spot.slot, 0));
    return spot;
  };
  visit(root, 0);
  return found;
}

/** The tree from that node on from which it has the fewest levels, and from one with the most; nothing if these pairs are
  * no tree of all nodes. */
function levelsOf(names, pairs) {
  if (pairs.length !== names.length - 1) return undefined;
  const near = new Map(names.map(name => [name, pairs.filter(pair => pair.includes(name)).flat().filter(it => it !== name)]));
  const most = levels => Math.max(...[...levels.values()].map(({ level }) => level));
  const trees = names.map(name => levelsBelow(name, near)).sort((a, b) => most(a) - most(b));
  return trees[0].size === names.length ? [trees[0], trees.at(-1)] : undefined;
}

/** These places around their middle, as far apart as there is room, and how far that is; below 1, they lie on one another. */
function spread(places, { wide, high }, room) {
  const axis = (way, far) => {
    const all = places.map(it => it[way]), least = Math.min(...all), half = (Math.max(...all) - least) / 2;
    return { middle: least + half, scale: half > 0.1 ? far / half : Infinity };
  };
  const x = axis("x", room.x - wide / 2), y = axis("y", room.y - high / 2);
  const put = (value, { middle, scale }) => scale < Infinity ? (value - middle) * scale : 0;
  return { scale: Math.min(x.scale, y.scale), places: places.map(it => ({ x: put(it.x, x), y: put(it.y, y) })) };
}

/** The places of a tree: downward, to the right, or around its root, whichever has most room. */
function treePlaces(names, levels, size, room) {
  const { wide, high } = size, spots = names.map(name => levels.get(name));
  const slots = 1 + Math.max(...spots.map(({ slot }) => slot)), angle = slot => 2 * Math.PI * (slot + 0.5) / slots;
  const leaves = Math.min(...spots.filter(({ below }) => !below.length).map(({ level }) => level));
  const step = wide => Math.max(wide + 16, slots * (wide + 12) / (2 * Math.PI * leaves));
  const ways = [
    ({ level, slot }) => ({ x: slot * (wide + 6), y: level * (high + 20) }),
    ({ level, slot }) => ({ x: level * (wide + 20), y: slot * (high + 4) }),
    ({ level, slot }) => ({ x: level * step(wide) * Math.cos(angle(slot)), y: level * step(high) * Math.sin(angle(slot)) }),
  ];
  return ways.map(way => spread(spots.map(way), size, room)).sort((a, b) => b.scale - a.scale)[0];
}

/** Whether no two nodes of this size lie on one another. */
const isApart = (places, { wide, high }) => places.every((a, i) =>
  places.slice(i + 1).every(b => Math.abs(a.x - b.x) > wide + 2 || Math.abs(a.y - b.y) > high + 2));

/** The places of many nodes of this size: a tree, or, of one that has no room, a ring in its order, so that no edges cross;
  * nothing if there is no room for either. */
function manyPlaces(names, trees, size, room) {
  const tree = trees && treePlaces(names, trees[0], size, room);
  if (tree?.scale >= 1) return tree.places;
  const order = trees ? [...trees[1].keys()] : names;
  const circle = ringPlaces(names.length, room.x - size.wide / 2, room.y - size.high / 2);
  const ring = names.map(name => circle[order.indexOf(name)]);
  return isApart(ring, size) ? ring : undefined;
}

/** Names without the characters with which all begin, or all end; of what is left, the end, if that is too long. */
function shortNames(names, length) {
  const least = Math.min(...names.map(name => name.length)), isSame = i => names.every(name => name.at(i) === names[0].at(i));
  const count = (most, place) => [...Array(most).keys()].findIndex(i => i === most - 1 || !isSame(place(i)));
  const begin = count(least, i => i), end = count(least - begin, i => -1 - i);
  return names.map(it => it.length <= length ? it : `\u2026${it.slice(begin, it.length - end).slice(1 - length)}`);
}

/** The place of each of many nodes in this room, with its size, and its name as far as that has room; nothing if that is too
  * small. */
function placesIn(room, names, tree) {
  const trees = levelsOf(names, tree), longest = Math.min(Math.max(...names.map(name => name.length)), LONGEST);
  const sizeOf = length => ({ wide: 22 + 8.6 * Math.max(2, length) + (tree.length ? 10 : 0), high: 26, out: 26 });
  const lengths = Array.from({ length: Math.max(longest - SHORTEST, 0) + 1 }, (_, i) => longest - i);
  const length = lengths.find(it => manyPlaces(names, trees, sizeOf(it), room));
  if (!length) return undefined;
  const texts = shortNames(names, length), size = sizeOf(Math.max(...texts.map(text => text.length)));
  const places = manyPlaces(names, trees, size, room);
  return new Map(names.map((name, i) => [name, { ...places[i], ...size, text: texts[i] }]));
}
