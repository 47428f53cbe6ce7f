// The tree as a drawing, and the same in words.

const ROW = 19;
const HEAD = 24;
const LINE = 16;
const PAD = 8;
const BETWEEN = 16;
const BELOW = 44;
const LEAST_WIDTH = 104;
const widthOf = (text, size = 13) => String(text).length * size * 0.62;

function holders({ bad, writer, readers }) {
  if (bad !== undefined) return shown({ bad });
  if (writer !== undefined) return `tablet ${writer} writes`;
  return readers.length === 1 ? `tablet ${readers[0]} reads` : `tablets ${readers.join(", ")} read`;
}

// The locks on a node, a line for each way of holding it. Where not its home but others have it locked, they are named.
function locksOn(name) {
  const servers = new Map();
  for (let server = 0; server < story.servers; server++) {
    const lock = things.get(`l/${server}/n${name}`);
    if (lock === undefined) continue;
    const who = holders(lock);
    servers.set(who, [...(servers.get(who) ?? []), server]);
  }
  return [...servers].map(([who, where]) => (where.includes(serverOf(name)) ? who : `${who} at server ${where.join(", ")}`));
}

const isLockChanged = (name) => [...Array(story.servers).keys()].some((server) => isChanged(`l/${server}/n${name}`));

const KINDS = { free: "free", leaf: "leaf", inner: "inner node", bad: "out of range" };

// A node as a box: where it stands is settled later.
function box(name) {
  const node = things.get(`n/${name}`) ?? { kind: "free", version: 0 };
  const locks = locksOn(name);
  const lines = [`server ${serverOf(name)} · ${KINDS[node.kind]}`];
  const rows = node.kind === "leaf" ? node.pairs : [];
  const keys = node.kind === "inner" ? node.keys : [];
  const [longestKey, longestValue] = [0, 1].map((i) => Math.max(3, ...rows.map((row) => row[i].length)));
  const cells = keys.map((key) => widthOf(key) + 16);
  const width = Math.max(
    LEAST_WIDTH,
    widthOf(`node ${name}  v${shown(node.version)}`) + 2 * PAD + 8,
    ...lines.map((line) => widthOf(line, 11) + 2 * PAD),
    ...locks.map((lock) => widthOf(lock, 11) + 2 * PAD + 14),
    widthOf(" ".repeat(longestKey + longestValue)) + 4 * PAD,
    sum(cells) + 2 * PAD,
  );
  const body = node.kind === "inner" ? ROW + 10 : Math.max(1, rows.length) * ROW + 6;
  const height = HEAD + LINE * (lines.length + locks.length) + 6 + body;
  const split = longestKey / (longestKey + longestValue);
  return { name, node, lines, locks, rows, keys, cells, width, height, split, children: [] };
}

// The box with one line more.
function noted(here, note) {
  here.lines.push(note);
  here.height += LINE;
  here.width = Math.max(here.width, widthOf(note, 11) + 2 * PAD);
  return here;
}

// The boxes under a node. `level` is the one that its parent expects; a node met twice or on another level is shown and not gone below.
function boxesUnder(name, level, met) {
  if (typeof name !== "number") return noted(box(-1), shown(name));
  const node = things.get(`n/${name}`);
  const itsLevel = node?.kind === "inner" ? node.level : node?.kind === "leaf" ? 0 : null;
  const wrong = met.has(name) ? "met twice" : level !== null && itsLevel !== level ? "not applied here yet" : "";
  const here = wrong ? noted(box(name), wrong) : box(name);
  met.add(name);
  if (!wrong && node?.kind === "inner") here.children = node.children.map((child) => boxesUnder(child, node.level - 1, met));
  return here;
}

// The roots that servers name, the boxes under each, and what is taken or locked, or was until this step, but under none of them.
function forest() {
  const servers = new Map();
  for (const [server, { root }] of thingsAt("m/")) servers.set(root, [...(servers.get(root) ?? []), server]);
  const met = new Set();
  const roots = [...servers].map(([root, by]) => {
    const here = boxesUnder(root, null, met);
    return servers.size > 1 ? noted(here, `root by server ${by.join(", ")}`) : here;
  });
  const others = namesToShow().filter((name) => !met.has(name));
  return [...roots, ...others.map(apart)];
}

function namesToShow() {
  const isShown = ([name, node]) => node.kind !== "free" || isChanged(`n/${name}`);
  const names = [...thingsAt("n/").filter(isShown), ...thingsAt("f/")].map(([name]) => Number(name));
  for (let server = 0; server < story.servers; server++) names.push(...thingsAt(`l/${server}/n`).map(([name]) => Number(name)));
  return [...new Set(names)].sort((x, y) => x - y);
}

function apart(name) {
  const kind = things.get(`n/${name}`)?.kind ?? "free";
  return kind === "free" ? box(name) : noted(box(name), "not under the root");
}

// Settles where boxes stand: children side by side, their parent above their middle. The width that was used.
function settle(here, left, depth, depths) {
  depths[depth] = Math.max(depths[depth] ?? 0, here.height);
  here.depth = depth;
  let used = 0;
  for (const child of here.children) used += settle(child, left + used, depth + 1, depths) + BETWEEN;
  used = Math.max(0, used - BETWEEN);
  const span = Math.max(used, here.width);
  const shift = (span - used) / 2;
  if (shift > 0) here.children.forEach((child) => moved(child, shift));
  here.x = left + (span - here.width) / 2;
  return span;
}

function moved(here, by) {
  here.x += by;
  here.children.forEach((child) => moved(child, by));
}

const everyBox = (boxes) => boxes.flatMap((here) => [here, ...everyBox(here.children)]);

function drawTree() {
  const tops = forest();
  const depths = [];
  let width = 2;
  for (const here of tops) width += settle(here, width, 0, depths) + 2 * BETWEEN;
  width -= 2 * BETWEEN - 2;
  const boxes = everyBox(tops);
  for (const here of boxes) here.y = 4 + sum(depths.slice(0, here.depth).map((height) => height + BELOW));
  const height = Math.max(...boxes.map((here) => here.y + here.height)) + 18;
  const label = "The tree; the same follows in words";
  const drawing = svg("svg", { width, height, viewBox: `0 0 ${width} ${height}`, role: "img", "aria-label": label });
  boxes.forEach((here) => here.children.forEach((child, i) => drawing.append(...edge(here, child, i))));
  boxes.forEach((here) => drawing.append(drawnBox(here)));
  return { drawing, boxes };
}

// Which keys a child holds.
function rangeOf(keys, child) {
  if (keys.length === 0) return "";
  if (child === 0) return `below ${keys[0]}`;
  return child === keys.length ? `${keys[child - 1]} and up` : `${keys[child - 1]} to below ${keys[child]}`;
}

// The line from a parent to its child, and which keys are below it.
function edge(parent, child, i) {
  const x1 = parent.x + (parent.width - sum(parent.cells)) / 2 + sum(parent.cells.slice(0, i));
  const y1 = parent.y + parent.height;
  const x2 = child.x + child.width / 2;
  const middle = (y1 + child.y) / 2;
  const range = rangeOf(parent.keys, i);
  const line = svg("path", { d: `M${x1} ${y1} C${x1} ${middle} ${x2} ${middle} ${x2} ${child.y}`, class: "edge" });
  if (widthOf(range, 11) > child.width + BETWEEN) return [line];
  return [line, svg("text", { x: x2, y: child.y - 7, class: "range", "text-anchor": "middle" }, range)];
}

function drawnBox(here) {
  const { name, node, x, y, width, height } = here;
  const changed = isChanged(`n/${name}`);
  const looks = `node s${serverOf(name)} ${node.kind}${changed ? " changed" : ""}`;
  const group = svg("g", { class: looks, transform: `translate(${x} ${y})`, "data-node": name });
  group.append(
    svg("rect", { class: "paper", width, height, rx: 6 }),
    svg("path", { class: "band", d: `M0 ${HEAD} V6 Q0 0 6 0 H${width - 6} Q${width} 0 ${width} 6 V${HEAD} Z` }),
    svg("text", { class: "name", x: PAD, y: 17 }, `node ${name}`),
    svg("text", { class: "version", x: width - PAD, y: 17, "text-anchor": "end" }, `v${shown(node.version)}`),
  );
  let top = HEAD + 13;
  for (const line of here.lines) {
    group.append(svg("text", { class: "line", x: PAD, y: top }, line));
    top += LINE;
  }
  for (const lock of here.locks) {
    group.append(drawnLock(lock, top, width, isLockChanged(name)));
    top += LINE;
  }
  group.append(...(node.kind === "inner" ? drawnKeys(here, top - 6) : drawnRows(here, top - 6)));
  group.append(svg("rect", { class: "frame", width, height, rx: 6 }));
  if (changed) group.append(svg("text", { class: "changed-mark", x: width / 2, y: height + 13, "text-anchor": "middle" }, "▲ changed"));
  return group;
}

function drawnLock(lock, top, width, changed) {
  return svg(
    "g",
    { class: changed ? "lock changed" : "lock" },
    svg("rect", { class: "under", x: 1, y: top - 12, width: width - 2, height: LINE }),
    svg("path", { class: "padlock", d: `M${PAD} ${top - 6} h9 v7 h-9 z M${PAD + 2} ${top - 6} v-2 a2.5 2.5 0 0 1 5 0 v2` }),
    svg("text", { class: "line", x: PAD + 14, y: top }, lock),
  );
}

// The pairs of a leaf, a row each; rows that this step changed are marked.
function drawnRows(here, top) {
  const { name, rows, width, split, node } = here;
  const none = node.kind === "leaf" ? "empty" : "–";
  if (rows.length === 0) return [svg("text", { class: "none", x: width / 2, y: top + 17, "text-anchor": "middle" }, none)];
  const old = new Map(thingBefore(`n/${name}`)?.pairs ?? []);
  const middle = PAD + split * (width - 2 * PAD);
  return rows.flatMap(([key, value], i) => {
    const y = top + 3 + i * ROW;
    const changed = isChanged(`n/${name}`) && old.get(key) !== value;
    return [
      svg("rect", { class: changed ? "row changed" : "row", x: 1, y, width: width - 2, height: ROW }),
      svg("text", { class: "key", x: middle - 7, y: y + 14, "text-anchor": "end" }, key),
      svg("text", { class: "value", x: width - PAD - 3, y: y + 14, "text-anchor": "end" }, value),
    ];
  });
}

function drawnKeys(here, top) {
  const { name, keys, cells, width } = here;
  const old = new Set(thingBefore(`n/${name}`)?.keys ?? []);
  let x = (width - sum(cells)) / 2;
  return keys.flatMap((key, i) => {
    const changed = isChanged(`n/${name}`) && !old.has(key);
    const cell = [
      svg("rect", { class: changed ? "cell changed" : "cell", x, y: top + 6, width: cells[i], height: ROW + 2 }),
      svg("text", { class: "key", x: x + cells[i] / 2, y: top + 21, "text-anchor": "middle" }, key),
    ];
    x += cells[i];
    return cell;
  });
}

// The tree in words, for whoever doesn't see the drawing: a list within a list.
function treeInWords(tops) {
  return html("ul", {}, ...tops.map((here) => html("li", {}, boxInWords(here), here.children.length ? treeInWords(here.children) : null)));
}

function boxInWords({ name, node, lines, locks }) {
  const pairs = (node.pairs ?? []).map(([key, value]) => `${key} is ${value}`);
  const holds = { leaf: `Pairs: ${pairs.join(", ") || "none"}.`, inner: `Keys: ${(node.keys ?? []).join(", ")}.` }[node.kind] ?? "";
  const locked = locks.map((lock) => `, locked: ${lock}`).join("");
  const changed = isChanged(`n/${name}`) ? ", changed" : "";
  return `Node ${name}, version ${shown(node.version)}, ${lines.join(", ")}${locked}${changed}. ${holds}`;
}

function showTree() {
  const { drawing, boxes } = drawTree();
  const part = byId("tree");
  part.replaceChildren(drawing);
  byId("tree-words").replaceChildren(treeInWords(boxes.filter((here) => here.depth === 0)));
  const changed = boxes.find((here) => isChanged(`n/${here.name}`));
  if (changed && part.scrollWidth > part.clientWidth) part.scrollLeft = changed.x + changed.width / 2 - part.clientWidth / 2;
}
