// Everything beside the tree: the step, the servers, the tablets, the map, the decided transactions.

const transcript = [...byId("steps").children];
const lineOf = (step) => transcript[step + 1];
const wordsOf = (step) => lineOf(step).querySelector("span").textContent;

function showNow() {
  const step = story.steps[at];
  const [, outcome, a] = step?.prints.split(" ") ?? [];
  const marks = { decision: "◆ decision", abort: `✕ abort, reason ${a}`, refused: `refused by ${a}` };
  byId("now").className = step?.mark ?? "";
  byId("now").dataset.outcome = outcome ?? "";
  byId("now-step").textContent = step ? `Step ${at}` : "Start";
  byId("now-mark").textContent = marks[step?.mark] ?? "";
  byId("now-words").textContent = `${wordsOf(at)}.`;
  showCaption();
  byId("now-more").hidden = !step;
  byId("now-changes").replaceChildren(...changesOf(step).map((words) => html("li", {}, words)));
  byId("now-numbers").textContent = step ? `Line ${step.line} of the schedule: ${step.reads}. Printed by stepshow: ${step.prints}.` : "";
}

function changesOf(step) {
  if (!step || step.changes.length) return step?.changes ?? [];
  return [step.mark === "refused" ? "Nothing." : "Nothing but where the tablet stands."];
}

// The step's caption, or the last one before it.
function showCaption() {
  let from = at;
  while (from >= START && !lineOf(from).querySelector(".caption")) from--;
  const caption = from >= START ? lineOf(from).querySelector(".caption").textContent : "";
  const part = byId("now-caption");
  part.textContent = caption;
  part.hidden = caption === "";
  part.classList.toggle("earlier", from < at);
}

const mark = (place) => (isChanged(place) ? "changed" : false);
const chip = (place, ...words) => html("li", { class: mark(place) }, ...words);
const badge = (words, kind) => html("span", { class: `badge ${kind}` }, words);

function showServers() {
  byId("servers").replaceChildren(...Array.from({ length: story.servers }, (_, server) => serverCard(server)));
}

// Whether servers come and go in this story: only then it is said which there are.
const serversChange = story.steps.some((step) => step.tablet === "");

// What its own metadata calls a server. An absent one's metadata is not shown.
function stateOf(server, metadata) {
  if (!metadata) return "absent";
  return metadata.states.open?.includes(server) ? "open" : "closing";
}

// Which servers there are by some metadata.
function statesWords({ bad, present, open }) {
  if (!serversChange) return "";
  if (bad !== undefined) return `, servers ${shown({ bad })}`;
  const closing = present.filter((server) => !open.includes(server));
  return `, open: ${open.join(", ") || "none"}${closing.length ? `, closing: ${closing.join(", ")}` : ""}`;
}

function serverCard(server) {
  const metadata = things.get(`m/${server}`);
  const lock = things.get(`l/${server}/m`);
  const state = stateOf(server, metadata);
  const isNew = state !== stateOf(server, thingBefore(`m/${server}`));
  const title = html("h3", {}, `Server ${server} `, serversChange ? badge(state, `${state}${isNew ? " changed" : ""}`) : null);
  if (!metadata) return html("article", { class: `card s${server}` }, title);
  return html(
    "article",
    { class: `card s${server}` },
    title,
    html(
      "p",
      { class: isChanged(`m/${server}`) || isChanged(`l/${server}/m`) ? "changed" : false },
      `Metadata: the root is node ${shown(metadata.root)}, version ${shown(metadata.version)}`,
      lock ? badge(holders(lock), "locked") : null,
    ),
    slots(server),
    table(server),
  );
}

// The slots, up to the last one that has anything to show.
function slots(server) {
  const taken = thingsAt("f/").map(([name]) => Number(name)).filter((name) => serverOf(name) === server);
  const locked = thingsAt(`l/${server}/f`).map(([name]) => Number(name));
  const count = Math.min(story.slots, 1 + Math.max(15, ...[...taken, ...locked].map(slotOf)));
  const more = story.slots > count ? ` and ${story.slots - count} more, all free` : "";
  const words = taken.length ? `taken: ${taken.map(slotOf).join(", ")}` : "none taken";
  const cells = Array.from({ length: count }, (_, slot) => slotCell(server, slot));
  return html(
    "div",
    {},
    html("p", {}, `Slots: ${taken.length} of ${story.slots} taken`),
    html("div", { class: "slots", role: "img", "aria-label": words }, ...cells, more),
  );
}

function slotCell(server, slot) {
  const name = 1024 * server + slot;
  const taken = things.has(`f/${name}`);
  const lock = things.get(`l/${server}/f${name}`);
  const changed = isChanged(`f/${name}`) || isChanged(`l/${server}/f${name}`);
  const title = `slot ${slot}: ${taken ? "taken" : "free"}${lock ? `, its flag locked: ${holders(lock)}` : ""}`;
  return html("span", { class: `slot${taken ? " taken" : ""}${lock ? " locked" : ""}${changed ? " changed" : ""}`, title }, String(slot));
}

function table(server) {
  const versions = thingsAt(`t/${server}/`);
  if (versions.length === 0) return null;
  return html(
    "div",
    {},
    html("p", {}, "Versions in its table"),
    html("ul", { class: "chips" }, ...versions.map(([name, version]) => chip(`t/${server}/${name}`, `node ${name}: ${shown(version)}`))),
  );
}

function showTablets() {
  const chosen = byId("filter").value;
  const tablets = [...Array(story.tablets).keys()].filter((tablet) => chosen === "" || String(tablet) === chosen);
  byId("tablets").replaceChildren(...tablets.map(tabletCard));
}

const PHASES = { idle: "no transaction", open: "open", committing: "committing", decided: "decided" };

function tabletCard(tablet) {
  const standing = things.get(`c/${tablet}`);
  const old = thingBefore(`c/${tablet}`);
  const acts = at > START && story.steps[at].tablet === String(tablet);
  const phase = `${standing.phase}${old.phase === standing.phase ? "" : " changed"}`;
  return html(
    "article",
    { class: acts ? "card tablet acts" : "card tablet", "data-tablet": tablet },
    html(
      "h3",
      {},
      `Tablet ${tablet} `,
      badge(PHASES[standing.phase] ?? shown(standing.phase), phase),
      standing.lost === true ? badge("lost", "old") : null,
      acts ? badge("takes this step", "acting") : null,
    ),
    transaction(tablet, standing),
    participants(standing, old),
    objects("Has read", tablet, "r"),
    objects(standing.phase === "decided" ? "Will write" : "Would write", tablet, "w"),
    objects("Copies", tablet, "p"),
  );
}

const SHOWN_OPERATIONS = 5;

function transaction(tablet, standing) {
  const asked = [...thingsAt(`o/${tablet}/`), ...dropped(`o/${tablet}/`)];
  if (asked.length === 0) return null;
  const hidden = Math.max(0, asked.length - SHOWN_OPERATIONS);
  const unanswered = standing.waits === true ? "waits" : "no answer";
  const line = ([turn, it]) => {
    const place = `o/${tablet}/${turn}`;
    const looks = `${mark(place) || ""}${things.has(place) ? "" : " gone"}`;
    return operationLine(looks, it, unanswered);
  };
  return html(
    "div",
    {},
    html("h4", {}, "Its transaction"),
    hidden ? html("p", { class: "note" }, `${plural(hidden, "operation")} before these`) : null,
    html("ul", { class: "asked" }, ...asked.slice(hidden).map(line)),
  );
}

// An operation, its answer, and the pairs that a list has written.
function operationLine(looks, it, unanswered) {
  const pairs = it.pairs.map(([key, value]) => html("span", { class: "pair" }, `${key}: ${value}`));
  return html(
    "li",
    { class: looks },
    `${it.asked}: `,
    html("b", {}, it.answer ?? unanswered),
    pairs.length ? html("span", { class: "pairs" }, ...pairs) : null,
  );
}

// How far a server is that takes part.
function progress(standing, server) {
  const has = (set) => Array.isArray(set) && set.includes(server);
  if (has(standing.applied)) return "applied";
  if (has(standing.prepared)) return "prepared";
  return has(standing.participants) ? "due" : "";
}

function participants(standing, old) {
  if (!Array.isArray(standing.participants) || standing.participants.length === 0) return null;
  const line = (server) => {
    const words = progress(standing, server);
    const looks = `s${server} server${words === progress(old, server) ? "" : " changed"}`;
    return html("li", { class: looks }, `server ${server}: `, html("b", {}, words));
  };
  return html("div", {}, html("h4", {}, "Takes part"), html("ul", { class: "chips" }, ...standing.participants.map(line)));
}

function objects(title, tablet, letter) {
  const start = `${letter}/${tablet}/`;
  const read = (object) => (letter === "w" ? things.get(`r/${tablet}/${object}`) : null);
  const lines = thingsAt(start).map(([object, it]) => objectLine(start + object, object, it, read(object)));
  const lost = dropped(start).map(([object, it]) => objectLine(start + object, object, it, null));
  if (lines.length + lost.length === 0) return null;
  return html("div", {}, html("h4", {}, title), html("ul", { class: "objects" }, ...lines, ...lost));
}

// What this step took away: copies always, and all of a transaction that it aborts.
function dropped(start) {
  const step = story.steps[at];
  if (!step || (step.mark !== "abort" && !start.startsWith("p/"))) return [];
  return step.gone.filter((place) => place.startsWith(start)).map((place) => [place.slice(start.length), thingBefore(place)]);
}

// An object's name and what is said of it, by its letter.
const OBJECTS = {
  m: (_, it, version) => ["metadata", `version ${version}, root is node ${shown(it.root)}${statesWords(it.states)}`],
  n: (name, it, version) => [`node ${name}`, `version ${version}, ${bodyWords(it)}`],
  f: (name, it) => [`flag ${name}`, it.taken === true ? "taken" : it.taken === false ? "free" : shown(it.taken)],
  v: (server, it) => [`server ${server}'s vector`, `${plural(it.taken.length, "slot")} taken`],
};

// One object as read, written or copied. A written one has the version that it was read at plus 1.
function objectLine(place, object, it, read) {
  const letter = object[0];
  const number = Number(object.slice(1));
  const server = { n: serverOf(number), f: serverOf(number), v: number }[letter];
  const [name, words] = OBJECTS[letter](number, it, read ? Number(read.version) + 1 : shown(it.version));
  return html(
    "li",
    { class: `${mark(place) || ""}${it.old ? " is-old" : ""}${things.has(place) ? "" : " gone"}` },
    html("b", { class: server === undefined ? "object" : `object s${server}` }, name),
    ` ${words}`,
    it.old ? badge(oldWords(letter, number), "old") : null,
    things.has(place) ? null : badge("dropped", "old"),
    read && it.kind === "leaf" ? writtenPairs(it, read) : null,
  );
}

function bodyWords(node) {
  const way = (child, i) => (i === 0 ? shown(child) : `${node.keys[i - 1]} → ${shown(child)}`);
  if (node.kind === "leaf") return `leaf of ${plural(node.pairs.length, "pair")}`;
  return node.kind === "inner" ? `inner: ${node.children.map(way).join(", ")}` : KINDS[node.kind];
}

// What an old thing is behind. Of a flag or vector it is only said that it is old.
function oldWords(letter, number) {
  const metadata = () => Math.max(...thingsAt("m/").map(([, it]) => Number(it.version)));
  const newer = { m: metadata, n: () => shown(things.get(`n/${number}`)?.version) }[letter];
  return newer ? `old, the server has ${newer()}` : "old";
}

// The pairs that would be written; those that were not read so stand out.
function writtenPairs(written, read) {
  const old = new Map(read.pairs ?? []);
  const pair = ([key, value]) => html("span", { class: old.get(key) === value ? "pair" : "pair new" }, `${key}: ${value}`);
  return html("span", { class: "pairs" }, ...written.pairs.map(pair));
}

function showMap() {
  const entry = ([key, value]) =>
    html("li", { class: mark(`k/${key}`), "data-key": key }, html("b", {}, key), " is ", html("span", { class: "value" }, value));
  const taken = (place) => html("li", { class: "gone changed" }, html("b", {}, place.slice(2)), " is gone");
  const gone = (story.steps[at]?.gone ?? []).filter((place) => place.startsWith("k/"));
  const entries = [...thingsAt("k/").map(entry), ...gone.map(taken)];
  byId("map").replaceChildren(...(entries.length ? entries : [html("li", { class: "none" }, "Empty.")]));
}

const decisions = story.steps.flatMap((step, i) => (step.mark === "decision" ? [i] : []));

// The newest one is open; the others can be opened.
function showDecided() {
  const decided = thingsAt("d/");
  const entry = ([turn, { tablet, asked }], i) => {
    const title = `Tablet ${tablet}, step ${decisions[turn]}, ${plural(asked.length, "operation")}`;
    const operations = asked.map((it) => operationLine(false, it, "no answer"));
    const open = i === decided.length - 1 ? "" : false;
    return html("li", { class: mark(`d/${turn}`) }, html("details", { open }, html("summary", {}, title), html("ul", {}, ...operations)));
  };
  byId("decided").replaceChildren(...(decided.length ? decided.map(entry) : [html("li", { class: "none" }, "None yet.")]));
}

function showLine() {
  byId("steps").querySelector("[aria-current]")?.removeAttribute("aria-current");
  lineOf(at).setAttribute("aria-current", "step");
  const part = byId("steps-part");
  if (part.scrollHeight > part.clientHeight) part.scrollTop = lineOf(at).offsetTop - part.clientHeight / 2;
}

function showAll() {
  showNow();
  showTree();
  showServers();
  showTablets();
  showMap();
  showDecided();
  showLine();
}
