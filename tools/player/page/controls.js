// Walking: buttons, slider, keys, play, the timeline, and a step's number behind # in the address.

const slider = byId("slider");
const chosenTablet = () => byId("filter").value;
const isChosen = (step) => chosenTablet() === "" || story.steps[step].tablet === chosenTablet();

// What one can jump to.
const JUMPS = {
  decision: (step) => story.steps[step].mark === "decision",
  abort: (step) => story.steps[step].mark === "abort",
  caption: (step) => lineOf(step).querySelector(".caption") !== null,
};

// The nearest step in that direction which the filter lets through and, where a jump is named, which fits it; or null.
function nearest(from, by, jump) {
  for (let step = from + by; step >= 0 && step <= LAST; step += by) {
    if (isChosen(step) && (!jump || JUMPS[jump](step))) return step;
  }
  return by < 0 && !jump ? START : null;
}

function goTo(step) {
  walkTo(Math.max(START, Math.min(LAST, step)));
  showAll();
  slider.value = at;
  slider.setAttribute("aria-valuetext", at === START ? "start" : `step ${at}: ${wordsOf(at)}`);
  byId("cursor")?.setAttribute("x", at);
  noteAddress();
}

// The step in the address, once walking rests: browsers allow few changes of it a second.
let noting = null;

function noteAddress() {
  clearTimeout(noting);
  noting = setTimeout(() => history.replaceState(null, "", at === START ? "#start" : `#${at}`), 400);
}

// That step, or the last one before it that the filter lets through.
const goNear = (step) => goTo(step < 0 || isChosen(step) ? step : nearest(step, -1));

// Whether there was a step to go to; if not, that is said.
function goNearest(by, jump) {
  const step = nearest(at, by, jump);
  const none = jump ? `There is no ${jump} ${by > 0 ? "after" : "before"} this step.` : `${wordsOf(at)}. This is the last step.`;
  if (step === null) byId("now-words").textContent = none;
  else goTo(step);
  return step !== null;
}

// Playing: a step, then a pause, longer where there is a caption to read.
let timer = null;

function pause() {
  clearTimeout(timer);
  timer = null;
  byId("play").textContent = "Play";
}

function play() {
  if (nearest(at, 1) === null) goTo(START);
  byId("play").textContent = "Pause";
  const next = () => {
    if (!goNearest(1)) return pause();
    const caption = lineOf(at).querySelector(".caption")?.textContent.length ?? 0;
    timer = setTimeout(next, (900 + 45 * caption) * Number(byId("speed").value));
  };
  timer = setTimeout(next, 300);
}

const toggle = () => (timer === null ? play() : pause());

// What a person does stops the playing.
const byHand = (deed) => () => {
  pause();
  deed();
};

const DEEDS = {
  first: byHand(() => goTo(START)),
  back: byHand(() => goNearest(-1)),
  play: toggle,
  on: byHand(() => goNearest(1)),
  end: byHand(() => goNear(LAST)),
  "next-decision": byHand(() => goNearest(1, "decision")),
  "next-abort": byHand(() => goNearest(1, "abort")),
  "next-caption": byHand(() => goNearest(1, "caption")),
};

const KEYS = {
  ArrowLeft: DEEDS.back,
  ArrowRight: DEEDS.on,
  Home: DEEDS.first,
  End: DEEDS.end,
  " ": DEEDS.play,
  d: DEEDS["next-decision"],
  a: DEEDS["next-abort"],
  c: DEEDS["next-caption"],
  D: byHand(() => goNearest(-1, "decision")),
  A: byHand(() => goNearest(-1, "abort")),
  C: byHand(() => goNearest(-1, "caption")),
};

// Keys that a focused control uses itself stay with it.
function isKeyOf(target, key) {
  if (target.matches("select")) return true;
  if (target.matches("button, a, summary")) return key === " ";
  return target.matches(".sideways:focus-visible") && key.startsWith("Arrow");
}

function onKey(event) {
  const deed = KEYS[event.key];
  if (!deed || event.ctrlKey || event.metaKey || event.altKey || isKeyOf(event.target, event.key)) return;
  event.preventDefault();
  deed();
}

// A step's mark in the lane of its tablet; a change of the servers is one in all lanes.
function drawnMark(step, i, lanes) {
  const lane = Number(step.tablet);
  const [y, height] = step.tablet === "" ? [0, lanes] : [lane + 0.2, 0.6];
  return y < lanes ? svg("rect", { x: i, y, width: 0.8, height, class: `mark ${step.mark}`, "data-step": i }) : null;
}

// A lane for each tablet, a mark for each step; above them signs for decisions and aborts.
function drawTimeline() {
  const count = story.steps.length;
  const lanes = story.tablets;
  const cursor = svg("rect", { id: "cursor", x: START, y: 0, width: 1, height: lanes });
  const marks = story.steps.map((step, i) => drawnMark(step, i, lanes));
  const signs = story.steps.map((step, i) => {
    const sign = { decision: "◆", abort: "✕" }[step.mark];
    const style = `left: ${(100 * (i + 1.4)) / (count + 1)}%`;
    return sign ? html("span", { class: `sign ${step.mark}`, style, "data-step": i }, sign) : null;
  });
  const frame = { viewBox: `-1 0 ${count + 1} ${lanes}`, preserveAspectRatio: "none", style: `height: ${11 * Math.min(lanes, 8)}px` };
  const drawing = svg("svg", frame, cursor, ...marks);
  byId("timeline").append(html("div", { class: "signs" }, ...signs), drawing);
  byId("timeline").addEventListener("click", (event) => {
    const { left, width } = drawing.getBoundingClientRect();
    pause();
    goNear(Math.min(LAST, Math.floor(((event.clientX - left) / width) * (count + 1)) - 1));
  });
}

function onFilter() {
  pause();
  transcript.slice(1).forEach((line, step) => (line.hidden = !isChosen(step)));
  for (const sign of byId("timeline").querySelectorAll("[data-step]")) sign.classList.toggle("dim", !isChosen(sign.dataset.step));
  goNear(at);
}

const stepInAddress = () => (/^#\d+$/.test(location.hash) ? Number(location.hash.slice(1)) : START);

function begin() {
  slider.max = LAST;
  for (let tablet = 0; tablet < story.tablets; tablet++) byId("filter").append(html("option", { value: tablet }, `tablet ${tablet}`));
  for (const [id, deed] of Object.entries(DEEDS)) byId(id).addEventListener("click", deed);
  slider.addEventListener("input", byHand(() => goNear(Number(slider.value))));
  byId("filter").addEventListener("change", onFilter);
  document.addEventListener("keydown", onKey);
  addEventListener("hashchange", byHand(() => goTo(stepInAddress())));
  byId("next-caption").hidden = nearest(START, 1, "caption") === null;
  byId("now-more").open = !matchMedia("(max-width: 40rem)").matches;
  byId("controls").hidden = byId("picture").hidden = false;
  drawTimeline();
  goTo(stepInAddress());
}

begin();
