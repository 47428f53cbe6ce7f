"use strict";

// The story as data: what there is to see at the start, and for each step what it changed. Things stand at places: "n/5" is node 5.
const story = JSON.parse(document.getElementById("story").textContent);
const LAST = story.steps.length - 1;
const START = -1;

// What is shown: everything after the step `at`. Walking a step on or back touches only what that step changed.
const things = new Map(Object.entries(story.start));
const before = [];
let at = START;

function walkOn() {
  const step = story.steps[++at];
  const old = new Map();
  for (const place of [...Object.keys(step.set), ...step.gone]) old.set(place, things.get(place));
  before[at] = old;
  for (const place of step.gone) things.delete(place);
  for (const [place, thing] of Object.entries(step.set)) things.set(place, thing);
}

function walkBack() {
  for (const [place, thing] of before[at--]) {
    if (thing === undefined) things.delete(place);
    else things.set(place, thing);
  }
}

function walkTo(step) {
  while (at < step) walkOn();
  while (at > step) walkBack();
}

// Whether this step changed what stands at a place, and what stood there before.
const isChanged = (place) => at > START && before[at].has(place);
const thingBefore = (place) => (isChanged(place) ? before[at].get(place) : things.get(place));

// The things at places that begin so, as pairs of the rest of the place and the thing, in order.
function thingsAt(start) {
  const found = [];
  for (const [place, thing] of things) {
    if (place.startsWith(start)) found.push([place.slice(start.length), thing]);
  }
  return found.sort((x, y) => inOrder(x[0], y[0]));
}

// Metadata, nodes, flags, vectors; numbers by size, also above 2^53.
function inOrder(x, y) {
  const kinds = "mnfv";
  const kind = (place) => kinds.indexOf(place[0]);
  const number = (place) => BigInt(place.replace(/\D/g, "") || 0);
  if (kind(x) !== kind(y)) return kind(x) - kind(y);
  return number(x) < number(y) ? -1 : number(x) > number(y) ? 1 : 0;
}

// A value, or what is shown of a word that is out of range.
const shown = (field) => (field !== null && typeof field === "object" ? `out of range (${field.bad})` : String(field));
const serverOf = (name) => Math.floor(name / 1024);
const slotOf = (name) => name % 1024;
const sum = (numbers) => numbers.reduce((all, number) => all + number, 0);
const plural = (count, noun) => `${count} ${noun}${count === 1 ? "" : "s"}`;

// An element with attributes and children; a text is a child like any other, and is never read as markup.
function made(node, attributes, children) {
  for (const [name, value] of Object.entries(attributes)) {
    if (value !== false && value !== undefined) node.setAttribute(name, value);
  }
  node.append(...children.filter((child) => child !== null && child !== undefined));
  return node;
}

const html = (tag, attributes = {}, ...children) => made(document.createElement(tag), attributes, children);
const svg = (tag, attributes = {}, ...children) => made(document.createElementNS("http://www.w3.org/2000/svg", tag), attributes, children);
const byId = (id) => document.getElementById(id);
