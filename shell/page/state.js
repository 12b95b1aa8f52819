"use strict";
// What the page shows: the data of a session, the moment that is looked at, and what is filtered and folded away.
const find = (id) => document.getElementById(id);
let data, steps, tasks;
// What there is at the moment that is shown. `rows` are the steps that are shown in the history, by the filter.
const view = { at: 0, command: -1, steps: [], rows: [], row: null, tasks: [], lanes: [], lane: new Map(), letters: new Map(), left: [0], lives: new Map(), races: [], chosen: null, pinned: false, lit: null };
// What the user chose: a line of the program, tasks by their names, words and bodies that are folded away, and the zoom.
const wish = { line: null, tasks: "", folded: new Set(), bodies: new Set(), spawns: true, zoom: 1, opened: new Set() };

function element(name, attributes, text) {
  const made = document.createElementNS("http://www.w3.org/2000/svg", name);
  for (const key in attributes) made.setAttribute(key, attributes[key]);
  if (text !== undefined) made.textContent = text;
  return made;
}

function item(list, text, name) {
  const made = document.createElement("li");
  made.textContent = text;
  if (name) made.className = name;
  list.append(made);
  return made;
}

function button(text, act, name) {
  const made = document.createElement("button");
  made.type = "button";
  made.textContent = text;
  if (name) made.className = name;
  made.addEventListener("click", act);
  return made;
}

// A number of things: `1 step`, `2 steps`.
const counted = (count, word) => count + " " + word + (count === 1 ? "" : "s");

function byName(one, two) {
  const left = one.name.split(".").map(Number), right = two.name.split(".").map(Number);
  for (let at = 0; at < Math.min(left.length, right.length); at++) if (left[at] !== right[at]) return left[at] - right[at];
  return left.length - right.length;
}

function readData(told) {
  data = told;
  steps = data.steps.map(([name, did, line, born, died, causes, race], index) =>
    ({ name, did, line, born, died, causes: causes || [], race, index, task: name.split("#")[0], word: did.split(" ")[0] }));
  tasks = data.tasks.map(([name, body, step, born, died, states, before, apart], index) =>
    ({ name, body, step, born, died, states, before, apart, index, line: step === null ? 0 : steps[step].line }));
}

const stands = (thing) => thing.born <= view.at && (thing.died === null || thing.died > view.at);
const needsKnown = () => !data.leftOut.some((text) => text.startsWith("needs"));
const bodyOf = new Map();

// The colour of a body: one of eight, by the order in which bodies came.
function colourOf(body) {
  if (!bodyOf.has(body)) bodyOf.set(body, bodyOf.size % 8);
  return "body" + bodyOf.get(body);
}

// The last entry that isn't later than the moment.
function latest(entries) {
  let low = 0, high = entries.length;
  while (low < high) {
    const middle = (low + high) >> 1;
    if (entries[middle][0] <= view.at) low = middle + 1; else high = middle;
  }
  return low ? entries[low - 1] : null;
}

// Which command led to the moment; -1 in front of the first.
function commandAt(at) {
  let low = 0, high = data.commands.length;
  while (low < high) {
    const middle = (low + high) >> 1;
    if (data.commands[middle][2] < at) low = middle + 1; else high = middle;
  }
  return at === 0 ? -1 : Math.min(low, data.commands.length - 1);
}

// What a step needs, itself left out.
function needsOf(index) {
  const seen = new Uint8Array(steps.length), left = [index], found = [];
  while (left.length) for (const [, early] of steps[left.pop()].causes) if (!seen[early]) { seen[early] = 1; found.push(early); left.push(early); }
  return found;
}

// What needs a step: those that came after it and need one that was found.
function needersOf(index) {
  const seen = new Uint8Array(steps.length), found = [];
  seen[index] = 1;
  for (const step of view.steps) {
    if (step.index > index && step.causes.some(([, early]) => seen[early])) { seen[step.index] = 1; found.push(step.index); }
  }
  return found;
}

// The rows of the steps that are shown, by their places among all steps.
function rowsOf(shown) {
  const rows = new Int32Array(steps.length).fill(-1);
  shown.forEach((step, row) => { rows[step.index] = row; });
  return { get: (index) => rows[index] < 0 ? undefined : rows[index], has: (index) => rows[index] >= 0 };
}

// Whether a task is among those that the user chose: by its name, `0.1.*` for all below it, or its body.
function isWished(task) {
  const words = wish.tasks.split(/[ ,]+/).filter(Boolean);
  return !words.length || words.some((word) => word === task.name || word === task.body ||
    (word.endsWith(".*") && (task.name + ".").startsWith(word.slice(0, -1))));
}

function isShown(step, wished) {
  return wished.has(step.task) && !wish.folded.has(step.word) && (wish.line === null || step.line === wish.line);
}

// What is there at a moment, and which of it is shown; where several commands end there it is at the first, if none is given.
function setMoment(at, command) {
  view.at = Math.max(0, Math.min(data.moments, at));
  view.command = command === undefined ? commandAt(view.at) : command;
  view.steps = steps.filter(stands);
  view.tasks = tasks.filter(stands).sort(byName);
  view.races = view.steps.filter((step) => step.race);
  choosePart();
  showAll();
}

// The steps and tasks that the filter leaves.
function choosePart() {
  view.lanes = view.tasks.filter((task) => !wish.bodies.has(task.body) && isWished(task));
  const wished = new Set(view.lanes.map((task) => task.name));
  view.rows = view.steps.filter((step) => isShown(step, wished));
  view.row = rowsOf(view.rows);
  view.lane = new Map(view.lanes.map((task, lane) => [task.name, lane]));
  view.letters = new Map();
  for (const step of view.rows) if (step.did.length > (view.letters.get(step.task) || 0)) view.letters.set(step.task, step.did.length);
  view.lives = new Map();
  const spawned = new Map(view.lanes.map((task) => [task.step, task.name]));
  const first = new Map(), last = new Map();
  let row = 0;
  for (const step of view.steps) {
    if (spawned.has(step.index)) first.set(spawned.get(step.index), row);
    if (step.word === "end" || step.word === "fault") last.set(step.task, row);
    if (view.row.has(step.index)) row++;
  }
  for (const task of view.lanes) view.lives.set(task.name, [first.get(task.name) || 0, last.has(task.name) ? last.get(task.name) : view.rows.length]);
  view.later = new Map();
  view.arrows = 0;
  for (const step of view.rows) {
    for (const [kind, early] of step.causes) {
      if (steps[early].task === step.task || !view.row.has(early)) continue;
      if (!view.later.has(early)) view.later.set(early, []);
      view.later.get(early).push([kind, step.index]);
      view.arrows++;
    }
  }
  if (view.chosen !== null && !view.row.has(view.chosen)) { view.chosen = null; view.pinned = false; }
}
