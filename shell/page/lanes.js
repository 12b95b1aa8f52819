// The history in lanes: only what is in sight is drawn.
const TOP = 58, LEFT = 22, MOST_SPANS = 400, MOST_LABELS = 60, MOST_ARROWS = 24;
const SHAPES = { start: "M-5 -6 L7 0 L-5 6 Z", end: "M-6 -6 H6 V6 H-6 Z", fault: "M-6 -6 L6 6 M6 -6 L-6 6" };
const ROUND = "M-5 0 A5 5 0 1 0 5 0 A5 5 0 1 0 -5 0 Z";
const LIT = [undefined, "needs", "needers", "chosen"];
const FULL = ["start", "end", "store", "print"];
const LEAST_LETTERS = 8, MOST_LETTERS = 26;
// Of a row and a letter, at the zoom that is chosen.
const size = { row: 26, letter: 8 };

function setZoom(zoom) {
  wish.zoom = Math.max(0.4, Math.min(2.5, zoom));
  Object.assign(size, { row: 26 * wish.zoom, letter: 8 * wish.zoom });
  find("lanes").style.setProperty("--zoom", wish.zoom);
  sizeLanes();
  drawLanes();
}

const placeOf = (index) => [LEFT + view.left[view.lane.get(steps[index].task)], TOP + size.row * view.row.get(index)];
const wideOf = (task) => { const lane = view.lane.get(task); return view.left[lane + 1] - view.left[lane]; };

// Each lane is as wide as its steps' words, but for what would take more than a good third of the screen.
function sizeLanes() {
  const box = find("lanes"), room = box.firstElementChild, most = Math.max(12, Math.min(MOST_LETTERS, Math.floor(box.clientWidth / 21)));
  view.left = [0];
  for (const task of view.lanes) {
    const name = Math.max(LEAST_LETTERS, task.name.length, task.body.length), letters = Math.min(most, Math.max(name, view.letters.get(task.name) || 0));
    view.left.push(view.left[view.left.length - 1] + (letters + 5) * size.letter);
  }
  room.style.width = Math.max(300, LEFT + view.left[view.lanes.length]) + "px";
  room.style.height = TOP + size.row * (view.rows.length + 1) + "px";
}

function drawLanes() {
  const box = find("lanes"), svg = find("drawn"), top = box.scrollTop, left = box.scrollLeft;
  const wide = box.clientWidth, high = box.clientHeight;
  svg.setAttribute("width", wide);
  svg.setAttribute("height", high);
  svg.style.transform = "translate(" + left + "px," + top + "px)";
  svg.setAttribute("viewBox", left + " " + top + " " + wide + " " + high);
  const first = Math.max(0, Math.floor((top - TOP) / size.row) - 2), last = Math.min(view.rows.length - 1, Math.ceil((top + high - TOP) / size.row) + 2);
  const seen = view.rows.slice(first, last + 1), parts = [];
  const lanes = view.lanes.filter((task, lane) => LEFT + view.left[lane + 1] > left && view.left[lane] < left + wide);
  for (const task of lanes) {
    const x = LEFT + view.left[view.lane.get(task.name)], [begin, end] = view.lives.get(task.name);
    parts.push(element("line", { class: "lane " + colourOf(task.body), x1: x, x2: x, y1: Math.max(top - 20, TOP + size.row * begin), y2: Math.min(top + high + 20, TOP + size.row * end) }));
  }
  drawArrows(seen, first, last, parts);
  for (const step of seen) parts.push(stepOf(step));
  parts.push(element("rect", { class: "head", x: left, y: top, width: wide, height: 40 }));
  for (const task of lanes) {
    const x = LEFT + view.left[view.lane.get(task.name)] - 8, made = element("g", { class: "lane-name", "data-lane": task.name });
    made.append(element("rect", { class: "stripe " + colourOf(task.body), x, y: top + 36, width: Math.min(90, wideOf(task.name) - 20), height: 3 }),
      element("text", { x, y: top + 17, "font-weight": "bold" }, task.name), element("text", { x, y: top + 33 }, task.body));
    parts.push(made);
  }
  svg.replaceChildren(...parts);
}

// The arrows that touch what is in sight, with their labels where these lie on nothing.
function drawArrows(seen, first, last, parts) {
  const drawn = new Map(), inSight = (index) => { const row = view.row.get(index); return row >= first && row <= last; };
  const few = view.arrows <= MOST_SPANS, all = few ? view.rows : seen;
  const note = (kind, early, late) => { if (view.row.has(early) && (wish.spawns || kind !== "spawn")) drawn.set(kind + "|" + early + "|" + late, [kind, early, late]); };
  for (const step of all) {
    for (const [kind, early] of step.causes) if (steps[early].task !== step.task) note(kind, early, step.index);
    if (!few) for (const [kind, late] of view.later.get(step.index) || []) if (!inSight(late)) note(kind, step.index, late);
  }
  const wide = tooMany([...drawn.values()], inSight);
  const shown = [...drawn.values()].filter(([kind, early, late]) => !wide.some(([some, word]) => some === late && word === kind) || inSight(early) && inSight(late) && Math.abs(placeOf(early)[0] - placeOf(late)[0]) < 60 * size.letter);
  const curves = shown.map(([kind, early, late]) => ({ kind, early, late, name: "arrow " + kind.split(" ")[0], ...curveOf(early, late, 0, false) }));
  for (const step of seen) {
    if (step.race && view.row.has(step.race[0])) {
      const [early, over, apart] = step.race;
      curves.push({ kind: (apart ? "apart: " : "race: ") + over, early, late: step.index, race: true, name: "arrow racing" + (apart ? " apart" : ""), ...curveOf(early, step.index, -24, true) });
    }
  }
  for (const curve of curves) {
    const path = element("path", { class: curve.name, "data-from": steps[curve.early].name, "data-to": steps[curve.late].name, "data-kind": curve.kind, d: curve.d });
    if (!curve.race) path.setAttribute("marker-end", "url(#head)");
    path.append(element("title", {}, curve.kind + ": " + steps[curve.early].name + " and " + steps[curve.late].name));
    parts.push(path);
  }
  placeLabels(curves.filter((curve) => inSight(curve.early) || inSight(curve.late)), wide, seen, parts);
}

// The steps in sight to which more arrows of a kind lead than can be told from each other: of these the nearest are drawn.
function tooMany(arrows, inSight) {
  const counts = new Map();
  for (const [kind, , late] of arrows) if (inSight(late)) counts.set(late + "|" + kind, (counts.get(late + "|" + kind) || 0) + 1);
  return [...counts].filter(([, count]) => count > MOST_ARROWS).map(([key, count]) => { const [late, kind] = key.split("|"); return [Number(late), kind, count]; });
}

// Where an arrow goes: labels stand to the right of the marks, so it goes off below them, and comes in from the right above them.
function curveOf(early, late, bow, racing) {
  const [x, y] = placeOf(early), [toX, toY] = placeOf(late), side = toX > x ? 1 : -1;
  const below = side > 0 && !racing ? 7 : 0, above = side > 0 ? 0 : 8;
  const from = x + side * (below ? 5 : 7), to = toX - side * (above ? 6 : 9), lift = bow + Math.min(120, (toY - y) * 0.25);
  const points = [[from, y + below], [from + side * 30, y + below + lift], [to - side * 40, toY - above - lift * 0.3], [to, toY - above]];
  return { points, d: "M" + points[0].join(" ") + " C" + points.slice(1).map((point) => point.join(" ")).join(" ") };
}

function pointOn([a, b, c, d], part) {
  const left = 1 - part, mix = (axis) => left ** 3 * a[axis] + 3 * left * left * part * b[axis] + 3 * left * part * part * c[axis] + part ** 3 * d[axis];
  return [mix(0), mix(1)];
}

// An arrow as straight lines, of which none is a pixel off: so many suffice, however long the arrow is.
function linesOf(points) {
  const length = points.slice(1).reduce((sum, [x, y], at) => sum + Math.hypot(x - points[at][0], y - points[at][1]), 0);
  const count = Math.max(24, Math.min(256, Math.ceil(length / 16))), found = [...Array(count + 1).keys()].map((at) => pointOn(points, at / count));
  return found.slice(1).map((point, at) => [found[at], point]);
}

// Whether a straight line comes into a rectangle.
function crosses(rect, [[x, y], [toX, toY]]) {
  const left = rect.x, right = rect.x + rect.wide, top = rect.y, bottom = rect.y + rect.high;
  if (Math.max(x, toX) < left || Math.min(x, toX) > right || Math.max(y, toY) < top || Math.min(y, toY) > bottom) return false;
  const sides = [[left, top], [left, bottom], [right, top], [right, bottom]].map(([a, b]) => (toX - x) * (b - y) - (toY - y) * (a - x));
  return Math.min(...sides) <= 0 && Math.max(...sides) >= 0;
}

const meet = (one, two) => one.x < two.x + two.wide && two.x < one.x + one.wide && one.y < two.y + two.high && two.y < one.y + one.high;

const wordsAt = (step) => { const [x, y] = placeOf(step.index); return { x: x - 8, y: y - 9, wide: 22 + size.letter * Math.min(step.did.length, letters(step.task)), high: 18 }; };

// Labels of arrows, and the counts of those that aren't drawn: each at the first place beside its arrow or its step
// where it lies on no arrow, no step's words and no other label.
function placeLabels(curves, counts, seen, parts) {
  const few = curves.length <= MOST_LABELS, taken = seen.map(wordsAt);
  const lines = !few && !counts.length ? [] : curves.flatMap((curve) => linesOf(curve.points));
  const from = find("lanes").scrollLeft, isFree = (rect) => rect.x > from && !taken.some((other) => meet(rect, other)) && !lines.some((line) => crosses(rect, line));
  const put = (text, name, spots) => {
    const wide = 6.8 * text.length, high = 13, spot = spots(wide, high).map(([x, y]) => ({ x, y, wide, high })).find(isFree);
    if (!spot) return;
    taken.push(spot);
    parts.push(element("text", { class: "kind" + name, x: spot.x, y: spot.y + high - 3 }, text));
  };
  for (const [late, kind, count] of counts) {
    const words = wordsAt(steps[late]), beside = words.x + words.wide + 6;
    put(kind + ": " + counted(count, "step"), "", () => [[beside, words.y + 2], [beside, words.y - 8], [beside, words.y + 12], [words.x + 20, words.y - 14], [beside + 60, words.y + 2]]);
  }
  for (const curve of few ? curves.filter((some) => some.kind !== "spawn") : []) {
    put((curve.race ? "✕ " : "") + curve.kind, curve.race ? " racing" : "", (wide, high) => [0.5, 0.4, 0.6, 0.3, 0.7, 0.2, 0.8, 0.9].flatMap((part) => {
      const [x, y] = pointOn(curve.points, part);
      return [[x - wide / 2, y - high - 4], [x - wide / 2, y + 4], [x + 6, y - high / 2], [x - wide - 6, y - high / 2]];
    }));
  }
}

const letters = (task) => Math.max(4, Math.floor(wideOf(task) / size.letter - 5));

function stepOf(step) {
  const [x, y] = placeOf(step.index), group = element("g", { class: "step", id: "step-" + step.index, "data-step": step.name, "data-index": step.index, role: "option" });
  const lit = view.lit && view.lit.get(step.index), wide = wideOf(step.task), room = letters(step.task);
  const label = step.did.length > room ? step.did.slice(0, Math.max(1, room - 1)) + "…" : step.did;
  if (lit) group.classList.add(lit);
  if (step.index === view.chosen) group.setAttribute("aria-selected", "true");
  const colour = colourOf(view.lanes[view.lane.get(step.task)].body);
  group.append(element("title", {}, step.name + " " + step.did + (step.line ? ", line " + step.line : "")),
    element("rect", { class: "back", x: x - 12, y: y - 12, width: wide - 14, height: 24, rx: 4 }),
    element("path", { class: "shape " + colour + (FULL.includes(step.word) ? " full" : ""), transform: "translate(" + x + " " + y + ")", d: SHAPES[step.word] || ROUND }),
    element("text", { class: "label", x: x + 12, y: y + 4 }, label));
  const mark = { needs: "▲", needers: "▼" }[lit];
  // In the gap between the lanes, so that no word is cut for it.
  if (mark) group.append(element("text", { x: x + wide - 24, y: y + 4, "font-size": 11, "font-weight": "bold" }, mark));
  return group;
}

// The chosen step, what it needs, and what needs it.
function choose(index, pinned) {
  view.chosen = index;
  view.pinned = pinned;
  const lit = new Uint8Array(steps.length);
  view.lit = { get: (at) => LIT[lit[at]] };
  if (index !== null) {
    const needs = needsOf(index), needers = needersOf(index), step = steps[index];
    for (const early of needs) lit[early] = 1;
    for (const later of needers) lit[later] = 2;
    lit[index] = 3;
    const needed = needsKnown() ? "it needs " + counted(needs.length, "step") + "; roll " + step.name + " takes " + (needers.length + 1) : "what it needs is left out";
    find("told").textContent = step.name + " " + step.did + (step.line ? ", line " + step.line : "") + ": " + needed + (pinned ? " (chosen)" : "");
    showLines([step.line], "here");
  } else {
    find("told").textContent = "Point at a step, or choose one by the arrow keys in the history, to see what it needs and what needs it.";
    showLines([], "here");
  }
  if (index === null) find("lanes").removeAttribute("aria-activedescendant");
  else find("lanes").setAttribute("aria-activedescendant", "step-" + index);
  if (page.chosen) page.chosen(index === null ? null : steps[index]);
  drawLanes();
}

function scrollTo(index) {
  const box = find("lanes"), [x, y] = placeOf(index);
  if (y < box.scrollTop + TOP || y > box.scrollTop + box.clientHeight - size.row) box.scrollTop = y - box.clientHeight / 2;
  if (x < box.scrollLeft || x + wideOf(steps[index].task) > box.scrollLeft + box.clientWidth) box.scrollLeft = Math.max(0, x - box.clientWidth / 3);
  drawLanes();
}

// Of the rows in sight, the lanes in which most steps are, of which the later ones weigh more: a root that waits shows
// nothing of who works.
function showBusyLanes() {
  const box = find("lanes"), counts = new Map();
  const first = Math.floor((box.scrollTop + 40 - TOP) / size.row), last = Math.ceil((box.scrollTop + box.clientHeight - TOP) / size.row);
  view.rows.slice(Math.max(0, first), last).forEach((step, at) => counts.set(view.lane.get(step.task), (counts.get(view.lane.get(step.task)) || 0) + at + 1));
  const busy = [...counts].sort(([one], [two]) => one - two);
  const countFrom = (from) => busy.reduce((sum, [lane, count]) => sum + (lane >= from && LEFT + view.left[lane + 1] - view.left[from] <= box.clientWidth ? count : 0), 0);
  const best = busy.reduce((found, [lane]) => { const count = countFrom(lane); return count > found.count ? { lane, count } : found; }, { lane: 0, count: countFrom(0) });
  box.scrollLeft = view.left[best.lane];
  drawLanes();
}

function moveByKey(event) {
  const row = view.chosen === null ? -1 : view.row.get(view.chosen), last = view.rows.length - 1;
  const to = { ArrowDown: Math.min(last, row + 1), ArrowUp: Math.max(0, row - 1), Home: 0, End: last, PageDown: Math.min(last, row + 15), PageUp: Math.max(0, row - 15) }[event.key];
  if (event.key === "Escape") choose(null, false);
  else if (to !== undefined && last >= 0) { choose(view.rows[to].index, true); scrollTo(view.rows[to].index); }
  else return;
  event.preventDefault();
}
