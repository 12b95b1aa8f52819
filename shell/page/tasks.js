// The graph of the tasks: groups as boxes, the waits that are over, races in red; many tasks stand in clusters.
const MOST_BOXES = 300, FEW_BOXES = 40, LEAST_FIT = 4, WIDE = 188, HIGH = 116, SLANT = 10;     // from box to box, and how odd rows are moved

function showGraph() {
  const svg = find("graph"), parts = [], clustered = view.tasks.length > MOST_BOXES;
  const shown = clustered ? view.tasks.filter((task) => wish.opened.has(clusterOf(task))).slice(0, MOST_BOXES) : view.tasks;
  find("clusters").hidden = !clustered;
  if (clustered) { drawClusters(svg, parts, shown); return; }
  const standing = new Map(view.tasks.map((task) => [task.name, task])), there = standing;
  const earlier = {
    tasks: (name) => standing.get(name).before.map(([other]) => tasks[other].name),
    children: (step) => step.causes.filter(([kind]) => kind === "wait").map(([, early]) => steps[early].task),
  };
  const plan = layoutOf(view.steps, earlier, (name) => there.has(name), MOST_BOXES, Math.max(LEAST_FIT, Math.floor((svg.parentElement.clientWidth - 50) / WIDE)));
  const below = new Set(plan.nodes.filter((node) => node.goesOn).map((node) => node.name)), children = new Map();
  for (const task of shown) children.set(parentOf(task), (children.get(parentOf(task)) || 0) + 1);
  const isPlain = (task) => !below.has(task.name) && (children.get(parentOf(task)) <= MOST_ARROWS || !task.before.length);
  const place = new Map(plan.nodes.map((node) => [node.name, [24 + node.column * WIDE + (node.row % 2) * SLANT, 30 + node.row * HIGH]]));
  coverBoxes(place);
  const titles = plan.boxes.map((box) => groupBox(box, plan.groups.get(box.name).line, parts)), few = shown.length <= FEW_BOXES;
  for (const task of shown) edgesOf(task, place, few, isPlain(task), parts);
  raceEdges((step) => step.task, place, parts);
  for (const node of plan.nodes.filter((some) => some.isWait)) waitOf(node, place, few, parts);
  parts.push(...titles);
  putLabels(parts);
  for (const task of shown) boxOf(task, place.get(task.name), plan.inside.get(task.name), parts);
  svg.setAttribute("width", plan.wide * WIDE + 50);
  svg.setAttribute("height", plan.high * HIGH + 26);
  svg.replaceChildren(headOf(), ...parts);
}

// The box of a group; its title is returned, since edges lie below it.
function groupBox(box, line, parts) {
  const pad = Math.max(4, 16 - 3 * box.depth), x = 24 + box.from * WIDE - pad, y = 20 + box.low * HIGH - pad;
  const title = "taskgroup " + box.name + (line ? ", line " + line : "");
  const rect = element("rect", { class: "group", "data-group": box.name, x, y, width: (box.to - box.from) * WIDE + SLANT + 140 + 2 * pad, height: (box.high - box.low) * HIGH + 68 + 2 * pad, rx: 9 });
  rect.append(element("title", {}, title));
  parts.push(rect);
  return element("text", { class: "kind", x: x + 6, y: y + 13 }, title.slice(0, 26));
}

// An edge from one box down to another, or below both where they stand side by side: one back, and a race, go lower.
function pointsBetween(place, one, two, racing) {
  const [x, y] = place.get(one), [toX, toY] = place.get(two), part = (toX - x) / 3, low = y + (racing ? 112 : toX > x ? 79 : 97), aside = racing ? 84 : 70;
  return y === toY ? [[x + aside, y + 58], [x + aside + part, low], [toX + aside - part, low], [toX + aside, y + 58]]
    : [[x + aside, y + 58], [x + aside, y + 84], [toX + aside, toY - 26], [toX + aside, toY]];
}

function edgeOf(place, one, two, name, label, text, parts) {
  if (!place.has(one) || !place.has(two)) return null;
  const points = pointsBetween(place, one, two, name.startsWith("racing"));
  const made = element("path", { class: "edge " + name, d: "M" + points[0].join(" ") + " C" + points.slice(1).map((point) => point.join(" ")).join(" "), "data-from": one, "data-to": two });
  if (!/apart|racing/.test(name)) made.setAttribute("marker-end", "url(#head)");
  made.append(element("title", {}, label));
  parts.push(made);
  const lines = linesOf(points);
  (name === "spawn" ? covered.thin : covered.lines).push(...lines);
  if (text) covered.wanted.push({ points, lines, text, name });
  return made;
}

// What is drawn: boxes and labels, edges as straight lines, the thin ones of them, and the labels that are wanted.
const covered = { rects: [], lines: [], thin: [], wanted: [] };
// So many lines are looked at for each label.
const MOST_LINES = 6000;

// The labels, each beside its edge where it covers nothing and is far from other edges, or else thin edges alone. Where there is no such place a
// race's and a count's may lie on its own edge; another one is left out, and its edge says it when it is pointed at.
function putLabels(parts) {
  const [lines, thin] = [covered.lines, covered.thin].map((some) => some.length > MOST_LINES ? [] : some);
  for (const { points, lines: own, text, name } of covered.wanted) {
    const wide = 6.8 * text.length + 4, high = 13, rect = ([x, y]) => ({ x, y, wide, high });
    const on = [0.5, 0.4, 0.6, 0.3, 0.7, 0.2, 0.8].map((part) => pointOn(points, part));
    const beside = on.flatMap(([x, y]) => [[x + 5, y - high / 2], [x - wide - 5, y - high / 2], [x - wide / 2, y + 3], [x - wide / 2, y - high - 3]]).map(rect);
    const isFree = (some) => some.x > 0 && !covered.rects.some((other) => meet(some, other));
    const may = name.startsWith("racing") || /^[0-9]+$/.test(text);
    const free = beside.filter((some) => isFree(some) && !lines.some((line) => crosses(some, line)));
    const clear = free.filter((some) => !thin.some((line) => crosses(some, line)));
    const others = [...lines, ...thin].filter((line) => !own.includes(line)), around = ({ x, y }) => ({ x: x - 7, y: y - 7, wide: wide + 14, high: high + 14 });
    const spot = clear.find((some) => !others.some((line) => crosses(around(some), line))) || clear[0] || free[0] || (may && on.map(([x, y]) => rect([x - wide / 2, y - high / 2])).find(isFree));
    if (!spot) continue;
    covered.rects.push(spot);
    parts.push(element("text", { class: "kind" + (name.startsWith("racing") ? " racing" : ""), x: spot.x + wide / 2, y: spot.y + 10, "text-anchor": "middle" }, text));
  }
}

// The boxes that are drawn, which no label may cover.
function coverBoxes(place) {
  Object.assign(covered, { rects: [...place.values()].map(([x, y]) => ({ x, y, wide: 140, high: 58 })), lines: [], thin: [], wanted: [] });
}

// Whether lines pass below boxes that are neither of their ends.
function crossBoxes(place, lines, one, two) {
  return [...place].some(([name, [x, y]]) => name !== one && name !== two && lines.some((line) => crosses({ x, y, wide: 140, high: 58 }, line)));
}

function passesBoxes(place, one, two) {
  return place.has(one) && place.has(two) && crossBoxes(place, linesOf(pointsBetween(place, one, two, false)), one, two);
}

const parentOf = (task) => task.name.split(".").slice(0, -1).join(".");

// An arrow from who generated a task is left out where other boxes are in between and there are many, or this one comes
// after another, which many that one generated do; and in a row that goes on below: the names tell who it was.
function edgesOf(task, place, few, isPlain, parts) {
  const parent = parentOf(task);
  if (parent && wish.spawns && isPlain && !((task.before.length || !few) && passesBoxes(place, parent, task.name))) edgeOf(place, parent, task.name, "spawn", parent + " generates " + task.name, "", parts);
  for (const [other, label] of task.before) edgeOf(place, tasks[other].name, task.name, "before", label.join("; "), few ? label[0] : "", parts);
  for (const [other, label] of task.apart) edgeOf(place, tasks[other].name, task.name, "apart", label.join("; "), few ? label[0] : "", parts);
}

// The races as red arrows between the boxes of their tasks, one for each pair.
function raceEdges(boxOfStep, place, parts) {
  const counts = new Map();
  for (const step of view.races) {
    const key = [boxOfStep(steps[step.race[0]]), boxOfStep(step)].sort().join("\n");
    // Of a cluster's own races its box has the count.
    if (boxOfStep(steps[step.race[0]]) === boxOfStep(step)) continue;
    if (!counts.has(key)) counts.set(key, []);
    counts.get(key).push(step);
  }
  for (const [key, raced] of counts) {
    const [one, two] = key.split("\n"), first = raced[0];
    const made = edgeOf(place, one, two, "racing" + (raced.every((step) => step.race[2]) ? " apart" : ""), counted(raced.length, "race") + ", as " + steps[first.race[0]].name + " and " + first.name + ", " + first.race[1], raced.length > 1 ? "✕ " + raced.length : "✕", parts);
    if (made) made.addEventListener("click", () => showRace(first));
  }
}

// A diamond for a taskwait that is over, below its task and the children whose ends it needed; where a line to its task
// would pass below other boxes and there are many, it has the task's name.
function waitOf(wait, place, few, parts) {
  const [x, y] = place.get(wait.name), [fromX, fromY] = place.get(wait.task), told = "taskwait" + (wait.line ? ", line " + wait.line : "");
  const named = !few && crossBoxes(place, [[[fromX + 12, fromY + 58], [x + 12, y + 29]]], wait.task, wait.name);
  if (!named) parts.push(element("path", { class: "edge at", d: "M" + (fromX + 12) + " " + (fromY + 58) + " L" + (x + 12) + " " + (y + 29) + " L" + (x + 30) + " " + (y + 29) }));
  const many = wait.children.length > MOST_ARROWS;
  for (const child of wait.children) {
    if (many || !place.has(child)) continue;
    const [childX, childY] = place.get(child);
    covered.lines.push([[childX + 70, childY + 58], [x + 70, y + 9]]);
    parts.push(element("path", { class: "edge wait", "data-from": child, "data-to": wait.name, "marker-end": "url(#head)", d: "M" + (childX + 70) + " " + (childY + 58) + " L" + (x + 70) + " " + (y + 9) }));
  }
  const group = element("g", { "data-wait": wait.name });
  group.append(element("path", { class: "diamond", d: "M" + (x + 30) + " " + (y + 29) + " L" + (x + 70) + " " + (y + 9) + " L" + (x + 110) + " " + (y + 29) + " L" + (x + 70) + " " + (y + 49) + " Z" }),
    element("text", { class: "kind", x: x + 70, y: y + 33, "text-anchor": "middle" }, wait.line ? "line " + wait.line : "wait"),
    ...(named ? [element("text", { class: "kind", x: x + 70, y: y + 62, "text-anchor": "middle" }, "of " + wait.task)] : []),
    ...(many ? [element("text", { class: "kind", x: x + 116, y: y + 33 }, "waits for " + wait.children.length)] : []),
    element("title", {}, wait.name + " " + told + (wait.children.length ? ": waited for " + wait.children.join(", ") : "")));
  parts.push(group);
}

function boxOf(task, [x, y], inside, parts) {
  const [, state, line, why] = latest(task.states), [word, other] = why.split(" ");
  const told = { Waiting: "after " + other, Excluded: "not with " + other }[word] || (why && why !== "can step" ? "waits for " + other : why);
  const group = element("g", { class: "task" + (wish.tasks === task.name ? " wished" : ""), "data-task": task.name, "data-inside": inside || "" });
  group.append(element("rect", { class: "box " + state + (told === "can step" ? " ready" : ""), x, y, width: 140, height: 58, rx: 5 }),
    element("rect", { class: "stripe " + colourOf(task.body), x: x + 1, y: y + 1, width: 5, height: 56 }),
    element("text", { x: x + 10, y: y + 17, "font-weight": "bold" }, (task.name + " " + task.body).slice(0, 16)),
    element("text", { x: x + 10, y: y + 34 }, state + (line ? ", line " + line : "")),
    element("text", { x: x + 10, y: y + 50 }, told), element("title", {}, task.name + " " + task.body + " " + state + " " + told));
  group.addEventListener("click", () => page.taskClicked(task));
  parts.push(group);
}

// Clusters: the tasks of one body that one line generated.

const clusterOf = (task) => task.body + "|" + task.line;

function drawClusters(svg, parts, shown) {
  const clusters = new Map(), standing = new Map(view.tasks.map((task) => [task.name, task]));
  const depth = (task) => task.name.split(".").length - 1;
  for (const task of view.tasks) {
    const key = clusterOf(task);
    if (!clusters.has(key)) clusters.set(key, { key, body: task.body, line: task.line, row: depth(task), tasks: [], states: new Map() });
    const cluster = clusters.get(key), state = latest(task.states)[1];
    cluster.tasks.push(task);
    cluster.row = Math.min(cluster.row, depth(task));
    cluster.states.set(state, (cluster.states.get(state) || 0) + 1);
  }
  const columns = new Map(), place = new Map();
  let high = 0, wide = 1;
  for (const cluster of clusters.values()) {
    const column = columns.get(cluster.row) || 0;
    columns.set(cluster.row, column + 1);
    place.set(cluster.key, [24 + column * WIDE, 30 + cluster.row * HIGH]);
    high = Math.max(high, cluster.row + 1);
    wide = Math.max(wide, column + 1);
  }
  const across = Math.max(6, wide);
  shown.forEach((task, at) => place.set(task.name, [24 + (at % across) * WIDE, 30 + (high + Math.floor(at / across)) * HIGH]));
  coverBoxes(place);
  clusterEdges(clusters, standing, place, parts);
  raceEdges((step) => clusterOf(standing.get(step.task)), place, parts);
  putLabels(parts);
  for (const cluster of clusters.values()) clusterBox(cluster, place.get(cluster.key), parts);
  for (const task of shown) boxOf(task, place.get(task.name), "", parts);
  svg.setAttribute("width", (shown.length ? across : wide) * WIDE + 50);
  svg.setAttribute("height", (high + Math.ceil(shown.length / across)) * HIGH + 26);
  svg.replaceChildren(headOf(), ...parts);
}

// Edges between clusters, each with how many it stands for.
function clusterEdges(clusters, standing, place, parts) {
  const counts = new Map(), count = (name, one, two) => { const key = [name, one, two].join("\n"); counts.set(key, (counts.get(key) || 0) + 1); };
  for (const task of view.tasks) {
    const parent = standing.get(task.name.split(".").slice(0, -1).join("."));
    if (parent) count("spawn", clusterOf(parent), clusterOf(task));
    for (const [other] of task.before) count("before", clusterOf(tasks[other]), clusterOf(task));
    for (const [other] of task.apart) count("apart", clusterOf(tasks[other]), clusterOf(task));
  }
  for (const [key, number] of counts) {
    const [name, one, two] = key.split("\n"), label = number + " " + { spawn: "generated", before: "come before", apart: "exclude each other" }[name];
    if (one !== two) edgeOf(place, one, two, name, label, String(number), parts);
    else clusters.get(one)[name] = number;
  }
  for (const step of view.races) {
    const one = clusterOf(standing.get(steps[step.race[0]].task)), two = clusterOf(standing.get(step.task));
    if (one === two) clusters.get(one).racing = (clusters.get(one).racing || 0) + 1;
  }
}

function clusterBox(cluster, [x, y], parts) {
  const group = element("g", { class: "cluster" + (wish.opened.has(cluster.key) ? " opened" : ""), "data-cluster": cluster.key, tabindex: 0, role: "button" });
  const inside = [["racing", "racing"], ["before", "ordered"], ["apart", "apart"]].filter(([name]) => cluster[name]).map(([name, word]) => cluster[name] + " " + word).join(", ");
  group.append(element("rect", { class: "box", x, y, width: 140, height: 58, rx: 5 }), element("rect", { class: "stripe " + colourOf(cluster.body), x: x + 1, y: y + 1, width: 5, height: 56 }),
    element("text", { x: x + 10, y: y + 17, "font-weight": "bold" }, (cluster.tasks.length + " × " + cluster.body).slice(0, 16)),
    element("text", { x: x + 10, y: y + 34 }, cluster.line ? "of line " + cluster.line : "the root"),
    element("text", { x: x + 10, y: y + 50, class: cluster.racing ? "racing" : "" }, inside.slice(0, 16) || [...cluster.states].map(([state, number]) => number + " " + state).join(", ").slice(0, 17)),
    element("title", {}, counted(cluster.tasks.length, "task") + " of " + cluster.body + ": " + [...cluster.states].map(([state, number]) => number + " " + state).join(", ") + (inside ? "; among them " + inside : "") + "; a click opens it"));
  const act = () => { if (!wish.opened.delete(cluster.key)) wish.opened.add(cluster.key); showGraph(); };
  group.addEventListener("click", act);
  group.addEventListener("keydown", (event) => { if (event.key === "Enter" || event.key === " ") { act(); event.preventDefault(); } });
  parts.push(group);
}

function headOf() {
  const defs = element("defs", {}), marker = element("marker", { id: "head", viewBox: "0 0 8 8", refX: 7, refY: 4, markerWidth: 9, markerHeight: 9, orient: "auto", markerUnits: "userSpaceOnUse" });
  marker.append(element("path", { d: "M0 0 L8 4 L0 8 Z", fill: "context-stroke" }));
  defs.append(marker);
  return defs;
}
