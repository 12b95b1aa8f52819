// Beside the history: the program, cells, output and races; what is filtered and folded away; and the search.

function showProgram() {
  const lines = find("program").querySelector("ol").children, standing = new Map();
  for (const task of view.tasks) {
    const line = latest(task.states)[2];
    if (line) standing.set(line, (standing.get(line) || []).concat(task.name));
  }
  for (let at = 0; at < lines.length; at++) {
    const mark = lines[at].lastChild, names = standing.get(at + 1) || [];
    const told = names.slice(0, 6).join(", ") + (names.length > 6 ? " and " + (names.length - 6) + " more" : "");
    mark.textContent = names.length ? "   ◀ " + told : "";
    lines[at].classList.toggle("wished", wish.line === at + 1);
  }
}

function showLines(numbers, name) {
  const lines = find("program").querySelector("ol").children;
  for (const line of lines) line.classList.remove("here", "race");
  for (const number of numbers) if (number && lines[number - 1]) lines[number - 1].classList.add(name);
  // Only the list is moved, and not the page.
  const list = find("program").querySelector("ol"), first = numbers.find((number) => number);
  if (first && lines[first - 1]) list.scrollTop = lines[first - 1].offsetTop - list.offsetTop - list.clientHeight / 2;
}

function showCells() {
  find("cells").replaceChildren();
  let count = 0;
  for (const cell of Object.keys(data.cells).map(Number).sort((one, two) => one - two)) {
    const entry = latest(data.cells[cell]), changed = entry && entry[0] === view.at && view.at > 0;
    if (entry && (entry[1] !== "0" || changed) && count++ < 500) item(find("cells"), "cell " + cell + ": " + entry[1] + (changed ? "  (just changed)" : ""));
  }
  if (!count) item(find("cells"), "all are 0");
  const printed = [];
  for (const [at, same, more] of data.out) {
    if (at > view.at) break;
    printed.length = same;
    for (const number of more) printed.push(number);
  }
  find("out").replaceChildren();
  for (const number of printed.slice(-500)) item(find("out"), number);
  if (!printed.length) item(find("out"), "nothing");
}

// Races

// The number of a line; of a recorded run, the C file and its line that its comment names.
function placeOfLine(line) {
  const found = /#\s*([^\s:]+\.(?:c|cc|cpp|cxx|h|hpp):[0-9]+)\b/.exec(data.source[line - 1] || "");
  return found ? found[1] : String(line);
}

function showRaces() {
  const list = find("race-list"), kinds = new Map();
  list.replaceChildren();
  for (const step of view.races) {
    const [early, over, apart] = step.race, key = [placeOfLine(steps[early].line), placeOfLine(step.line), over === "print", apart].join("|");
    if (!kinds.has(key)) kinds.set(key, []);
    kinds.get(key).push(step);
  }
  for (const [key, raced] of [...kinds].slice(0, 500)) {
    const step = raced[0], [early, over, apart] = step.race;
    const places = [...new Set([steps[early].line, step.line].map(placeOfLine))], inC = places.some((place) => place.includes(":"));
    const made = button("✕ " + (inC ? "" : places.length > 1 ? "lines " : "line ") + places.join(" and ") + (raced.length > 1 ? ", " + raced.length + " races, as " : ": ") + steps[early].name + " and " + step.name + ", " + over + (apart ? ", never at once but in either order" : ""), () => showRace(step));
    made.dataset.races = raced.map((some) => steps[some.race[0]].name + " " + some.name).join("; ");
    const row = item(list, "");
    row.append(made);
    if (data.hints[key] && !apart) row.append(Object.assign(document.createElement("p"), { className: "hint", textContent: data.hints[key] }));
  }
  if (!view.races.length) item(list, data.leftOut.some((text) => text.startsWith("races")) ? "left out" : "none so far");
  find("both").replaceChildren();
}

// Both steps of a race: their lines side by side, marked in the program, and the later step in the history.
function showRace(step) {
  const early = steps[step.race[0]];
  find("both").replaceChildren(...[early, step].map(lineBox));
  if (view.row.has(step.index)) { choose(step.index, true); scrollTo(step.index); }
  showLines([early.line, step.line], "race");
}

// A step's line with those around it.
function lineBox(step) {
  const made = document.createElement("div"), name = document.createElement("strong"), text = document.createElement("pre");
  name.textContent = step.name + " " + step.did;
  for (let at = Math.max(1, step.line - 2); at <= Math.min(data.source.length, step.line + 2); at++) {
    const line = document.createElement("span");
    line.textContent = String(at).padStart(4) + "  " + data.source[at - 1] + "\n";
    if (at === step.line) line.className = "race";
    text.append(line);
  }
  made.append(name, text);
  return made;
}

// What is filtered and folded away

function refresh() {
  choosePart();
  sizeLanes();
  showProgram();
  showGraph();
  showWishes();
  choose(view.chosen, view.pinned);
}

function setWish(change) {
  Object.assign(wish, change);
  refresh();
}

function showWishes() {
  const chips = find("chips"), hidden = view.steps.length - view.rows.length;
  chips.replaceChildren();
  if (wish.line !== null) chips.append(button("line " + wish.line + " ×", () => setWish({ line: null }), "chip"));
  if (wish.tasks) chips.append(button("tasks " + wish.tasks + " ×", () => { find("wished-tasks").value = ""; setWish({ tasks: "" }); }, "chip"));
  find("hidden-rows").textContent = hidden ? hidden + " of " + counted(view.steps.length, "step") + " folded away" : "";
}

function listBodies() {
  const list = find("bodies");
  list.replaceChildren();
  for (const body of new Set(tasks.map((task) => task.body))) {
    const label = document.createElement("label"), box = Object.assign(document.createElement("input"), { type: "checkbox", checked: !wish.bodies.has(body) });
    const swatch = document.createElement("span");
    swatch.className = "swatch " + colourOf(body);
    box.addEventListener("change", () => { if (box.checked) wish.bodies.delete(body); else wish.bodies.add(body); refresh(); });
    label.append(box, swatch, document.createTextNode(body));
    list.append(label);
  }
}

function setFolded(on) {
  wish.folded = new Set(on ? ["let", "test"] : []);
  refresh();
}

// The next step whose name, words or source line have the text.
function search(text, backwards) {
  const wanted = text.trim().toLowerCase(), count = view.rows.length;
  if (!wanted || !count) return false;
  const from = view.chosen === null ? (backwards ? count : -1) : view.row.get(view.chosen);
  for (let turn = 1; turn <= count; turn++) {
    const row = (from + (backwards ? -turn : turn) + 2 * count) % count, step = view.rows[row];
    const source = step.line ? data.source[step.line - 1] : "";
    if ((step.name + " " + step.did + "\n" + source).toLowerCase().includes(wanted)) {
      choose(step.index, true);
      scrollTo(step.index);
      return true;
    }
  }
  return false;
}
