// The page: what happens at each control. `page` is where a live page puts what it does more.
const page = {
  taskClicked: (task) => { find("wished-tasks").value = wish.tasks === task.name ? "" : task.name; setWish({ tasks: find("wished-tasks").value }); },
  chosen: null,
  shown: null,
};
let playing = null;

function showAll() {
  const at = view.at, command = view.command, last = data.commands.length - 1, slider = find("at");
  slider.value = at;
  const happened = whatHappened(at);
  slider.setAttribute("aria-valuetext", at ? "step " + at + ": " + happened : "in front of the first step");
  find("where").textContent = at + " of " + data.moments + (at ? ": " + happened : ", in front of the first step") + (command < 0 ? "" : "  |  command " + (command + 1) + " of " + data.commands.length + ": " + data.commands[command][0].replace(/\s+#.*$/, ""));
  find("reply").textContent = command < 0 ? "" : data.commands[command][1].join("\n");
  for (const [id, off] of [["back", at === 0], ["command-back", command < 0], ["on", at === data.moments], ["command-on", command === last && (last < 0 || at === data.commands[last][2])]]) find(id).disabled = off;
  showProgram();
  showCells();
  showRaces();
  showGraph();
  showWishes();
  sizeLanes();
  choose(view.chosen, view.pinned);
  if (page.shown) page.shown();
}

// What led to a moment: a step, or what was taken back.
function whatHappened(at) {
  const came = steps.find((step) => step.born === at);
  if (came) return came.name + " " + came.did;
  const gone = steps.filter((step) => step.died === at);
  return gone.length ? gone[0].name + (gone.length > 1 ? " and " + counted(gone.length - 1, "more step") : "") + " taken back" : "";
}

// The moment, with the newest step of the history in sight.
function goTo(at) {
  setMoment(at);
  if (view.rows.length) scrollTo(view.rows[view.rows.length - 1].index);
}

// To the end of the command before or after, also of one that only looked.
function goToCommand(by) {
  const at = view.at, here = view.command, end = (index) => index < 0 ? 0 : data.commands[index][2];
  const to = by > 0 && here >= 0 && at < end(here) ? here : here + by;
  if (to < -1 || to >= data.commands.length) return;
  setMoment(end(to), to);
  if (view.rows.length) scrollTo(view.rows[view.rows.length - 1].index);
}

function play(on) {
  clearInterval(playing);
  playing = on ? setInterval(() => { goTo(view.at + 1); if (view.at === data.moments) play(false); }, Number(find("speed").value)) : null;
  find("play").textContent = on ? "pause" : "play";
  find("play").setAttribute("aria-label", on ? "pause" : "play");
}

// Marks below the slider, where commands end; of more than can be told from each other, none.
function showMarks() {
  const marks = find("marks"), ends = [...new Set(data.commands.map((command) => command[2]))].filter((end) => end > 0);
  marks.replaceChildren(...(ends.length > marks.clientWidth / 6 ? [] : ends).map((end) => {
    const mark = document.createElement("i");
    mark.style.left = 100 * end / Math.max(1, data.moments) + "%";
    return mark;
  }));
}

function listenAtLanes() {
  const lanes = find("lanes"), stepAt = (event) => { const group = event.target.closest(".step"); return group ? Number(group.dataset.index) : null; };
  lanes.addEventListener("scroll", () => requestAnimationFrame(drawLanes));
  window.addEventListener("resize", () => { sizeLanes(); showGraph(); if (view.chosen === null) showBusyLanes(); else scrollTo(view.chosen); });
  // What is drawn anew between a press and its release is clicked by nobody.
  lanes.addEventListener("pointerover", (event) => { const index = stepAt(event); if (index !== null && !event.buttons && !view.pinned && index !== view.chosen) choose(index, false); });
  lanes.addEventListener("pointerleave", () => { if (!view.pinned) choose(null, false); });
  lanes.addEventListener("click", (event) => { const index = stepAt(event); choose(index, index !== null); });
  lanes.addEventListener("keydown", moveByKey);
  lanes.addEventListener("wheel", (event) => { if (event.ctrlKey) { setZoom(wish.zoom * (event.deltaY < 0 ? 1.1 : 1 / 1.1)); event.preventDefault(); } }, { passive: false });
}

function listen() {
  find("at").addEventListener("input", () => { play(false); goTo(Number(find("at").value)); });
  find("back").addEventListener("click", () => goTo(view.at - 1));
  find("on").addEventListener("click", () => goTo(view.at + 1));
  find("command-back").addEventListener("click", () => goToCommand(-1));
  find("command-on").addEventListener("click", () => goToCommand(1));
  find("play").addEventListener("click", () => { if (playing === null && view.at === data.moments) setMoment(0); play(playing === null); });
  find("speed").addEventListener("change", () => { if (playing !== null) play(true); });
  find("fold").addEventListener("change", () => setFolded(find("fold").checked));
  find("spawns").addEventListener("change", () => setWish({ spawns: find("spawns").checked }));
  find("wished-tasks").addEventListener("change", () => setWish({ tasks: find("wished-tasks").value.trim() }));
  find("zoom-in").addEventListener("click", () => setZoom(wish.zoom * 1.25));
  find("zoom-out").addEventListener("click", () => setZoom(wish.zoom / 1.25));
  find("search").addEventListener("keydown", (event) => {
    if (event.key === "Enter") find("search").setAttribute("aria-invalid", String(!search(find("search").value, event.shiftKey)));
  });
  listenAtLanes();
}

// Takes the data of a session, and shows its end; a page that opens shows the lanes that work there.
function load(told) {
  const opens = !data;
  readData(told);
  const list = find("program").querySelector("ol");
  list.replaceChildren();
  data.source.forEach((text, at) => {
    const line = item(list, text || " ");
    line.append(Object.assign(document.createElement("span"), { className: "stand" }));
    line.addEventListener("click", () => setWish({ line: wish.line === at + 1 ? null : at + 1 }));
  });
  find("at").max = data.moments;
  find("left-out").textContent = data.leftOut.length ? "Not shown: " + data.leftOut.join("; ") : "";
  listBodies();
  showMarks();
  setMoment(data.moments, data.commands.length - 1);
  if (view.rows.length) scrollTo(view.rows[view.rows.length - 1].index);
  if (opens) showBusyLanes();
}
