// A page that is served: what is clicked is done in the session, and the page shows what came of it.
const live = { busy: false };

function ask(command) {
  if (live.busy) return;
  live.busy = true;
  find("live-told").textContent = command + " …";
  fetch("do", { method: "POST", headers: { "Content-Type": "application/json" }, body: JSON.stringify({ command }) })
    .then((answer) => answer.ok ? answer.json() : answer.text().then((text) => { throw new Error(text); }))
    .then((told) => {
      live.busy = false;
      load(told.data);
      find("live-told").className = told.outcome;
      find("live-told").textContent = command + ": " + [...told.lines.slice(-3), ...told.words].join("  |  ");
    })
    .catch((fault) => { live.busy = false; find("live-told").className = "error"; find("live-told").textContent = String(fault.message || fault); });
}

// The tasks that can step, a button each; what is looked at in the past can't be stepped.
function showLive() {
  const now = view.at === data.moments, ready = view.tasks.filter((task) => now && latest(task.states)[3] === "can step");
  find("live-ready").replaceChildren(...ready.slice(0, 24).map((task) => { const made = button("step " + task.name, () => ask("step " + task.name), "chip"); made.dataset.step = task.name; return made; }),
    ...(ready.length > 24 ? [document.createTextNode(" and " + (ready.length - 24) + " more")] : []));
  if (!now) find("live-ready").textContent = "This is the past: the last moment of the slider is the present.";
  for (const id of ["live-run", "live-back", "live-redo", "live-restart"]) find(id).disabled = !now;
}

// What can be taken back with the chosen step, and what goes with it.
function showChosen(step) {
  const box = find("live-chosen");
  box.replaceChildren();
  if (!step || !view.pinned || view.at !== data.moments) return;
  const gone = needersOf(step.index).map((index) => steps[index].name);
  if (!gone.length) { box.append(button("undo " + step.name, () => ask("undo " + step.name))); return; }
  const told = document.createElement("p");
  told.textContent = "roll " + step.name + " takes " + counted(gone.length + 1, "step") + ": " + [step.name, ...gone].slice(0, 12).join(", ") + (gone.length > 11 ? " and " + (gone.length - 11) + " more" : "");
  box.append(told, button("roll back", () => ask("roll " + step.name)));
}

function listenLive() {
  find("live-run").addEventListener("click", () => ask("run " + (Number(find("live-count").value) || 1)));
  find("live-back").addEventListener("click", () => ask("back"));
  find("live-redo").addEventListener("click", () => ask("redo"));
  find("live-restart").addEventListener("click", () => ask("restart"));
  page.taskClicked = (task) => {
    const [, , , why] = latest(task.states);
    if (view.at === data.moments && why === "can step") ask("step " + task.name);
    else find("live-told").textContent = task.name + " " + (why || "has ended");
  };
  find("task-click").textContent = "a click steps a task that can step";
  page.chosen = showChosen;
  page.shown = showLive;
}

listenLive();
listen();
load(JSON.parse(find("data").textContent));
