"use strict";
// Where the graph of the tasks has its parts. A task stands below the one that generated it, below those that it comes
// after, and below the waits and groups that were over when it was generated. Each group has columns of its own, so
// its box holds its members and nothing else.
const layoutOf = (function () {
  // The rows of tasks and waits, and who is in which group; what a step names came in front of it.
  function readHistory(steps, earlier) {
    const told = { row: new Map([["0", 0]]), inside: new Map([["0", null]]), groups: new Map(), waits: [] };
    const opened = new Map(), over = new Map();
    const grow = (name, row) => { for (let group = told.groups.get(name); group; group = told.groups.get(group.outer)) group.last = Math.max(group.last, row); };
    for (const step of steps) {
      const task = step.task, above = Math.max(told.row.get(task), over.get(task) || 0);
      if (!opened.has(task)) opened.set(task, []);
      const stack = opened.get(task), group = stack.length ? stack[stack.length - 1] : told.inside.get(task);
      if (step.word === "open") {
        told.groups.set(step.name, { name: step.name, outer: group, line: step.line, last: above });
        stack.push(step.name);
      } else if (step.word === "close") over.set(task, told.groups.get(stack.pop()).last);
      else if (step.word === "wait") {
        const children = earlier.children(step), row = 1 + Math.max(above, ...children.map((child) => told.row.get(child)));
        told.waits.push({ name: step.name, task, line: step.line, children, row, group });
        over.set(task, row);
        grow(group, row);
      } else if (step.word === "spawn") {
        const child = step.did.split(" ")[1], row = 1 + earlier.tasks(child).reduce((most, name) => Math.max(most, told.row.get(name)), above);
        told.row.set(child, row);
        told.inside.set(child, group);
        grow(group, row);
      }
    }
    return told;
  }

  // What each group has in it: nodes, and groups that have some.
  function membersOf(nodes, groups) {
    const members = new Map([[null, { nodes: [], groups: [] }]]);
    const reach = (name) => {
      for (let group = groups.get(name); group && !members.has(group.name); group = groups.get(group.outer)) members.set(group.name, { nodes: [], groups: [] });
      return members.get(name);
    };
    for (const node of nodes) reach(node.group).nodes.push(node);
    for (const group of groups.values()) if (members.has(group.name)) members.get(group.outer).groups.push(group.name);
    return members;
  }

  // The columns that a group needs: its own nodes first, then bands that groups share where no row has two of them.
  function measure(members, name) {
    const own = members.get(name), taken = new Map(), rows = [];
    for (const node of own.nodes) {
      node.column = taken.get(node.row) || 0;
      taken.set(node.row, node.column + 1);
      rows.push(node.row);
    }
    own.wide = Math.max(0, ...taken.values());
    own.bands = [];
    for (const inner of own.groups) {
      const { wide, low, high } = measure(members, inner);
      let band = own.bands.find((some) => some.spans.every(([from, to]) => high < from || to < low));
      if (!band) own.bands.push(band = { wide: 0, spans: [], groups: [] });
      band.wide = Math.max(band.wide, wide);
      band.spans.push([low, high]);
      band.groups.push(inner);
      rows.push(low, high);
    }
    own.low = Math.min(...rows);
    own.high = Math.max(...rows);
    return { wide: own.bands.reduce((sum, band) => sum + band.wide, own.wide), low: own.low, high: own.high };
  }

  // Gives each node its column, and tells the boxes, outer ones first.
  function settle(members, name, from, depth, boxes) {
    const own = members.get(name);
    for (const node of own.nodes) node.column += from;
    let next = from + own.wide;
    for (const band of own.bands) {
      for (const inner of band.groups) {
        const box = { name: inner, from: next, depth, low: members.get(inner).low, high: members.get(inner).high };
        boxes.push(box);
        box.to = settle(members, inner, next, depth + 1, boxes) - 1;
      }
      next += band.wide;
    }
    return next;
  }

  // Gives the nodes the rows that are used, from 0 on. Where a row has more nodes of one group than fit side by side it
  // goes on below; nodes that aren't in the first line of their row have `goesOn`.
  function denseRows(nodes, fit) {
    const counts = new Map(), lines = new Map();
    for (const node of nodes) {
      const key = node.row + "|" + node.group, count = counts.get(key) || 0;
      counts.set(key, count + 1);
      // The columns of a group are to the right of those of the task that opened it.
      node.below = Math.floor(count / (node.group === null ? fit : fit - 1));
      node.goesOn = node.below > 0;
      lines.set(node.row, Math.max(lines.get(node.row) || 0, node.below));
    }
    const dense = new Map();
    let next = 0;
    for (const row of [...lines.keys()].sort((one, two) => one - two)) { dense.set(row, next); next += lines.get(row) + 1; }
    for (const node of nodes) node.row = dense.get(node.row) + node.below;
    return next;
  }

  // Nodes with rows and columns, boxes, and how many rows and columns there are. `earlier` tells the tasks that a task
  // comes after, and the children that a wait needs; `isShown` which tasks are drawn; `fit` how many stand side by side.
  return function (steps, earlier, isShown, mostWaits, fit) {
    const told = readHistory(steps, earlier), nodes = [];
    for (const [name, row] of told.row) if (isShown(name)) nodes.push({ name, row, group: told.inside.get(name) });
    for (const wait of told.waits.filter((some) => isShown(some.task)).slice(0, mostWaits)) nodes.push({ ...wait, isWait: true });
    const high = denseRows(nodes, fit);
    const members = membersOf(nodes, told.groups), boxes = [];
    const { wide } = measure(members, null);
    settle(members, null, 0, 0, boxes);
    return { nodes, boxes, groups: told.groups, inside: told.inside, wide, high };
  };
}());
