// The drive's data, and what stands after so many of its lines.
"use strict";
const drive = JSON.parse(document.getElementById("drive").textContent);
const cells = drive.width * drive.height;
const gone = [0, 1, drive.width, -1, -drive.width];

function rowOf(cell) { return Math.floor(cell / drive.width); }
function columnOf(cell) { return cell % drive.width; }

// Pairs of a gap and a count, as page.py writes them.
function fromRuns(pairs) {
  const all = [];
  let at = 0;
  for (let k = 0; k < pairs.length; k += 2) {
    at += pairs[k];
    for (let n = 0; n < pairs[k + 1]; n++) all.push(at++);
  }
  return all;
}

function routeOf(plan, from) {
  const route = [from];
  for (const direction of plan.route) route.push(route[route.length - 1] + gone[Number(direction)]);
  return route;
}

function manhattan(cell) {
  return Math.abs(rowOf(cell) - rowOf(drive.goal)) + Math.abs(columnOf(cell) - columnOf(drive.goal));
}

// Everything from the first line on: a drive is short enough for that, and nothing can go stale.
function after(count) {
  const now = { count, known: new Set(), path: [drive.start], plan: null, route: [], reported: null,
    moves: 0, plans: 0, expanded: 0 };
  for (let k = 0; k < count; k++) {
    const words = drive.lines[k].split(" ");
    now.reported = null;
    if (words[0] === "blocked") {
      now.reported = Number(words[1]);
      now.known.add(now.reported);
    } else if (words[0] === "move") {
      now.path.push(Number(words[1]));
      now.moves++;
      now.route.shift();
    } else if (words[0] === "plan" || words[0] === "no") {
      now.plan = drive.plans[now.plans++];
      now.expanded += Number(words[2]);
      now.route = words[0] === "plan" ? routeOf(now.plan, now.path[now.path.length - 1]) : [];
    }
  }
  now.cell = now.path[now.path.length - 1];
  now.broken = now.route.some((cell) => now.known.has(cell));
  return now;
}

// The learned distances after so many plans, and those of them that are no longer the Manhattan distance.
function learnedAfter(plans) {
  const learned = [], raised = new Set();
  for (let cell = 0; cell < cells; cell++) learned.push(manhattan(cell));
  for (const plan of drive.plans.slice(0, plans)) {
    let at = 0;
    for (let k = 0; k < plan.learned.length; k += 2) {
      at += plan.learned[k];
      learned[at] = plan.learned[k + 1];
      raised.add(at);
    }
  }
  return { learned, raised };
}

// The direction of one step; in a plot one cell wide there is only down and up.
function direction(from, to) {
  return drive.width === 1 ? (to > from ? 2 : 4) : gone.indexOf(to - from, 1);
}

const beside = ["", "to its right", "below it", "to its left", "above it"];
const ways = ["", "right", "down", "left", "up"];

// What the last line means.
function wordsFor(now) {
  if (now.count === 0) return `The cart stands at its start, cell ${drive.start}. Nothing is known to be blocked.`;
  const line = drive.lines[now.count - 1].split(" ");
  if (line[0] === "blocked") {
    const told = `It sees that cell ${line[1]}, ${beside[direction(now.cell, now.reported)]}, is blocked, and reports it.`;
    return told + (now.broken ? " Its route no longer stands." : now.route.length ? " Its route does not pass there." : "");
  }
  if (line[0] === "plan") {
    const stop = now.plan.stop === drive.goal ? "The search reached the goal."
      : `The search stopped at cell ${now.plan.stop}: from there an older route still leads to the goal.`;
    return `No route stood, so it plans: ${line[1]} steps to the goal, ${line[2]} cells expanded. ${stop}`;
  }
  if (line[0] === "move") return `It moves ${ways[direction(now.path[now.path.length - 2], now.cell)]}, to cell ${line[1]}.`;
  if (line[0] === "arrived") return `It is on the goal, after ${line[1]} moves.`;
  return `It plans and finds no way: ${line[2]} cells expanded, and none waits any more.`;
}
