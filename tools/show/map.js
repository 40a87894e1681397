// Draws one step on the canvas, and the legend's samples with the same strokes.
const colours = { ink: "#222222", known: "#3d3d3d", unknown: "#c4c4c4", line: "#e8e8e8", expanded: "#b0d9f5", dot: "#3a96d0",
  driven: "#D55E00", route: "#0072B2", start: "#009E73", goal: "#F0E442", raised: "#8a2f66" };

function centreOf(cell, s) { return [(columnOf(cell) + 0.5) * s, (rowOf(cell) + 0.5) * s]; }

function fillCell(pen, cell, s, colour) {
  pen.fillStyle = colour;
  pen.fillRect(columnOf(cell) * s, rowOf(cell) * s, s, s);
}

function hatch(pen, x, y, s) {
  pen.save();
  pen.beginPath();
  pen.rect(x, y, s, s);
  pen.clip();
  pen.strokeStyle = colours.unknown;
  pen.lineWidth = Math.max(1, s / 16);
  pen.beginPath();
  // the same lines through every cell, so that they run on from one to the next
  const gap = s / Math.max(2, Math.round(s / 6));
  for (let k = 0; k < 2 * s; k += gap) { pen.moveTo(x + k, y); pen.lineTo(x + k - s, y + s); }
  pen.stroke();
  pen.restore();
}

function strokeLine(pen, points, colour, wide, dashes) {
  pen.save();
  pen.lineJoin = pen.lineCap = "round";
  pen.beginPath();
  points.forEach(([x, y], k) => (k ? pen.lineTo(x, y) : pen.moveTo(x, y)));
  pen.strokeStyle = "#ffffff";
  pen.lineWidth = wide * 1.8;
  pen.stroke();
  pen.setLineDash(dashes);
  pen.strokeStyle = colour;
  pen.lineWidth = wide;
  pen.stroke();
  pen.restore();
}

// The path keeps to the right of each cell's middle, so that the way there and the way back stay apart.
function laneOf(path, s) {
  const points = [], aside = 0.16 * s;
  const way = (k) => [columnOf(path[k + 1]) - columnOf(path[k]), rowOf(path[k + 1]) - rowOf(path[k])];
  for (let k = 0; k < path.length; k++) {
    const [x, y] = centreOf(path[k], s);
    const came = k > 0 ? way(k - 1) : null, goes = k + 1 < path.length ? way(k) : null;
    const one = came || goes || [0, 0], two = goes || one;
    const straight = one[0] === two[0] && one[1] === two[1], turned = one[0] === -two[0] && one[1] === -two[1];
    if (straight || turned) points.push([x - one[1] * aside, y + one[0] * aside]);
    if (turned) points.push([x - two[1] * aside, y + two[0] * aside]);
    if (!straight && !turned) points.push([x - (one[1] + two[1]) * aside, y + (one[0] + two[0]) * aside]);
  }
  return points;
}

function disc(pen, x, y, r, colour) {
  pen.beginPath();
  pen.arc(x, y, r, 0, 2 * Math.PI);
  pen.fillStyle = colour;
  pen.fill();
  pen.lineWidth = Math.max(1, r / 5);
  pen.strokeStyle = "#ffffff";
  pen.stroke();
}

function diamond(pen, x, y, r) {
  pen.beginPath();
  for (const [a, b] of [[0, -r], [r, 0], [0, r], [-r, 0]]) pen.lineTo(x + a, y + b);
  pen.closePath();
  pen.fillStyle = colours.goal;
  pen.fill();
  pen.lineWidth = Math.max(1, r / 7);
  pen.strokeStyle = colours.ink;
  pen.stroke();
}

// The cart: a square with its nose to where it last went.
function cartAt(pen, x, y, r, [right, down]) {
  pen.save();
  pen.translate(x, y);
  pen.rotate(Math.atan2(down, right));
  pen.beginPath();
  for (const [a, b] of [[-1, -0.8], [0.35, -0.8], [1.15, 0], [0.35, 0.8], [-1, 0.8]]) pen.lineTo(a * r, b * r);
  pen.closePath();
  pen.fillStyle = colours.driven;
  pen.fill();
  pen.lineWidth = Math.max(1.2, r / 5);
  pen.strokeStyle = colours.ink;
  pen.stroke();
  pen.restore();
}

function drawGround(pen, now, s, showTrue) {
  pen.fillStyle = "#ffffff";
  pen.fillRect(0, 0, drive.width * s, drive.height * s);
  const expanded = now.plan ? fromRuns(now.plan.expanded) : [];
  for (const cell of expanded) fillCell(pen, cell, s, colours.expanded);
  for (let cell = 0; cell < cells; cell++) {
    if (showTrue && drive.ground[cell] === "#" && !now.known.has(cell)) hatch(pen, columnOf(cell) * s, rowOf(cell) * s, s);
  }
  pen.fillStyle = colours.line;
  for (let k = 0; k <= drive.width; k++) pen.fillRect(k * s - 0.5, 0, 1, drive.height * s);
  for (let k = 0; k <= drive.height; k++) pen.fillRect(0, k * s - 0.5, drive.width * s, 1);
  for (const cell of now.known) fillCell(pen, cell, s, colours.known);
  for (const cell of expanded) {
    const [x, y] = centreOf(cell, s);
    pen.fillStyle = colours.dot;
    pen.fillRect(x - s * 0.3, y - s * 0.3, Math.max(1.5, s * 0.1), Math.max(1.5, s * 0.1));
  }
}

// Numbers, clear of the lines, where a cell has room for one; else a spot where the distance is more than Manhattan's.
function drawLearned(pen, now, s) {
  const { learned, raised } = learnedAfter(now.plans);
  pen.lineJoin = "round";
  for (let cell = 0; cell < cells; cell++) {
    if (now.known.has(cell)) continue;
    const [x, y] = centreOf(cell, s), more = raised.has(cell);
    pen.fillStyle = more ? colours.raised : "#767676";
    pen.font = `${more ? "bold " : ""}${Math.round(s * 0.33)}px system-ui, sans-serif`;
    if (s >= 24) {
      pen.strokeStyle = "rgba(255, 255, 255, 0.85)";
      pen.lineWidth = 3;
      pen.strokeText(learned[cell], x - s * 0.45, y + s * 0.45);
      pen.fillText(learned[cell], x - s * 0.45, y + s * 0.45);
    } else if (more) { pen.beginPath(); pen.arc(x, y, s * 0.22, 0, 2 * Math.PI); pen.fill(); }
  }
}

function drawStep(pen, now, s, shows) {
  drawGround(pen, now, s, shows.ground);
  if (now.path.length > 1) strokeLine(pen, laneOf(now.path, s), colours.driven, Math.max(1.6, s * 0.1), []);
  const ahead = now.route.map((cell) => centreOf(cell, s));
  const colour = now.broken ? "#777777" : colours.route;
  if (ahead.length > 1) strokeLine(pen, ahead, colour, Math.max(2, s * 0.12), [s * 0.28, s * 0.28]);
  disc(pen, ...centreOf(drive.start, s), Math.max(4, s * 0.28), colours.start);
  diamond(pen, ...centreOf(drive.goal, s), Math.max(5, s * 0.44));
  if (shows.learned) drawLearned(pen, now, s);
  if (now.reported !== null) {
    pen.strokeStyle = colours.driven;
    pen.lineWidth = Math.max(2, s * 0.12);
    pen.strokeRect(columnOf(now.reported) * s, rowOf(now.reported) * s, s, s);
  }
  const before = now.path[now.path.length - 2];
  const nose = before === undefined ? [1, 0] : [columnOf(now.cell) - columnOf(before), rowOf(now.cell) - rowOf(before)];
  cartAt(pen, ...centreOf(now.cell, s), Math.max(4, s * 0.34), nose);
}
