// The controls: slider, buttons, keys, the counts and the lines beside the map.
const part = (id) => document.getElementById(id);
const map = part("map"), slider = part("slider"), last = drive.lines.length;
const planSteps = drive.lines.flatMap((line, k) => (/^(plan|no way)/.test(line) ? [k + 1] : []));
let step = 0, playing = null, cellSide = 10;

function fit() {
  const room = map.parentElement.clientWidth, tall = Math.max(300, window.innerHeight - 150);
  cellSide = Math.max(4, Math.min(40, Math.floor(room / drive.width), Math.floor(tall / drive.height)));
  const sharp = window.devicePixelRatio || 1;
  map.width = drive.width * cellSide * sharp;
  map.height = drive.height * cellSide * sharp;
  map.style.width = `${drive.width * cellSide}px`;
  map.style.height = `${drive.height * cellSide}px`;
  map.getContext("2d").setTransform(sharp, 0, 0, sharp, 0, 0);
  show(step);
}

function show(to) {
  step = Math.max(0, Math.min(last, to));
  const now = after(step);
  drawStep(map.getContext("2d"), now, cellSide, { ground: part("true").checked, learned: part("learned").checked });
  slider.value = step;
  part("place").textContent = `step ${step} of ${last}`;
  part("line").textContent = step ? drive.lines[step - 1] : "(before the first line)";
  part("words").textContent = wordsFor(now);
  const counts = [["moves", now.moves], ["fewest if all were known", drive.fewest], ["plans", now.plans],
    ["blocked cells reported", now.known.size], ["cells expanded, in all plans", now.expanded]];
  part("counts").replaceChildren(...counts.map(([words, number]) => {
    const row = document.createElement("tr");
    row.append(...[number, words].map((textContent) => Object.assign(document.createElement("td"), { textContent })));
    return row;
  }));
  showLines();
}

// The lines around this one; a drive can have thousands.
function showLines() {
  const from = Math.max(0, Math.min(step - 5, last - 9));
  part("lines").replaceChildren(...drive.lines.slice(from, from + 9).flatMap((line, k) => {
    const shown = document.createElement(from + k + 1 === step ? "b" : "span");
    shown.textContent = line;
    return [shown, "\n"];
  }));
}

function pause() {
  clearInterval(playing);
  playing = null;
  part("play").textContent = "Play";
}

function play() {
  if (playing) return pause();
  if (step === last) show(0);
  part("play").textContent = "Pause";
  playing = setInterval(() => (step < last ? show(step + 1) : pause()), Number(part("speed").value));
}

function toPlan(way) {
  const found = way > 0 ? planSteps.find((k) => k > step) : planSteps.filter((k) => k < step).pop();
  if (found !== undefined) show(found);
}

const acts = { first: () => show(0), "last-plan": () => toPlan(-1), back: () => show(step - 1),
  on: () => show(step + 1), "next-plan": () => toPlan(1), end: () => show(last) };
for (const [id, act] of Object.entries(acts)) part(id).addEventListener("click", () => { pause(); act(); });
part("play").addEventListener("click", play);
slider.addEventListener("input", () => { pause(); show(Number(slider.value)); });
part("speed").addEventListener("change", () => { if (playing) { pause(); play(); } });
for (const id of ["true", "learned"]) part(id).addEventListener("change", () => show(step));

const keys = { ArrowLeft: "back", ArrowRight: "on", ArrowUp: "last-plan", ArrowDown: "next-plan", Home: "first", End: "end" };
document.addEventListener("keydown", (event) => {
  // a list or a button in use keeps the keys that it knows itself
  if (event.target.tagName === "SELECT" || event.ctrlKey || event.metaKey || event.altKey) return;
  if (event.key === " " && event.target.tagName !== "BUTTON" && event.target.type !== "checkbox") play();
  else if (event.key in keys) { pause(); acts[keys[event.key]](); }
  else return;
  event.preventDefault();
});

map.addEventListener("mousemove", (event) => {
  const column = Math.floor(event.offsetX / cellSide), row = Math.floor(event.offsetY / cellSide);
  if (column < 0 || row < 0 || column >= drive.width || row >= drive.height) return;
  const cell = row * drive.width + column, now = after(step);
  const ground = now.known.has(cell) ? "known blocked" : drive.ground[cell] === "#" ? "blocked, not known yet" : "free";
  const learned = learnedAfter(now.plans).learned[cell];
  part("under").textContent = `cell ${cell} (row ${row}, column ${column}): ${ground}, learned distance ${learned}`;
});

function sample(holder) {
  const canvas = document.createElement("canvas"), pen = canvas.getContext("2d"), s = 20;
  [canvas.width, canvas.height] = [2 * s, 2 * s];
  [canvas.style.width, canvas.style.height] = [`${s}px`, `${s}px`];
  pen.setTransform(2, 0, 0, 2, 0, 0);
  const shapes = {
    cart: () => cartAt(pen, s / 2, s / 2, s * 0.36, [1, 0]), goal: () => diamond(pen, s / 2, s / 2, s * 0.44),
    start: () => disc(pen, s / 2, s / 2, s * 0.36, colours.start),
    known: () => { pen.fillStyle = colours.known; pen.fillRect(1, 1, s - 2, s - 2); },
    unknown: () => hatch(pen, 1, 1, s - 2),
    expanded: () => {
      pen.fillStyle = colours.expanded;
      pen.fillRect(1, 1, s - 2, s - 2);
      pen.fillStyle = colours.dot;
      pen.fillRect(s * 0.2, s * 0.2, 3, 3);
    },
    route: () => strokeLine(pen, [[2, s / 2], [s - 2, s / 2]], colours.route, 2.5, [4, 5]),
    driven: () => strokeLine(pen, [[2, s / 2], [s - 2, s / 2]], colours.driven, 2.5, []),
  };
  shapes[holder.dataset.shape]();
  holder.replaceWith(canvas);
}

document.querySelectorAll("[data-shape]").forEach(sample);
window.addEventListener("resize", fit);
fit();
