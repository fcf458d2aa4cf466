// Nodes, drawn as boxes of pairs: a key keeps its box and a node its frame, so that changes are seen as moves.

const ROW = 52, HIGH = 38, SPACE = 12, MORE = 46, MANY = 20, SHOWY = ".fresh, .split, .merge";
export const still = matchMedia("(prefers-reduced-motion: reduce)").matches;

export function made(name, parent, props = {}, space = "http://www.w3.org/1999/xhtml") {
  const node = document.createElementNS(space, name);
  for (const [key, value] of Object.entries(props)) {
    if (key === "text") node.textContent = value;
    else node.setAttribute(key, value);
  }
  parent?.append(node);
  return node;
}
const drawn = (name, parent, props) => made(name, parent, props, "http://www.w3.org/2000/svg");
const short = word => (word.length > 8 ? word.slice(0, 3) + "…" + word.slice(-3) : word);

function boxes(line) {
  return line.split(" ").map(pair => {
    const [key, value] = pair.split(":");
    return { key, value, width: Math.max(30, 8 * short(key).length + 12, 7 * short(value).length + 10) };
  });
}

const width = cells => cells.reduce((sum, cell) => sum + cell.width, 0);

// The boxes of a node that fit into a row: its first ones, the number of the others, and its last.
function fitting(cells, wide) {
  if (width(cells) <= wide) return cells;
  const last = cells.at(-1);
  let count = 0;
  for (let left = wide - MORE - last.width; left >= cells[count].width; count++) left -= cells[count].width;
  const more = { key: `more of ${last.key}`, shown: "+" + (cells.length - count - 1), value: "more", width: MORE };
  return [...cells.slice(0, count), more, last];
}

// The place of each node, in rows.
function laid(lines, wide) {
  let x = 2, y = 2;
  return lines.map(line => {
    const all = boxes(line), cells = fitting(all, wide - 4), whole = width(cells);
    if (x > 2 && x + whole > wide - 2) [x, y] = [2, y + ROW];
    const frame = { keys: all.map(cell => cell.key), cells, x, y, whole };
    for (const cell of cells) [cell.x, cell.y, x] = [x, y, x + cell.width];
    x += SPACE;
    return frame;
  });
}

// A box slides along its row. One that changes its row moves at once, as all do if many would slide.
function move(node, x, y, leaps) {
  if (node.at?.x === x && node.at.y === y) return;
  node.classList.toggle("leaps", leaps || node.at?.y !== y);
  node.style.transform = `translate(${x}px, ${y}px)`;
  node.at = { x, y };
}

// New elements fade in among others, and removed ones fade out.
function come(kind, layer, leaps) {
  const g = drawn("g", layer, { class: kind });
  if (!leaps && !still) g.comes = g.animate({ opacity: [0, 1] }, 450);
  return g;
}

function go(node, fades) {
  if (!fades || still) return node.remove();
  node.comes?.cancel();
  node.classList.add("gone");
  setTimeout(() => node.remove(), 450);
}

function lit(node, kind, time) {
  node.classList.add(kind);
  setTimeout(() => node.classList.remove(kind), time);
}

function box(layer, leaps) {
  const g = come("cell", layer, leaps), rect = drawn("rect", g, { height: HIGH, rx: 3 });
  const text = (name, props) => drawn(name, g, { text: "-", ...props });
  const [key, value] = [text("text", { y: 17 }), text("text", { y: 32, class: "value" })];
  return { g, rect, key, value, title: text("title") };
}

function write(box, { key, value, shown, width }) {
  const words = { key: shown ?? short(key), value: short(value), title: `${key}:${value}` };
  for (const [name, word] of Object.entries(words)) {
    const text = box[name].firstChild;
    if (text.data !== word) text.data = word;
  }
  if (box.width === width) return;
  box.width = width;
  box.rect.setAttribute("width", width);
  for (const text of [box.key, box.value]) text.setAttribute("x", width / 2);
}

// Whether a key is in the part of the list that some frames show.
function within(frames) {
  const low = +frames[0]?.keys[0], high = +frames.at(-1)?.keys.at(-1);
  return key => low <= +key && +key <= high;
}

// A key keeps its box. If many have none, they get those of other keys: that is less work than new ones.
function drawBoxes(svg, cells, isNew, { isElsewhere, leaps, was, is }) {
  const kept = new Map(), keys = new Set(cells.map(cell => cell.key));
  const spare = isElsewhere ? [...svg.boxes].filter(([key]) => !keys.has(key)).map(([, box]) => box) : [];
  const fresh = cells.filter(cell => isNew(cell.key, cell.value));
  for (const cell of cells) {
    const now = svg.boxes.get(cell.key) ?? spare.pop() ?? box(svg.low, isElsewhere || !was(cell.key));
    write(now, cell);
    if (fresh.length < MANY && fresh.includes(cell)) lit(now.g, "fresh", 700);
    move(now.g, cell.x, cell.y, leaps);
    kept.set(cell.key, now);
  }
  for (const [key, old] of isElsewhere ? [] : svg.boxes) if (!kept.has(key)) go(old.g, is(key));
  for (const { g } of spare) g.remove();
  svg.boxes = kept;
}

// A frame is given to the first node that has one of its keys; a node with none of these gets a new frame.
function drawFrames(svg, frames, { isElsewhere, leaps, was, is }) {
  const free = new Set(svg.frames), owner = new Map(svg.frames.flatMap(frame => frame.keys.map(key => [key, frame])));
  const olds = frames.map(frame => [...new Set(frame.keys.map(key => owner.get(key)).filter(Boolean))]);
  frames.forEach((frame, i) => {
    const from = olds[i], isPart = olds.some((other, j) => j !== i && from.some(old => other.includes(old)));
    const kept = isElsewhere ? free.values().next().value : from.find(old => free.has(old));
    free.delete(kept);
    frame.g = kept?.g ?? come("frame", svg.high, isElsewhere || !was(frame.keys[0]));
    frame.rect = kept?.rect ?? drawn("rect", frame.g, { height: HIGH, rx: 5 });
    if (from.length > 1) lit(frame.g, "merge", 900);
    else if (isPart) lit(frame.g, "split", 900);
    move(frame.g, frame.x, frame.y, leaps);
    frame.rect.style.width = frame.whole + "px";
  });
  for (const frame of free) go(frame.g, is(frame.keys[0]));
  svg.frames = frames;
}

// A picture grows at once, and shrinks some time later: the elements below it move seldom.
function fit(svg, high) {
  const set = () => {
    svg.shrinks = clearTimeout(svg.shrinks);
    if (svg.tall !== svg.needs) svg.style.height = (svg.tall = svg.needs) + "px";
  };
  svg.needs = high;
  if (!svg.frames.length || high > svg.tall || svg.fitted !== svg.wide) set();
  else svg.shrinks ??= setTimeout(set, 2000);
  svg.fitted = svg.wide;
}

// Draws the nodes of some lines; `isNew` returns whether a key and its value are new.
export function draw(svg, lines, isNew = () => false) {
  if (!svg.boxes) {
    Object.assign(svg, { boxes: new Map(), frames: [], tall: 0, low: drawn("g", svg), high: drawn("g", svg) });
  }
  const frames = laid(lines, svg.wide || 320), cells = frames.flatMap(frame => frame.cells);
  const coming = cells.filter(cell => !svg.boxes.has(cell.key)).length;
  const isElsewhere = coming === cells.length || coming > MANY;
  const slides = ({ key, x, y }) => (({ at } = {}) => at?.y === y && at.x !== x)(svg.boxes.get(key)?.g);
  const leaps = isElsewhere || cells.filter(slides).length > MANY;
  const how = { isElsewhere, leaps, was: within(svg.frames), is: within(frames) };
  for (const node of isElsewhere ? svg.querySelectorAll(".gone") : []) node.remove();
  for (const node of isElsewhere ? svg.querySelectorAll(SHOWY) : []) node.classList.remove("fresh", "split", "merge");
  drawBoxes(svg, cells, isNew, how);
  drawFrames(svg, frames, how);
  fit(svg, frames.length ? frames.at(-1).y + HIGH + 4 : 4);
}
