// A board in the same map: for each player the pair player:score, and key:player, whose key puts the best score first.

import { made } from "./nodes.js";
import { write } from "./sight.js";

const START = 100_000, SCORES = 1000, PLAYERS = 100, END = START + SCORES * PLAYERS, ROWS = 10;
const id = name => document.getElementById(name);
const key = (player, score) => START + (SCORES - 1 - score) * PLAYERS + player;
const score = place => SCORES - 1 - Math.floor((place - START) / PLAYERS);
let page = 0, first = 0, end = 0, shown = "", due, ask, leader;

// The replies of the store that is read to lines.
async function read(lines) {
  const replies = await ask(id("from").value, lines, false);
  const told = lines.map((_, i) => replies[i]?.[0] ?? "ended");
  write(id("asked"), lines.map((line, i) => `${line} → ${told[i]}`).join("\n"));
  return told;
}

function row(place, pair) {
  const [held, player] = pair.split(":"), line = made("tr");
  for (const text of [place, player, score(+held)]) made("td", line, { text });
  return line;
}

const pages = () => Math.max(1, Math.ceil((end - first) / ROWS));

// The pairs of a page. They are requested again if the board has moved in the map.
async function pairs() {
  for (let tries = 0; tries < 3; tries++) {
    page = Math.min(page, pages() - 1);
    const count = Math.min(ROWS, end - first - ROWS * page);
    const told = await read([`rank ${START}`, `rank ${END}`, `page ${first + ROWS * page} ${count}`]);
    const isAsBefore = +told[0] === first && +told[1] === end;
    [first, end] = Number.isNaN(+told[0]) ? [0, 0] : [+told[0], +told[1]];
    if (isAsBefore) return told[2].includes(":") ? told[2].split(" ") : [];
  }
  return [];
}

async function refresh() {
  const who = id("from").value, found = await pairs(), size = end - first, last = pages() - 1;
  write(id("size"), `${size} player${size === 1 ? "" : "s"}, read from ${who}`);
  write(id("page"), `page ${page + 1} of ${last + 1}`);
  [id("up").disabled, id("down").disabled] = [page === 0, page === last];
  if (shown === `${page}: ${found}`) return;
  shown = `${page}: ${found}`;
  id("rows").replaceChildren(...found.map((pair, i) => row(ROWS * page + i + 1, pair)));
}

// Puts a score: the old one, which the leader replies, is removed from the board.
async function put(player, points) {
  const [[told = "no leader"]] = await ask(leader(), [`put ${player} ${points}`]);
  if (!/^(new|old) ?/.test(told)) return told;
  const old = told.startsWith("old ") ? +told.slice(4) : points;
  const lines = old !== points && old < SCORES ? [`cut ${key(player, old)}`] : [];
  await ask(leader(), [...lines, `put ${key(player, points)} ${player}`]);
  return "";
}

async function rank(player) {
  const who = id("from").value, [pair] = await read([`get ${player}`]);
  if (!pair.includes(":")) return `${who} has no player ${player}`;
  const points = +pair.split(":")[1];
  const at = key(player, points), ranks = [START, at, END].map(it => `rank ${it}`);
  const [held, low, place, high] = await read([`get ${at}`, ...ranks]);
  if (held === "none") return `player ${player} is not on the board of ${who} now`;
  return `player ${player}, score ${points}: place ${place - low + 1} of ${high - low}`;
}

function changed() {
  clearTimeout(due);
  due = setTimeout(refresh, 150);
}

// Starts the board; the returned function is called when a store has changed, with its name.
export function board(say, toLeader) {
  [ask, leader] = [say, toLeader];
  id("score").onsubmit = async submitted => {
    submitted.preventDefault();
    id("place").textContent = await put(+id("player").value, +id("points").value);
  };
  id("rank").onclick = async () => (id("place").textContent = await rank(+id("player").value));
  id("players").onclick = async () => {
    const any = below => Math.floor(Math.random() * below);
    for (let count = 0; count < 20; count++) await put(any(PLAYERS), any(SCORES));
  };
  id("up").onclick = () => { page = Math.max(0, page - 1); refresh(); };
  id("down").onclick = () => { page++; refresh(); };
  id("from").onchange = refresh;
  return who => who === id("from").value && changed();
}
