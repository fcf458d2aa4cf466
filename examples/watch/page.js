// The page: the messages of the server, and the requests of a person.

import { board } from "./board.js";
import { draw, made, still } from "./nodes.js";
import { empty, grow, later, list, look, soon, write } from "./sight.js";

const NAMES = ["A", "B", "C"], PERCENT = ["loss", "repeat", "late"], PILLS = 60, SHOWN = 12, FEW = 20;
const HASTE = 150; // milliseconds
const ME = String(Math.random()); // identifies the lines that were typed on this page
const id = name => document.getElementById(name), cards = {}, lanes = {}, stores = {}, drawn = {}, undrawn = new Set();
let head = 0, news = [], haste = "", calms, leader = { who: "A", is_there: false, key: "0" }, said = [], back = 0;

const many = (n, word) => `${n.toLocaleString("en")} ${word}${n === 1 ? "" : "s"}`;
const any = below => Math.floor(Math.random() * below);

function lamp(node, [kind, words]) {
  if (!node.classList.contains(kind)) node.className = "lamp " + kind;
  write(node, words);
}

async function ask(act, asked) {
  try {
    const found = await fetch("/" + act, { method: "POST", body: JSON.stringify(asked) });
    if (found.ok) return await found.json();
  } catch {}
  lamp(id("all"), ["bad", "the server did not take that"]);
  return [];
}
const say = (to, lines, is_shown = true, by = "") => ask("line", { to, lines, is_shown, by });
const isOnBoard = board(say, () => leader.who || "A");

// The state of a store: the colour of its lamp, and in words.
function standing({ standing: word, status, next }) {
  const told = {
    ended: ["bad", `ended, status ${status}`],
    leads: ["good", "leads: its events go into the file and to the others"],
    unheard: ["bad", "leads too, and its events go nowhere: tell it to follow, and give it a snapshot"],
    unfit: ["bad", "an event was unfit: give it a snapshot"],
    ahead: ["bad", "ahead of the leader: give it a snapshot"],
    behind: ["warn", `behind by ${many(head - next, "event")}`],
    level: ["warn", "has every event; there is no leader's sum to compare with"],
    same: ["good", "has the sum of the leader"],
    other: ["bad", "has another sum than the leader: give it a snapshot"],
  };
  return told[word];
}

function overall() {
  const others = NAMES.filter(name => name !== leader.who);
  const same = others.filter(name => stores[name]?.standing === "same");
  if (leader.is_there && same.length === others.length) return ["good", "both followers hold the nodes of the leader"];
  return leader.is_there
    ? ["warn", `${same.length} of ${others.length} followers hold the nodes of the leader`]
    : ["bad", "no leader: promote a follower, or start the leader from the file"];
}

// The buttons of a store: the request of each, the states in which it is shown, and its description.
const hasEnded = ({ standing: word }) => word === "ended", runs = told => !hasEnded(told);
const leads = ({ standing: word }) => word === "leads" || word === "unheard";
const follows = told => runs(told) && !leads(told);
const starts = source => who => ask("start", { who, source });
const ACTS = [
  ["kill -9", runs, who => ask("kill", { who }), "ends the process by SIGKILL"],
  ["Promote", follows, who => ask("promote", { who }), "gives it what it lacks from the file, and tells it to lead"],
  ["Snapshot", it => it.standing !== "leads", starts("snapshot"), "gives it all that another store holds"],
  ["From the file", hasEnded, starts("file"), "starts it with all events of the file"],
  ["From nothing", hasEnded, starts("nothing"), "starts it with no nodes"],
];

function showActs(card, told) {
  const buttons = [...card.querySelectorAll(".acts button")], focused = document.activeElement;
  ACTS.forEach(([, isThere], i) => buttons[i].toggleAttribute("hidden", !isThere(told)));
  if (buttons.includes(focused) && focused.hidden) buttons.find(button => !button.hidden)?.focus();
}

const keys = line => line.split(" ").map(pair => pair.split(":")[0]);

// Returns whether a pair is new since the nodes were drawn: it was not among these, nor before or after them.
function newSince(was) {
  const pairs = new Set(was.nodes.flatMap(line => line.split(" ")));
  const isEnd = was.first + was.nodes.length === was.total;
  const low = was.first ? +keys(was.nodes[0])[0] : -1, high = isEnd ? Infinity : +keys(was.nodes.at(-1)).at(-1);
  return (key, value) => low <= +key && +key <= high && !pairs.has(`${key}:${value}`);
}

// Shows the nodes of a store, on a narrow page a few around the key, and which these are. They are drawn when visible.
function showNodes(who) {
  const told = stores[who], { nodes, first, pairs, total } = told, most = innerWidth < 700 ? FEW : nodes.length;
  const middle = nodes.findIndex(line => +keys(line).at(-1) >= +leader.key);
  const from = Math.max(0, Math.min((middle < 0 ? nodes.length : middle) - most / 2, nodes.length - most));
  const shown = nodes.slice(from, from + most), begin = first + from + 1, svg = cards[who].querySelector("svg");
  const part = shown.length < total ? `; drawn are nodes ${begin} to ${begin + shown.length - 1}` : "";
  const size = `${many(pairs, "pair")} in ${many(total, "node")}${part}`;
  write(cards[who].querySelector(".where"), hasEnded(told) ? "its nodes went with its process" : size);
  svg.setAttribute("aria-label", shown.length ? "nodes: " + shown.slice(0, 30).join(" | ") : "no nodes");
  const looks = [svg.wide, leader.key, first, total, ...nodes].join();
  if (!svg.isSeen || svg.looks === looks) return;
  svg.looks = looks;
  draw(svg, shown, drawn[who] && newSince(drawn[who]));
  drawn[who] = told;
}

function store(told) {
  const { who } = told, card = cards[who], isRunning = runs(told), was = stores[who];
  stores[who] = told;
  const role = leads(told) ? "leads" : isRunning ? "follows" : "ended";
  write(card.querySelector("h2 small"), `${role}, process ${told.pid}`);
  lamp(card.querySelector(".lamp"), standing(told));
  write(card.querySelector("code.next"), isRunning ? `next ${told.next}` : "");
  write(card.querySelector("code.sum"), told.sum);
  card.querySelector("dl").hidden = leads(told);
  const counts = { ...told.counts, ...told.replies };
  for (const each of card.querySelectorAll("dd")) write(each, String(counts[each.className] ?? 0));
  showActs(card, told);
  for (const choice of document.querySelectorAll(`option[value=${who}]`)) write(choice, `${who} ${role}`);
  lanes[who].hidden = leads(told);
  const isNew = was && was.pid !== told.pid;
  for (const part of isNew ? lanes[who].querySelectorAll(".way, code") : []) part.replaceChildren();
  undrawn.add(who);
  isOnBoard(who);
}

// The leader's card is above the channel, the others below.
function arrange() {
  const first = leader.who || id("lead").firstElementChild?.dataset.who || "A";
  if (id("lead").firstElementChild === cards[first]) return;
  id("lead").replaceChildren(cards[first]);
  id("rest").replaceChildren(...NAMES.filter(name => name !== first).map(name => cards[name]));
}

function talk(title, replies, more = 0) {
  const item = made("li");
  made("b", item, { text: title });
  const shown = replies.slice(0, SHOWN), rest = replies.length - shown.length + more;
  const told = replies.length ? shown.join("\n") : "(no reply)";
  item.append("\n" + told + (rest ? `\n.. and ${many(rest, "line")}` : ""));
  list(id("talk"), item, 100);
}

const on = {
  hello() {
    for (const name of ["stream", "talk"]) empty(id(name));
  },
  percent({ percent }) {
    for (const name of PERCENT) {
      if (id(name) === document.activeElement) continue;
      id(name).value = percent[name];
      showPercent(name);
    }
  },
  event({ line: text }) {
    const [, n, word, rest] = text.match(/^(\d+) (\w+) (.*)$/), line = made("li");
    made("span", line, { text: n });
    made("span", line, { text: word, class: word });
    made("span", line, { text: rest });
    list(id("stream"), line, 200);
  },
  said({ to, line, told, more, by }) {
    talk(`${to}: ${line}`, told, more);
    if (by !== ME) return;
    haste &&= "nodes";
    id("what").textContent = `${to} replies to “${line}”:`;
    id("reply").textContent = told.length ? told.join("\n") : "(it has ended)";
  },
  taken({ who, source, lines, told }) {
    talk(`${who} starts from ${source === "file" ? "the file" : source}: ${many(lines, "line")}`, told);
  },
  sent({ to, word, fate, wait, takes }) {
    const way = lanes[to].querySelector(".way");
    if (still || document.hidden || way.children.length > PILLS) return;
    const pill = made("span", way, { class: "pill " + fate, text: word });
    const end = way.wide - 7.3 * word.length - 16, at = (x, y = 0) => `translate(${x}px, ${y}px)`;
    const falls = [{ transform: at(end / 2), opacity: 1 }, { transform: at(end * 0.6, 30), opacity: 0 }];
    const way_of_it = [{ transform: at(0) }, ...(fate === "lost" ? falls : [{ transform: at(end) }])];
    const flies = pill.animate(way_of_it, { duration: 1000 * takes, delay: 1000 * wait, fill: "backwards" });
    flies.onfinish = () => pill.remove();
  },
  reply({ who, reply }) {
    const code = lanes[who].querySelector("code");
    write(code, reply);
    code.className = reply.split(" ")[0];
  },
  store,
  file({ path, size, head: next, last }) {
    head = next;
    write(id("file-size"), `${many(next, "line")}, ${many(size, "byte")}`);
    write(id("file-path"), path);
    write(id("file-last"), last ? `last: ${last}` : "");
    for (const name of NAMES) if (stores[name]) lamp(cards[name].querySelector(".lamp"), standing(stores[name]));
  },
  leader(told) {
    if (told.who && told.who !== leader.who) id("to").value = told.who;
    leader = told;
    if (document.activeElement !== id("key")) id("key").value = told.key;
    arrange();
  },
};

for (const name of NAMES) {
  for (const choices of ["to", "from"]) made("option", id(choices), { value: name, text: name });
  const card = cards[name] = id("store").content.cloneNode(true).firstElementChild;
  card.dataset.who = name;
  card.setAttribute("aria-label", `store ${name}`);
  card.querySelector(".name").textContent = name;
  ACTS.forEach(([text, , act, about], i) => {
    const button = made("button", card.querySelector(".acts"), { text, title: about, class: i ? "" : "harm" });
    button.setAttribute("aria-label", `${text}, ${name}`);
    button.onclick = () => act(name);
  });
  look(card.querySelector("svg"), () => stores[name] && showNodes(name));
  const lane = lanes[name] = made("div", id("lanes"), { class: "lane" });
  made("span", lane, { text: `to ${name}` });
  look(made("div", lane, { class: "way" }));
  made("code", lane, { "aria-label": `last reply of ${name}` });
}
id("from").value = "B";
arrange();

// Settings are sent one after another, so that the last one is kept.
let settings = Promise.resolve();
function setPercent() {
  const percent = Object.fromEntries(PERCENT.map(name => [name, id(name).value]));
  settings = settings.then(() => ask("set_percent", { percent }));
}
function showPercent(name) {
  id(name).parentElement.querySelector("output").textContent = id(name).value + "%";
}
for (const name of PERCENT) id(name).oninput = () => { showPercent(name); setPercent(); };

const put = () => `put ${1000 + any(200)} ${any(1000)}`;
function cut() {
  const pairs = (stores[leader.who]?.nodes ?? []).flatMap(line => line.split(" "));
  return `cut ${pairs.length ? pairs[any(pairs.length)].split(":")[0] : 1000}`;
}
async function say_many(count, line) {
  for (let left = count; left > 0; left -= 200) {
    await say(leader.who || "A", Array.from({ length: Math.min(left, 200) }, line));
  }
}
id("put8").onclick = () => say_many(8, put);
id("cut4").onclick = () => say_many(4, cut);
id("put1000").onclick = () => say_many(1000, () => `put ${1000 + any(90_000)} ${any(1000)}`);
setInterval(() => id("auto").checked && leader.is_there && say_many(1, any(2) ? put : cut), 500);

id("say").onsubmit = submitted => {
  submitted.preventDefault();
  const line = id("line").value;
  hasten();
  said.push(line);
  back = said.length;
  id("line").value = "";
  say(id("to").value, [line], true, ME);
};
id("line").onkeydown = pressed => {
  const step = { ArrowUp: -1, ArrowDown: 1 }[pressed.key];
  if (!step) return;
  back = Math.min(Math.max(back + step, 0), said.length);
  id("line").value = said[back] ?? "";
  pressed.preventDefault();
};
document.onkeydown = pressed => {
  if (pressed.key !== "/" || /INPUT|SELECT/.test(document.activeElement.tagName)) return;
  pressed.preventDefault();
  id("line").focus();
};

const show = key => ask("show", { key });
id("about").onsubmit = submitted => {
  submitted.preventDefault();
  show(id("key").value);
};
// The nodes before and after those that are drawn of the first card.
const edge = place => id("lead").querySelector("svg").frames?.at(place)?.keys.at(-1) ?? "0";
id("before").onclick = () => show(edge(0));
id("after").onclick = () => show(edge(-1));

// The nodes of the others are drawn one store at a time, when the page is idle.
let isDrawing = false;
function drawOthers() {
  if (isDrawing || !undrawn.size) return;
  isDrawing = true;
  later(() => {
    isDrawing = false;
    const [who] = undrawn;
    if (haste || !undrawn.delete(who)) return;
    showNodes(who);
    drawOthers();
  });
}

// After a person has sent a line, its reply and the nodes of the leader are shown as they arrive, and all other
// messages wait until they are painted, or for HASTE. The page waits for the reply, then the nodes, then the paint.
function hasten() {
  clearTimeout(calms);
  calms = setTimeout(calm, HASTE);
  haste = "reply";
}
function calm() {
  clearTimeout(calms);
  haste = "";
  showNews();
}

// Messages are shown once per frame, unless in haste.
const isFirst = ({ kind }) => kind === "said" || kind === "leader" || kind === "store";
function showNews() {
  const shown = haste ? news.filter(isFirst) : news;
  news = haste ? news.filter(told => !isFirst(told)) : [];
  for (const told of shown) on[told.kind](told);
  lamp(id("all"), overall());
  const isDrawn = undrawn.delete(leader.who);
  if (isDrawn) showNodes(leader.who);
  if (!haste) {
    grow();
    drawOthers();
  } else if (isDrawn && haste === "nodes") {
    haste = "paint";
    soon(() => soon(calm));
  }
}

const source = new EventSource("/events");
source.onmessage = ({ data }) => {
  const isDue = news.length > 0;
  news.push(...JSON.parse(data));
  if (haste === "reply" || haste === "nodes") showNews();
  else if (!haste && (!isDue || document.hidden)) soon(showNews);
};
source.onerror = () => lamp(id("all"), ["bad", "the server does not answer"]);
