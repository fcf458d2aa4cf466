// The time of drawing: most messages are shown once per frame, and invisible elements when they become visible.

export function write(node, text) {
  if (node.textContent !== text) node.textContent = text;
}

// Runs before the next frame; a hidden page has none, and there it runs at once.
export const soon = act => void (document.hidden ? act() : requestAnimationFrame(act));

// Runs when the page is idle, or in a fifth of a second.
const idle = window.requestIdleCallback ?? (act => setTimeout(act, 50));
export const later = act => void (document.hidden ? act() : idle(act, { timeout: 200 }));

// Keeps `isSeen` and `wide` of a node as they change, without a layout for it, and calls back in the frame after.
const acts = new WeakMap();
function changed(node, facts) {
  if (Object.entries(facts).every(([key, value]) => node[key] === value)) return;
  Object.assign(node, facts);
  soon(() => acts.get(node)());
}
const sight = new IntersectionObserver(seen => {
  for (const { target, isIntersecting } of seen) changed(target, { isSeen: isIntersecting });
}, { rootMargin: "40px" });
const size = new ResizeObserver(sized => {
  for (const { target, contentRect } of sized) changed(target, { wide: Math.floor(contentRect.width) });
});
export function look(node, act = () => {}) {
  acts.set(node, act);
  for (const observer of [sight, size]) observer.observe(node);
}

// Lines for the end of a list, the last of which are kept. `grow` adds them; a list scrolled to its end stays at it.
const grown = new Map();
export function list(lines, node, most) {
  lines.onscroll ??= () => {
    if (!lines.isFollowed) lines.isHigh = lines.scrollHeight - lines.scrollTop - lines.clientHeight >= 40;
    lines.isFollowed = false;
  };
  lines.most = most;
  grown.set(lines, [...grown.get(lines) ?? [], node].slice(-most));
}
export function empty(lines) {
  grown.delete(lines);
  lines.replaceChildren();
}
export function grow() {
  for (const [lines, nodes] of grown) {
    lines.append(...nodes);
    while (lines.children.length > lines.most) lines.firstChild.remove();
  }
  for (const lines of [...grown.keys()].filter(it => !it.isHigh)) {
    const end = lines.scrollHeight - lines.clientHeight;
    lines.isFollowed = Math.abs(lines.scrollTop - end) >= 1;  // this causes a scroll event, to be ignored
    lines.scrollTop = end;
  }
  grown.clear();
}
