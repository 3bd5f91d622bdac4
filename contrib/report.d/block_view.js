// Draws the blocks: the treemap, the tree and the path of the chosen block.

const CHILDREN = 15;                           // the parts of a block that the tree shows at first
const unfolded = new Set();                    // blocks of which it shows all
let treeSort = { by: "undetected", descending: true };

const shareOf = (it) => (it.total ? it.detected / it.total : 1);
const STEPS = [0.5, 0.7, 0.85, 0.95, 0.99];
const shade = (it) => `c${STEPS.filter((least) => shareOf(it) >= least).length}`;
const MEASURES = {
  undetected: (a, b) => a.undetected - b.undetected || a.total - b.total,
  total: (a, b) => a.total - b.total,
  share: (a, b) => shareOf(a) - shareOf(b),
  gained: (a, b) => a.gained - b.gained,
  lost: (a, b) => a.lost - b.lost,
  name: (a, b) => a.name.localeCompare(b.name, "en", { numeric: true }),
};

/**
 * The blocks below one, and its own logic, in an order. A block that has only one block and nothing
 * else stands for that one: genblk1.pcpi_mul.
 */
function partsOf(node, sort) {
  const { blocks } = report, parts = [];
  const from = node ? blocks.paths[node].length + blocks.separator.length : 0;
  for (let it of blocks.below[node]) {
    while (blocks.below[it].length === 1 && !report.of(it, true).total) [it] = blocks.below[it];
    const name = blocks.paths[it].slice(from);
    parts.push({ node: it, own: false, name, ...report.of(it, false) });
  }
  const own = { node, own: true, name: SHARED, ...report.of(node, true) };
  if (parts.length && own.total) parts.push(own);
  const measure = MEASURES[sort.by];
  return parts.sort((a, b) => (sort.descending ? measure(b, a) : measure(a, b)));
}

/** A block as partsOf has its parts. */
const whole = (node) => {
  const name = report.blocks.names[node];
  return { node, own: false, name, ...report.of(node, false) };
};

const isChosen = (it) => it.node === chosen.block && it.own === chosen.own;

function drawBlocks() {
  drawMap();
  drawTree();
  drawCrumbs();
}

function drawCrumbs() {
  const { blocks } = report, path = [];
  for (let node = chosen.block; node >= 0; node = blocks.parents[node]) path.unshift(node);
  const current = { "aria-current": "true" };
  const parts = path.map((node) => button(blocks.names[node],
    () => choose({ block: node, own: false }, true),
    node === chosen.block && !chosen.own ? current : {}));
  if (chosen.own) parts.push(button(SHARED, undefined, current));
  $("crumbs").replaceChildren(...joined(parts, "›"));
}

function drawMap() {
  const { blocks } = report, map = $("map"), { width, height } = map.getBoundingClientRect();
  const hasParts = blocks.below[chosen.block].length;
  const at = hasParts ? chosen.block : Math.max(blocks.parents[chosen.block], 0);
  const tiles = [], all = { width, height };
  /** Tiles of the parts of a block; a part with room has its own parts below its name. */
  const fill = (node, x, y, width, height, depth) => {
    let parts = partsOf(node, { by: "total", descending: true }).filter((it) => it.total);
    if (!parts.length && !depth) parts = [whole(node)];
    // a tile of less than some pixels is no use
    const scale = width * height / parts.reduce((sum, it) => sum + it.total, 0);
    parts = parts.filter((it) => it.total * scale >= 12).slice(0, 150);
    treemap(parts.map((it) => it.total), x, y, width, height).forEach(([x, y, w, h], i) => {
      const it = parts[i], hasRoom = w > 70 && h > 60 && depth < 3;
      const inner = !it.own && blocks.below[it.node].length > 0 && hasRoom;
      tiles.push(tile(it, x, y, w, h, inner, all));
      if (inner) fill(it.node, x + 4, y + 21, w - 8, h - 25, depth + 1);
    });
  };
  fill(at, 0, 0, width, height, 0);
  map.replaceChildren(...tiles);
  map.setAttribute("aria-label", `Treemap of ${blocks.names[at]}: area is faults, colour coverage`);
}

/** The lines of text that a tile has room for. */
function tileLines({ name, undetected }, share, w, h, inner) {
  if (w < 44 || h < 20) return [];
  const title = make("b", {}, name);
  if (inner) return [make("span", {}, title, ` ${share}`)];
  const lines = [make("span", {}, title)];
  if (h > 40) lines.push(make("span", {}, share));
  if (h > 58 && w > 90) lines.push(make("span", {}, `${number(undetected)} undetected`));
  return lines;
}

/** A tile, in shares of the map, so that it fits on paper, too. */
function tile(it, x, y, w, h, inner, { width, height }) {
  const share = `${percent(it.detected, it.total)} %`, on = isChosen(it);
  const path = `${report.blocks.paths[it.node] || "(top)"}${it.own ? ` ${SHARED}` : ""}`;
  const of = `${number(it.undetected)} of ${plural(it.total, "fault")}`;
  const title = `${path}: ${share}, ${of} undetected`;
  const lines = tileLines(it, share, w, h, inner);
  const place = [["left", x / width], ["top", y / height], ["width", w / width],
    ["height", h / height]].map(([name, part]) => `${name}:${100 * part}%`).join(";");
  return make("button", { type: "button", title, "aria-label": title, "aria-pressed": String(on),
    class: `${shade(it)}${inner ? " inner" : ""}${on ? " on" : ""}`,
    style: `${place}${lines.length ? "" : ";padding:0"}`,
    onclick: () => choose({ block: it.node, own: it.own }, true) }, ...lines);
}

/** A bar of the states of faults. */
function stack(states) {
  const parts = [3, 2, 1, 0].filter((state) => states[state]);
  const label = parts.map((state) => `${number(states[state])} ${STATES[state]}`).join(", ");
  return make("span", { class: "stack", role: "img", "aria-label": label },
    ...parts.map((state) => make("span", { class: `bar ${CLASSES[state]}`,
      style: `flex-grow:${states[state]}` })));
}

/** A click on a row of the tree: on the sign it opens or closes, else it chooses, too. */
function clickRow(event, it, inner, open) {
  const toggle = () => {
    opened[open ? "delete" : "add"](it.node);
    drawTree();
  };
  if (inner && event.target.classList.contains("twist")) return toggle();
  if (isChosen(it)) return inner && toggle();
  if (inner) opened.add(it.node);
  return choose({ block: it.node, own: it.own }, true);
}

/** A row of the tree. */
function treeRow(it, level, inner, open) {
  const on = isChosen(it);
  const cell = (text, more = {}) => make("td", { role: "gridcell", class: "num", ...more }, text);
  const sign = inner ? (open ? "▾" : "▸") : "";
  const twist = make("span", { class: "twist", "aria-hidden": "true" }, sign);
  const beside = report.other ? [cell(`+${number(it.gained)}`), cell(`−${number(it.lost)}`)] : [];
  return make("tr", { role: "row", "aria-level": level + 1, "aria-selected": on,
    "aria-expanded": inner ? String(open) : undefined, class: on ? "on" : "", tabindex: on ? 0 : -1,
    "data-node": it.node, "data-own": it.own ? 1 : 0,
    onclick: (event) => clickRow(event, it, inner, open) },
  make("td", { role: "rowheader", title: report.blocks.paths[it.node] || "the circuit",
    style: `padding-left:${0.3 + 1.1 * level}em` }, twist, it.name || "(no name)"),
  cell(number(it.undetected)), cell(number(it.total)), cell(`${percent(it.detected, it.total)} %`),
  ...beside, cell(stack(it.states), { class: "wide" }));
}

/** The row that shows the other parts of a block. */
function moreRow(node, level, count) {
  const words = `${number(count)} more`, columns = report.other ? 7 : 5;
  return make("tr", { role: "row" }, make("td", { role: "gridcell", colspan: columns,
    style: `padding-left:${1.4 + 1.1 * level}em` },
  button(words, () => { unfolded.add(node); drawTree(); }, { class: "name" })));
}

function drawTree() {
  const rows = [], { blocks } = report, table = $("tree");
  const add = (it, level) => {
    const inner = !it.own && blocks.below[it.node].length > 0, open = inner && opened.has(it.node);
    rows.push(treeRow(it, level, inner, open));
    if (!open) return;
    const parts = partsOf(it.node, treeSort);
    const most = unfolded.has(it.node) ? parts.length : CHILDREN;
    for (const part of parts.slice(0, most)) add(part, level + 1);
    if (parts.length > most) rows.push(moreRow(it.node, level + 1, parts.length - most));
  };
  const hasFocus = table.contains(document.activeElement);
  add(whole(0), 0);
  if (!rows.some((row) => row.tabIndex === 0)) rows[0].tabIndex = 0;
  table.tBodies[0].replaceChildren(...rows);
  for (const head of table.tHead.querySelectorAll("th[data-by]")) {
    const way = treeSort.descending ? "descending" : "ascending";
    head.hidden = ["gained", "lost"].includes(head.dataset.by) && !report.other;
    head.setAttribute("aria-sort", head.dataset.by === treeSort.by ? way : "none");
  }
  if (hasFocus) table.querySelector("tr[tabindex='0']").focus({ preventScroll: true });
}

/** A click on a head of the tree sorts it. */
function sortTree(event) {
  const by = event.target.closest("th")?.dataset.by;
  if (!by || event.target.tagName !== "BUTTON") return;
  const descending = treeSort.by === by ? !treeSort.descending : by !== "name" && by !== "share";
  treeSort = { by, descending };
  drawTree();
}

/** Keys in the tree, as in every tree: arrows, Home, End, Enter. */
function treeKey(event) {
  const row = event.target.closest("tr[data-node]");
  if (!row || event.target.tagName === "BUTTON") return;
  const rows = [...$("tree").querySelectorAll("tr[data-node]")], at = rows.indexOf(row);
  const { node, own } = row.dataset, open = row.getAttribute("aria-expanded");
  const level = (it) => Number(it.getAttribute("aria-level"));
  const go = (to) => { if (to) { row.tabIndex = -1; to.tabIndex = 0; to.focus(); } };
  const toggle = () => {
    opened[open === "true" ? "delete" : "add"](Number(node));
    drawTree();
    go($("tree").querySelector(`tr[data-node="${node}"][data-own="${own}"]`));
  };
  const above = () => go(rows.slice(0, at).findLast((it) => level(it) < level(row)));
  const act = {
    ArrowDown: () => go(rows[at + 1]),
    ArrowUp: () => go(rows[at - 1]),
    Home: () => go(rows[0]),
    End: () => go(rows.at(-1)),
    ArrowRight: () => (open === "false" ? toggle() : open && go(rows[at + 1])),
    ArrowLeft: () => (open === "true" ? toggle() : above()),
    Enter: () => row.click(),
    " ": () => row.click(),
  }[event.key];
  if (!act) return;
  act();
  event.preventDefault();
}

/** The scale of the colours, and the rule of the blocks. */
function drawBlockNotes() {
  const { circuit, blocks } = report, count = blocks.inferred.reduce((a, b) => a + b, 0);
  const scale = ["below 50 %", "50", "70", "85", "95", "≥ 99 %"].map((it, i) => make("span", {},
    make("span", { class: `key c${i}`, "aria-hidden": "true" }), it));
  $("scale").replaceChildren("Coverage:", ...scale, ". Area: faults.");
  const inferred = `${number(count)} of ${plural(circuit.count, "signal")} have no name of the `
    + "design; "
    + "each of them is in the deepest block that has all that reads it.";
  $("inferred").textContent = "A fault is in the block of the name in its line: the parts before "
    + `“${blocks.separator}”, and below them the word of a bus, register or input. `
    + (count ? inferred : "");
}
