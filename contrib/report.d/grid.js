// A table of which only the rows in view exist: it can have millions.

const ROW = 28;                                // the height of a row, as in page.css
const MOST = 12e6;                             // the height of an element that browsers can have

/** A cell that is cut at its left: the end of a name says more. */
const nameCell = (text, title) => make("span", { class: "mono", title },
  make("bdi", { dir: "ltr" }, text));
const numberCell = (text) => make("span", { class: "num" }, text);

/**
 * A table of items, which are numbers below `items`. A column has {by, title, hint, cell, isNumber,
 * isCount}: it sorts by `by`, a count with the largest first. `order` returns {sort, descending},
 * and `reorder` changes it; "list" is the order without a column. `move` is called with the item
 * that a key moves to, `pick` with that of a click or of Enter. `none` stands in an empty table.
 */
class Grid {
  constructor(element, { columns, items, none, order, reorder, move, pick }) {
    Object.assign(this, { element, columns, items, none, order, reorder, move, pick });
    this.name = element.id;
    this.view = element.querySelector(".rows");
    this.spacer = this.view.firstElementChild;
    this.list = new Uint32Array(0);            // the items, in the order of the rows
    this.on = -1;                              // the item whose row is marked
    this.rowOf = null;
    this.#listen();
  }

  #listen() {
    let isDue = false;
    this.view.addEventListener("scroll", () => {
      if (isDue) return;
      isDue = true;
      requestAnimationFrame(() => { isDue = false; this.drawRows(); });
    }, { passive: true });
    this.view.addEventListener("wheel", (event) => this.#wheel(event), { passive: false });
    this.element.addEventListener("keydown", (event) => this.#key(event));
  }

  /** Shows a list of items from its first row, or from the marked one. */
  show(list) {
    this.list = list;
    this.rowOf = null;
    const height = `${Math.min(list.length * ROW, MOST)}px`;
    this.#drawHead();
    this.element.setAttribute("aria-rowcount", list.length + 1);
    this.spacer.style.height = height;
    this.view.style.setProperty("--needs", height);
    this.view.scrollTop = 0;
    this.mark(this.on);
  }

  /** Marks the row of an item, and scrolls so that it is in view; -1 is none. */
  mark(item) {
    const { view } = this;
    this.on = item;
    const at = this.#rowIn(item);
    if (at >= 0) {
      const top = view.scrollTop * this.#stretch(), room = view.clientHeight - ROW;
      if (at * ROW < top) view.scrollTop = at * ROW / this.#stretch();
      else if (at * ROW > top + room) view.scrollTop = (at * ROW - room) / this.#stretch();
    }
    this.drawRows();
  }

  /** A click on a head sorts: a first click, the other way, and the order of the list again. */
  #sortBy({ by, isCount = false }) {
    const { sort, descending } = this.order();
    if (sort !== by) this.reorder({ sort: by, descending: isCount });
    else if (descending === isCount) this.reorder({ sort, descending: !isCount });
    else this.reorder({ sort: "list", descending: false });
    const at = this.columns.findIndex((it) => it.by === by);
    this.element.querySelectorAll(".head button")[at].focus();
  }

  #drawHead() {
    const { sort, descending } = this.order(), way = descending ? "descending" : "ascending";
    this.element.querySelector(".head").replaceChildren(...this.columns.map((column) => make("span",
      { role: "columnheader", class: column.isNumber ? "num" : "",
        "aria-sort": sort === column.by ? way : "none" },
      button(column.title, () => this.#sortBy(column), { title: column.hint }))));
  }

  /** The row of an item, or -1. */
  #rowIn(item) {
    if (item < 0) return -1;
    if (!this.rowOf) {
      this.rowOf = new Int32Array(this.items).fill(-1);
      this.list.forEach((it, row) => { this.rowOf[it] = row; });
    }
    return this.rowOf[item];
  }

  /** By how much the list is longer than its scroll bar, if it is too long for a browser. */
  #stretch() {
    const all = this.list.length * ROW, { clientHeight } = this.view;
    return all > MOST ? (all - clientHeight) / (MOST - clientHeight) : 1;
  }

  drawRows() {
    const { view, list, name } = this, top = view.scrollTop * this.#stretch();
    const first = Math.floor(top / ROW), made = [];
    const end = Math.min(first + Math.ceil(view.clientHeight / ROW) + 5, list.length);
    for (let i = Math.max(first - 4, 0); i < end; i++) {
      const item = list[i], isOn = item === this.on;
      const cells = this.columns.map(({ cell }) => cell(item));
      cells.forEach((it) => it.setAttribute("role", "gridcell"));
      made.push(make("div", { role: "row", class: `row${isOn ? " on" : ""}`, id: `${name}-${i}`,
        "aria-rowindex": i + 2, "aria-selected": isOn,
        style: `transform:translateY(${view.scrollTop + i * ROW - top}px)`,
        onclick: () => this.pick(item) }, ...cells));
    }
    if (!list.length) made.push(make("p", { class: "note" }, this.none));
    this.spacer.replaceChildren(...made);
    const at = this.#rowIn(this.on), isDrawn = at >= 0 && $(`${name}-${at}`);
    if (isDrawn) this.element.setAttribute("aria-activedescendant", `${name}-${at}`);
    else this.element.removeAttribute("aria-activedescendant");
  }

  /** Arrows, Page, Home and End move by rows, and Enter picks one. */
  #key(event) {
    const { list, view } = this;
    if (event.target !== this.element || !list.length) return;
    const page = Math.floor(view.clientHeight / ROW) - 1, at = this.#rowIn(this.on);
    const to = { ArrowDown: at + 1, ArrowUp: at - 1, PageDown: at + page, PageUp: at - page,
      Home: 0, End: list.length - 1 }[event.key];
    const isPick = event.key === "Enter" && at >= 0;
    if (to === undefined && !isPick) return;
    event.preventDefault();
    if (isPick) this.pick(list[at]);
    else this.move(list[Math.min(Math.max(to, 0), list.length - 1)]);
  }

  /** A list that is longer than its scroll bar moves by pixels nevertheless. */
  #wheel(event) {
    const { view } = this, longer = this.#stretch();
    if (longer <= 1 || event.ctrlKey || !event.deltaY) return;
    event.preventDefault();
    const step = event.deltaY * [1, ROW, view.clientHeight][event.deltaMode] / longer;
    view.scrollTop += Math.sign(step) * Math.max(Math.abs(step), 1);
  }

  /** The first rows as a plain table, for paper. */
  printed(most, word) {
    const { list, columns } = this, rows = [...list.subarray(0, most)].map((item) => make("tr", {},
      ...columns.map(({ cell }) => make("td", {}, cell(item).textContent))));
    const heads = columns.map(({ title }) => make("th", {}, title));
    const note = list.length > most ? `The first ${most} of ${plural(list.length, word)}.` : "";
    return [make("table", { class: "plain" }, make("thead", {}, make("tr", {}, ...heads)),
      make("tbody", {}, ...rows)), make("p", { class: "quiet" }, note)];
  }
}
