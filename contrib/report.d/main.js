// Reads the data of the page, draws all of it, and listens.

function drawWarnings() {
  const { warnings } = report.head, box = $("warnings");
  box.hidden = !warnings.length;
  box.replaceChildren(make("details", {},
    make("summary", {}, `${plural(warnings.length, "warning")} of faultsim check`),
    make("ul", {}, ...warnings.map((it) => make("li", {}, it)))));
}

/** The theme: of the system, or as the button chose it. A page from disk may have no storage. */
function listenTheme() {
  const set = ["system", "light", "dark"], dark = matchMedia("(prefers-color-scheme: dark)");
  let at = 0;
  try { at = Math.max(set.indexOf(localStorage.getItem("theme")), 0); } catch { /* none is kept */ }
  const apply = () => {
    const system = dark.matches ? "dark" : "light";
    $("theme").textContent = `Theme: ${set[at]}`;
    document.documentElement.dataset.theme = set[at] === "system" ? system : set[at];
  };
  dark.addEventListener("change", apply);
  $("theme").addEventListener("click", () => {
    at = (at + 1) % 3;
    try { localStorage.setItem("theme", set[at]); } catch { /* none is kept */ }
    apply();
  });
  // paper is light
  addEventListener("beforeprint", () => { document.documentElement.dataset.theme = "light"; });
  addEventListener("afterprint", apply);
  apply();
}

const clear = () => {
  const { fault } = chosen;
  choose({ ...NONE, fault }, true);
};

/** Saves the faults of the table. */
function save() {
  const url = URL.createObjectURL(new Blob([report.csv(faultGrid.list)], { type: "text/csv" }));
  make("a", { href: url, download: `${report.head.title}-faults.csv` }).click();
  setTimeout(() => URL.revokeObjectURL(url), 1000);
}

function listenFilters() {
  let waits = 0;
  const search = () => {
    clearTimeout(waits);
    choose({ query: $("query").value });
  };
  $("query").addEventListener("input", () => {
    clearTimeout(waits);
    waits = setTimeout(search, 60);
  });
  $("filters").addEventListener("submit", (event) => { event.preventDefault(); search(); });
  $("state").addEventListener("change", ({ target: { value } }) => {
    choose({ state: value === "" ? undefined : value === "undetected" ? value : Number(value) });
  });
  $("kind").addEventListener("change", ({ target: { value } }) => {
    choose({ kind: value === "" ? undefined : Number(value) });
  });
  $("collapsed").addEventListener("change", ({ target }) => choose({ collapsed: target.checked }));
  $("clear").addEventListener("click", clear);
  $("save").addEventListener("click", save);
}

function listenTables() {
  $("tree").addEventListener("keydown", treeKey);
  $("tree").tHead.addEventListener("click", sortTree);
  $("curve-log").addEventListener("change", drawCurve);
  $("pins-all").addEventListener("click", showAllPins);
}

function listenWindow() {
  addEventListener("keydown", (event) => {
    const isField = /INPUT|SELECT/.test(event.target.tagName);
    if (isField ? event.key !== "Escape" : event.ctrlKey || event.metaKey || event.altKey) return;
    if (event.key === "/") {
      event.preventDefault();
      $("query").focus();
      $("query").select();
    }
    if (event.key === "Escape") clear();
  });
  const move = () => { readAddress(); drawChosen(); };
  addEventListener("hashchange", move);
  addEventListener("popstate", move);
  let wide = innerWidth;
  addEventListener("resize", () => {
    if (innerWidth !== wide) { drawMap(); drawCurve(); }
    wide = innerWidth;
    faultGrid.mark(chosen.fault);
    pinGrid?.drawRows();
  });
  addEventListener("beforeprint", drawPrinted);
  addEventListener("afterprint", () => {
    for (const id of ["printed", "pins-printed"]) $(id).replaceChildren();
  });
}

/** Paper has no scroll bars: it gets the first rows. */
function drawPrinted() {
  $("printed").replaceChildren(...faultGrid.printed(200, "fault"));
  if (pinGrid) $("pins-printed").replaceChildren(...pinGrid.printed(50, "pin"));
}

function drawChosen() {
  drawBlocks();
  drawPin();
  drawDetail();
  drawFaults();
}

/** Unpacks the data, whose elements then go, for the memory. */
async function readData() {
  const text = (name) => {
    const it = $(`data-${name}`), made = it.textContent;
    it.remove();
    return made;
  };
  const head = JSON.parse($("head").textContent), wanted = Object.keys(head.columns);
  const all = ["names", "tests", "places", ...wanted].map((name) => unpacked(text(name)));
  const [names, bits, places, ...columns] = await Promise.all(all);
  times.unpacked = performance.now();
  const lines = (bytes, encoding) => new TextDecoder(encoding).decode(bytes).split("\n");
  const texts = { names: lines(names, "latin1"), places: lines(places, "utf-8") };
  report = new Report(head, texts, Object.fromEntries(wanted.map((name, i) =>
    [name, numbersOf(columns[i], head.columns[name])])));
  simulator = new Simulator(report, bits);
  document.body.classList.toggle("compared", report.other !== undefined);
  times.read = performance.now();
}

async function start() {
  listenTheme();
  await readData();
  document.body.classList.add("ready");
  $("loading").hidden = true;
  makeFaultGrid();
  makePinGrid();
  readAddress();
  drawWarnings();
  drawCurve();
  drawTests();
  drawKinds();
  drawBeside();
  drawBlockNotes();
  drawPins();
  drawChosen();
  listenFilters();
  listenTables();
  listenWindow();
  if (chosen.fault >= 0) $("faults").scrollIntoView();
  times.drawn = performance.now();
}

// a frame first, so that the figures are on the screen before the work begins
requestAnimationFrame(() => setTimeout(() => start().catch((error) => {
  $("loading").hidden = false;
  $("loading").textContent = `The page has an error: ${error.message}`;
  throw error;
})));
