// Draws the coverage by tests, the faults by kind and state, and the histogram of detections.

let curveAt = -1;                              // the test at the cursor of the curve
const CURVE = { height: 260, left: 52, right: 12, top: 10, bottom: 34 };

/** The places of tests and percentages in the picture of the curve, and back. */
function curveScale(width, tests, logarithmic) {
  const { height, left, right, top, bottom } = CURVE, room = width - left - right;
  const most = Math.max(tests, 2);
  return {
    x: (test) => left + room * (logarithmic ? Math.log(test + 1) / Math.log(most)
      : test / (most - 1)),
    y: (sum) => top + (height - top - bottom) * (1 - sum / report.faults.count),
    test: (x) => {
      const part = Math.min(Math.max((x - left) / room, 0), 1);
      return Math.round(logarithmic ? most ** part - 1 : part * (most - 1));
    },
  };
}

/** The tests that stand below the axis. */
function curveMarks(width, tests, logarithmic) {
  const marks = [];
  if (logarithmic) {
    for (let at = 1; at <= tests; at *= 10) marks.push(at - 1);
    return marks;
  }
  const steps = [0, 1, 2, 3, 4].flatMap((power) => [1, 2, 5].map((it) => it * 10 ** power));
  const step = steps.find((it) => tests / it <= width / 90);
  for (let at = 0; at < tests; at += step) marks.push(at);
  return marks;
}

/** The line of the curve: a step up at each test that detects new faults. */
function curvePath({ x, y }, tests) {
  let path = `M${x(0)} ${y(0)}`, last = -1;
  for (const [test, sum] of report.curve) {
    const here = Math.round(2 * x(test)) / 2;
    path += here === last ? `V${y(sum)}` : `H${here}V${y(sum)}`;
    last = here;
  }
  return `${path}H${x(tests - 1)}`;
}

/** The picture of the curve. */
function curvePicture(width, scale, tests, logarithmic) {
  const { height, left, right, bottom } = CURVE, { x, y } = scale, path = curvePath(scale, tests);
  const rows = [0, 20, 40, 60, 80, 100].flatMap((it) => {
    const at = y(it * report.faults.count / 100);
    return [
      draw("line", { class: it ? "grid" : "axis", x1: left, x2: width - right, y1: at, y2: at }),
      draw("text", { class: "quiet", x: left - 7, y: at + 4, "text-anchor": "end" },
        it === 100 ? "100 %" : it)];
  });
  const marks = curveMarks(width, tests, logarithmic).map((it) => draw("text",
    { class: "quiet", x: x(it), y: height - bottom + 17, "text-anchor": "middle" }, number(it)));
  return draw("svg", { viewBox: `0 0 ${width} ${height}`, role: "slider", tabindex: 0,
    "aria-label": "Coverage up to a test", "aria-valuemin": 0, "aria-valuemax": tests - 1 },
  ...rows, ...marks,
  draw("text", { class: "quiet", x: width - right, y: height - 2, "text-anchor": "end" }, "test"),
  draw("path", { class: "under", d: `${path}V${y(0)}Z` }),
  draw("path", { class: "line", d: path }));
}

/** The words of the curve at a test, and the sum up to it. */
function curveWords(test) {
  const { curve, faults } = report, at = curve.findLastIndex(([it]) => it <= test);
  const [last, sum, fresh] = at < 0 ? [-1, 0, 0] : curve[at];
  const news = last === test ? number(fresh) : "none";
  const share = `${percent(sum, faults.count)} % (${plural(sum, "fault")})`;
  return { sum, words: `Up to test ${number(test)}: ${share}, ${news} new` };
}

function drawCurve() {
  const box = $("curve"), width = Math.max(box.clientWidth, 260), { tests } = report.head.sums;
  if (!tests) {
    box.replaceChildren(make("p", { class: "note" }, "There is no test."));
    return;
  }
  const logarithmic = $("curve-log").checked, scale = curveScale(width, tests, logarithmic);
  const picture = curvePicture(width, scale, tests, logarithmic);
  const dot = draw("circle", { r: 4.5 });
  const line = draw("line", { class: "cross", y1: CURVE.top, y2: CURVE.height - CURVE.bottom });
  picture.append(line, dot);
  const move = (to) => {
    const test = curveAt = Math.min(Math.max(to, 0), tests - 1), { sum, words } = curveWords(test);
    for (const name of ["x1", "x2"]) line.setAttribute(name, scale.x(test));
    dot.setAttribute("cx", scale.x(test));
    dot.setAttribute("cy", scale.y(sum));
    picture.setAttribute("aria-valuenow", test);
    picture.setAttribute("aria-valuetext", words);
    $("curve-words").textContent = words;
  };
  const point = (event) => {
    const box = picture.getBoundingClientRect();
    move(scale.test((event.clientX - box.left) * width / box.width));
  };
  picture.addEventListener("pointermove", point);
  picture.addEventListener("pointerdown", point);
  picture.addEventListener("keydown", (event) => {
    const page = Math.ceil(tests / 10);
    const steps = { ArrowRight: 1, ArrowUp: 1, ArrowLeft: -1, ArrowDown: -1, PageUp: page,
      PageDown: -page, Home: -tests, End: tests };
    if (!steps[event.key]) return;
    move(curveAt + steps[event.key]);
    event.preventDefault();
  });
  box.replaceChildren(picture);
  move(curveAt < 0 ? tests - 1 : curveAt);
}

/** The tests up to which parts of the faults are detected, and those that detect most new ones. */
function drawTests() {
  const { curve, faults, head } = report;
  if (!curve.length) {
    $("milestones").textContent = "No test detects a fault.";
  } else {
    const [last, sum] = curve.at(-1);
    const reach = (part) => number(curve.find(([, it]) => it >= part * sum)[0]);
    $("milestones").textContent = "Of all detected faults, "
      + `50 % are detected up to test ${reach(0.5)}, 90 % up to test ${reach(0.9)} `
      + `and 99 % up to test ${reach(0.99)}. `
      + `${number(curve.length)} of ${plural(head.sums.tests, "test")} detect new faults; `
      + `the last of them is test ${number(last)}.`;
  }
  const best = [...curve].sort((a, b) => b[2] - a[2] || a[0] - b[0]).slice(0, 10);
  const show = { title: "Show these faults" };
  $("best").tBodies[0].replaceChildren(...best.map(([test, upTo, fresh]) => make("tr", {},
    make("td", { class: "num" }, button(number(test), () => only({ test }), show)),
    make("td", { class: "num" }, number(fresh)),
    make("td", { class: "wide" },
      make("span", { class: "meter", style: `width:${100 * fresh / best[0][2]}%` })),
    make("td", { class: "num" }, `${percent(upTo, faults.count)} %`))));
}

/** A cell with a number of faults, which a click shows. */
function countCell(n, changes, words = number(n)) {
  const more = { disabled: !n, title: "Show these faults" };
  return make("td", { class: "num" }, button(words, () => only(changes), more));
}

function drawKinds() {
  const { kindStates, histogram, head } = report;
  const all = [0, 1, 2, 3].map((state) => kindStates.filter((_, at) => at % 4 === state)
    .reduce((a, b) => a + b, 0));
  const row = (name, states, kind) => make("tr", {}, make("th", { scope: "row" }, name),
    ...[3, 2, 1, 0].map((state) => countCell(states[state], { state, kind })),
    make("td", { class: "num" }, `${percent(states[3], states.reduce((a, b) => a + b, 0))} %`));
  const names = ["stem of a signal", "gate pin", "data pin", "output"];
  const of = (kind) => kindStates.subarray(4 * kind, 4 * kind + 4);
  const rows = names.map((name, kind) => [name, of(kind), kind]);
  $("matrix").tBodies[0].replaceChildren(
    ...rows.filter(([, states]) => states.some(Boolean)).map((it) => row(...it)), row("all", all));
  const most = Math.max(...histogram), last = head.detections;
  $("histogram").tBodies[0].replaceChildren(...[...histogram].map((n, count) => make("tr", {},
    countCell(n, { count }, count === last ? `${count} or more` : count),
    make("td", { class: "num" }, number(n)),
    make("td", { class: "wide" }, n ? make("span", { class: `meter${count ? "" : " none"}`,
      style: `width:${100 * n / most}%` }) : null))));
}

/** How many faults only one of two lists of tests detects; a number filters. */
function drawBeside() {
  const { head, all } = report, at = all.subarray(4, 8);
  $("beside-part").hidden = !report.other;
  if (!report.other) return;
  const [here, there] = [head.files[1], head.beside];
  const names = [`neither ${here} nor ${there}`, `only ${there}`, `only ${here}`, "both"];
  $("beside-table").tBodies[0].replaceChildren(...[2, 1, 3, 0].map((beside) => make("tr", {},
    make("th", { scope: "row" }, names[beside]), countCell(at[beside], { beside }))));
}
