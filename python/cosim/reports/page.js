
"use strict";
// Draws the plots and lists the rows of the page that it is in. All values are texts, as the program wrote them; numbers are
// made of them only for the places of a drawing. Texts become text nodes, or are escaped for plotly.
(() => {
  const data = JSON.parse(document.getElementById("data").textContent);
  // The rows and columns that a table shows at once, the points of one time that are listed under the cursor, and into how
  // many parts the points in view are divided where a plot draws not all of them. PAPER is the width of a plot on paper, and
  // AROUND the space left of the first component of a picture.
  const ROWS = 100, COLUMNS = 40, LISTED = 12, PARTS = 1000, MOST_DRAWN = 4 * PARTS, PAPER = 680, AROUND = 40;
  const COLORS = ["#1f5fa8", "#c2571a"], DIFFERS = "#b00020", QUIET = "#8b949e";
  const count = number => number.toLocaleString("en-US");
  function make(name, parent, text, attributes) {
    const made = document.createElement(name);
    if (text) made.textContent = text;
    for (const [key, value] of Object.entries(attributes || {})) made.setAttribute(key, value);
    if (parent) parent.append(made);
    return made;
  }

  // The fields of a trace by column: 0 is the time, 1 the index, and then each column comes.
  function readTrace(given) {
    const columns = new Map();
    const fields = place => {
      if (!columns.has(place)) columns.set(place, given.rows ? given.columns[place].split(",") : []);
      return columns.get(place);
    };
    const times = fields(0).map(Number);
    // Of each row the first one at its time, and the first one after it.
    const first = new Array(times.length), next = new Array(times.length);
    times.forEach((time, row) => { first[row] = row && times[row - 1] === time ? first[row - 1] : row; });
    for (let row = times.length - 1; row >= 0; row--) next[row] = first[row + 1] === first[row] ? next[row + 1] : row + 1;
    return { label: given.label, rows: given.rows, all: given.all, fields, times, first, next };
  }

  const traces = data.traces.map(readTrace);
  const begin = Math.min(...traces.map(trace => trace.rows ? trace.times[0] : 0));
  const last = Math.max(...traces.map(trace => trace.rows ? trace.times[trace.rows - 1] : 0));
  const whole = [begin, last > begin ? last : begin + 1];

  // Plots.

  const escaped = text => text.replace(/&/g, "&amp;").replace(/</g, "&lt;").replace(/>/g, "&gt;");
  const numberOf = (column, field) => column.type === "Bool" ? Number(field === "true") : Number(field);

  // The differences by column, time and index; the times of two traces may have other decimals.
  const plain = time => time.includes(".") ? time.replace(/\.?0+$/, "") : time;
  const keyOf = (place, time, index) => `${place} ${plain(time)} ${index}`;
  const differing = new Map(data.differences.map(each => [keyOf(each[2], each[0], each[1]), each]));

  // What is shown after the value of a row that differs.
  function differenceOf(trace, place, row) {
    if (!differing.size) return "";
    const number = traces.indexOf(trace), time = trace.fields(0)[row], index = trace.fields(1)[row];
    if (differing.has(keyOf(-1, time, index))) return `, no such point in ${traces[1 - number].label}`;
    const found = differing.get(keyOf(place, time, index));
    if (!found) return "";
    const other = found[4 - number];
    return `, differs from ${other === null ? "absent" : other}`;
  }

  // What is shown of a row under the cursor: its value and what differs there, or those of all points at its time.
  function hoverText(trace, place, row) {
    const fields = trace.fields(place + 2), indices = trace.fields(1);
    const label = traces.length > 1 ? trace.label + ", " : "";
    const head = `${label}time ${trace.fields(0)[row]}`;
    const valueAt = other => `index ${indices[other]}: ${fields[other] || "absent"}${differenceOf(trace, place, other)}`;
    if (trace.next[row] - trace.first[row] === 1) return escaped(`${head}, ${valueAt(row)}`);
    const from = Math.max(trace.first[row], Math.min(row - LISTED / 2, trace.next[row] - LISTED));
    const lines = [head];
    const to = Math.min(trace.next[row], from + LISTED);
    for (let other = from; other < to; other++) lines.push(valueAt(other));
    if (trace.next[row] - trace.first[row] > LISTED) lines.push(`of ${trace.next[row] - trace.first[row]} points`);
    return lines.map(escaped).join("<br>");
  }

  // The points of a column, without those of absent events and of what is no number.
  const known = new Map();
  function pointsOf(trace, place) {
    const key = `${traces.indexOf(trace)} ${place}`;
    if (!known.has(key)) {
      const rows = [], x = [], y = [];
      trace.fields(place + 2).forEach((field, row) => {
        const number = numberOf(data.columns[place], field);
        if (field === "" || Number.isNaN(number)) return;
        rows.push(row);
        x.push(trace.times[row]);
        y.push(number);
      });
      known.set(key, { rows, x, y, isSorted: x.every((time, number) => !number || x[number - 1] <= time) });
    }
    return known.get(key);
  }

  // How many times are before a time, or not after it.
  function countBefore(times, time, isEqualCounted) {
    let low = 0, high = times.length;
    while (low < high) {
      const middle = (low + high) >> 1;
      if (times[middle] < time || (isEqualCounted && times[middle] === time)) low = middle + 1; else high = middle;
    }
    return low;
  }

  // The numbers of the points that are drawn in a span. Where there are many, these are of each part of them the first, the
  // least, the greatest and the last one.
  function drawnIn(points, span) {
    const { x, y, isSorted } = points;
    let from = 0, to = x.length;
    if (isSorted && to > MOST_DRAWN) {
      from = Math.max(0, countBefore(x, span[0], false) - 1);
      to = Math.min(to, countBefore(x, span[1], true) + 1);
    }
    const size = to - from > MOST_DRAWN ? Math.ceil((to - from) / PARTS) : 1, found = [];
    for (let part = from; part < to; part += size) {
      const end = Math.min(to, part + size);
      let least = part, greatest = part;
      for (let number = part; number < end; number++) {
        if (y[number] < y[least]) least = number;
        if (y[number] > y[greatest]) greatest = number;
      }
      found.push(...new Set([part, Math.min(least, greatest), Math.max(least, greatest), end - 1]));
    }
    return found;
  }

  function dataOf(trace, place, span) {
    const points = pointsOf(trace, place), numbers = drawnIn(points, span), pick = list => numbers.map(number => list[number]);
    return { x: pick(points.x), y: pick(points.y), text: pick(points.rows).map(row => hoverText(trace, place, row)) };
  }

  function drawingOf(trace, number, place) {
    const column = data.columns[place], color = COLORS[number];
    const drawing = { ...dataOf(trace, place, range), type: "scatter", hoverinfo: "text", name: escaped(trace.label), showlegend: traces.length > 1 };
    if (column.event) {
      return { ...drawing, mode: "markers", cliponaxis: false, marker: { color, size: 9 - 2 * number, symbol: number ? "diamond" : "circle" } };
    }
    const line = { shape: "hv", color, width: 1.6, dash: number ? "dash" : "solid" };
    return { ...drawing, mode: "lines", line, ...(column.type === "Bool" ? { fill: "tozeroy", fillcolor: color + "40" } : {}) };
  }

  // Marks the points at which the two traces differ. A mark has no text of its own: it would be shown far from the mark too.
  function differencesOf(place) {
    const found = data.differences.filter(each => each[2] === place);
    return {
      type: "scatter", mode: "markers", name: "differs", hoverinfo: "skip",
      x: found.map(each => Number(each[0])),
      y: found.map(each => numberOf(data.columns[place], each[3] === null ? each[4] : each[3])),
      marker: { color: DIFFERS, size: 7, symbol: "x-thin", line: { color: DIFFERS, width: 1.5 }, maxdisplayed: MOST_DRAWN }, cliponaxis: false,
    };
  }

  // A dotted line at each time with several points, all as one path.
  function severalPoints() {
    const times = new Set();
    for (const trace of traces) trace.next.forEach((end, row) => { if (end - trace.first[row] > 1) times.add(trace.times[row]); });
    if (!times.size) return [];
    const path = [...times].map(time => `M${time},0L${time},1`).join("");
    return [{ type: "path", path, xref: "x", yref: "paper", line: { color: QUIET, width: 1, dash: "dot" }, layer: "below" }];
  }

  // The span of the values of a column, with a margin.
  function heightsOf(place) {
    let least = Infinity, most = -Infinity;
    for (const trace of traces) for (const value of pointsOf(trace, place).y) { least = Math.min(least, value); most = Math.max(most, value); }
    if (least > most) return [0, 1];
    const margin = most > least ? (most - least) * 0.06 : Math.max(1, Math.abs(most) * 1e-9);
    return [least - margin, most + margin];
  }

  const shapes = severalPoints(), hasMany = traces.some(trace => trace.rows > MOST_DRAWN);
  const drawn = new Map();
  let range = whole, busy = false;

  function layoutOf(place) {
    const column = data.columns[place];
    const axis = { gridcolor: "#e6e9ec", zerolinecolor: "#e6e9ec", linecolor: QUIET, exponentformat: "none" };
    const truth = { range: [-0.15, 1.15], tickvals: [0, 1], ticktext: ["false", "true"], fixedrange: true };
    const heights = column.type === "Bool" ? truth : { range: heightsOf(place) };
    return {
      height: traces.length > 1 ? 215 : 190, margin: { l: 80, r: 16, t: traces.length > 1 ? 50 : 30, b: 36 }, separators: ".", hovermode: "x", hoverdistance: -1, dragmode: "zoom", shapes,
      font: { family: "system-ui, 'Liberation Sans', 'DejaVu Sans', sans-serif", size: 12, color: "#1b1f23" },
      hoverlabel: { align: "left", font: { family: "'DejaVu Sans Mono', Menlo, Consolas, monospace", size: 12 }, namelength: -1 },
      legend: { orientation: "h", y: 1.02, yanchor: "bottom", x: 0 },
      xaxis: { ...axis, range: [...whole], title: { text: "seconds", standoff: 4 }, showspikes: true, spikemode: "across", spikesnap: "hovered data", spikethickness: 1, spikecolor: QUIET },
      yaxis: { ...axis, ...heights, automargin: true },
    };
  }

  async function draw(place, figure) {
    if (drawn.has(place)) return;
    const area = figure.querySelector(".drawing");
    drawn.set(place, area);
    const parts = traces.map((trace, number) => drawingOf(trace, number, place));
    if (traces.length > 1) parts.push(differencesOf(place));
    const buttons = ["select2d", "lasso2d", "autoScale2d", "toggleSpikelines", "hoverClosestCartesian", "hoverCompareCartesian"];
    const config = { responsive: true, displaylogo: false, doubleClick: "reset", modeBarButtonsToRemove: buttons };
    await Plotly.newPlot(area, parts, layoutOf(place), config);
    if (range !== whole) await showIn(area, place);
    area.on("plotly_relayout", () => { if (!busy) show(area.layout.xaxis.range.map(Number)); });
  }

  // Draws a plot anew for the span of time that is shown.
  function showIn(area, place) {
    const layout = { "xaxis.range": [...range] };
    if (!hasMany) return Plotly.relayout(area, layout);
    const parts = traces.map(trace => dataOf(trace, place, range)), listOf = key => parts.map(part => part[key]);
    return Plotly.update(area, { x: listOf("x"), y: listOf("y"), text: listOf("text") }, layout, traces.map((_, number) => number));
  }

  // Shows a span of time in all plots.
  async function show(span) {
    if (span[0] === range[0] && span[1] === range[1]) return;
    range = span;
    busy = true;
    for (const [place, area] of drawn) if (area.layout) await showIn(area, place);
    busy = false;
    document.dispatchEvent(new CustomEvent("span"));
  }

  function addFigure(place, parent) {
    const column = data.columns[place];
    const figure = make("figure", parent, "", { id: `plot-${place}` });
    make("span", make("figcaption", figure, column.name + " "), (column.event ? "event " : "") + column.type);
    make("div", figure, "", { class: traces.length > 1 ? "drawing of-two" : "drawing", role: "img", "aria-label": `plot of ${column.name}; the table of rows has its values` });
    return figure;
  }

  // The controls above the plots: a span of time, and a column that isn't drawn yet.
  function addControls(parent) {
    const bar = make("form", parent, "", { class: "bar controls" });
    const inputs = ["from", "to"].map(word => make("input", make("label", bar, word + " "), "", { inputmode: "decimal", "aria-label": `${word} second` }));
    make("span", bar, "seconds");
    make("button", bar, "Show", { type: "submit" });
    const all = make("button", bar, "Show all", { type: "button" });
    const says = make("span", bar, "", { class: "quiet", role: "status" });
    const fill = () => inputs.forEach((input, place) => { input.value = String(range[place]); });
    bar.addEventListener("submit", event => {
      event.preventDefault();
      const span = inputs.map(input => input.value.trim() === "" ? NaN : Number(input.value));
      const fits = span.every(Number.isFinite) && span[0] < span[1];
      says.textContent = fits ? "" : "Write two numbers, the lesser one first.";
      if (fits) show(span);
    });
    all.addEventListener("click", () => show(whole));
    document.addEventListener("span", fill);
    fill();
  }

  // Says which differences have no mark.
  function addLimitsOfMarks(parent) {
    const marked = data.differences.length;
    if (data.differing > marked) make("p", parent, `The first ${count(marked)} of ${count(data.differing)} differences are marked, and said under the cursor.`);
    if (marked > MOST_DRAWN) make("p", parent, `Of more than ${count(MOST_DRAWN)} marks in view a plot shows a part. Zoom in to see each mark.`);
  }

  // A picture that is larger than its place opens at its leftmost component: a corner may be empty. Components without a
  // connection are below all others.
  function showFirstComponent() {
    const area = document.querySelector(".picture"), all = area ? [...area.querySelectorAll(".box")] : [];
    if (!all.length) return;
    const joined = all.filter(each => each.querySelector(".in, .out")), left = each => each.getBoundingClientRect().left;
    const box = (joined.length ? joined : all).reduce((one, other) => left(other) < left(one) ? other : one);
    const from = area.getBoundingClientRect(), to = box.getBoundingClientRect();
    area.scrollLeft += to.left - from.left - AROUND;
    area.scrollTop += (to.top + to.bottom - from.top - from.bottom) / 2;
  }

  function addChoice(parent, figures) {
    const bar = make("form", parent, "", { class: "bar controls" });
    const input = make("input", make("label", bar, "draw the column "), "", { list: "columns" });
    const list = make("datalist", bar, "", { id: "columns" });
    for (const column of data.columns) make("option", list, "", { value: column.name });
    make("button", bar, "Draw", { type: "submit" });
    const says = make("span", bar, "", { class: "quiet", role: "status" });
    bar.addEventListener("submit", event => {
      event.preventDefault();
      const place = data.columns.findIndex(column => column.name === input.value.trim());
      says.textContent = place < 0 ? "There is no such column." : "";
      if (place < 0) return;
      const figure = document.getElementById(`plot-${place}`) || addFigure(place, figures);
      draw(place, figure).then(() => figure.scrollIntoView({ block: "center" }));
    });
  }

  function addPlots() {
    const parent = document.getElementById("plots");
    const isEmpty = !data.columns.length || !traces.some(trace => trace.rows);
    if (isEmpty) return make("p", parent, "There is nothing to draw.");
    make("p", parent, "Drag the mouse over a plot to zoom into it; a double click shows all again. Values are exact under the cursor and in the table; each line is drawn by the nearest floats.");
    const many = `Of more than ${count(MOST_DRAWN)} points in view a plot draws the first, the least, the greatest and the last one`;
    if (hasMany) make("p", parent, `${many} in each of ${count(PARTS)} parts. Zoom in to see each point.`);
    if (shapes.length) make("p", parent, "A dotted line is at each time with several points.");
    addLimitsOfMarks(parent);
    addControls(parent);
    const figures = make("div", null);
    if (data.drawn.length < data.columns.length) {
      make("p", parent, `${count(data.drawn.length)} of ${count(data.columns.length)} columns are drawn.`);
      addChoice(parent, figures);
    }
    parent.append(figures);
    const enter = ({ isIntersecting, target }) => { if (isIntersecting) draw(Number(target.id.slice(5)), target); };
    const watch = new IntersectionObserver(entries => entries.forEach(enter), { rootMargin: "400px" });
    for (const place of data.drawn) watch.observe(addFigure(place, figures));
    // A sheet of paper has all plots, by its own width.
    const setWidth = layout => { for (const area of drawn.values()) if (area.layout) Plotly.relayout(area, layout); };
    window.addEventListener("beforeprint", () => {
      for (const place of data.drawn) draw(place, document.getElementById(`plot-${place}`));
      setWidth({ autosize: false, width: PAPER });
    });
    window.addEventListener("afterprint", () => setWidth({ autosize: true, width: null }));
  }

  // Tables, a part of whose rows and columns is shown.

  function pager(bar, what, size, total, shown) {
    let from = 0;
    const button = (text, to) => {
      const made = make("button", bar, text, { type: "button", "aria-label": `${text} ${what}` });
      made.addEventListener("click", () => go(to()));
      return made;
    };
    const back = [button("First", () => 0), button("Previous", () => from - size)];
    const says = make("span", bar, "", { role: "status" });
    const lastFrom = Math.floor((total - 1) / size) * size;
    const on = [button("Next", () => from + size), button("Last", () => lastFrom)];
    const input = make("input", make("label", bar, "go to "), "", { inputmode: "numeric", "aria-label": `go to one of the ${what}` });
    input.addEventListener("change", () => { if (/^\d+$/.test(input.value)) go(Math.floor((Number(input.value) - 1) / size) * size); });
    function go(place) {
      from = Math.max(0, Math.min(place, lastFrom));
      says.textContent = `${what} ${count(from + 1)} to ${count(Math.min(from + size, total))} of ${count(total)}`;
      for (const made of back) made.disabled = from === 0;
      for (const made of on) made.disabled = from === lastFrom;
      shown(from, Math.min(from + size, total));
    }
    go(0);
  }

  function addTable(parent, headings, total, cell, fixed) {
    const bars = make("div", parent, "", { class: "controls" });
    const table = make("table", make("div", parent, "", { class: "wide values", tabindex: "0", role: "region", "aria-label": parent.id }));
    let rows = [0, Math.min(ROWS, total)], columns = [fixed, Math.min(fixed + COLUMNS, headings.length)];
    const write = () => {
      const places = [...Array(fixed).keys()];
      for (let place = columns[0]; place < columns[1]; place++) places.push(place);
      const head = make("tr", make("thead", null));
      for (const place of places) make("th", head, headings[place], { scope: "col" });
      const body = make("tbody", null);
      for (let row = rows[0]; row < rows[1]; row++) {
        const line = make("tr", body);
        places.forEach((place, number) => make(number ? "td" : "th", line, cell(row, place), number ? {} : { scope: "row" }));
      }
      table.replaceChildren(head.parentNode, body);
    };
    if (total > ROWS) pager(make("div", bars, "", { class: "bar" }), "rows", ROWS, total, (from, to) => { rows = [from, to]; write(); });
    const others = headings.length - fixed;
    const turn = (from, to) => { columns = [fixed + from, fixed + to]; write(); };
    if (others > COLUMNS) pager(make("div", bars, "", { class: "bar" }), "columns", COLUMNS, others, turn);
    write();
  }

  function addRows() {
    const parent = document.getElementById("rows"), headings = ["time", "index", ...data.columns.map(column => column.name)];
    for (const trace of traces) {
      const part = traces.length > 1 ? make("div", parent) : parent;
      if (traces.length > 1) make("h3", part, trace.label);
      const cut = trace.all > trace.rows ? ` The first ${count(trace.rows)} are in this page, which would be too large with all.` : "";
      make("p", part, `${count(trace.all)} rows.${cut} A field is empty where an event is absent.`);
      if (trace.rows) addTable(part, headings, trace.rows, (row, place) => trace.fields(place)[row], 2);
    }
  }

  function addDifferences() {
    const parent = document.getElementById("differences");
    if (!parent || !data.differences.length) return;
    const cells = data.differences.map(([time, index, place, mine, other]) => {
      const missing = place < 0 ? "no row" : "absent";
      return [time, String(index), place < 0 ? "time" : data.columns[place].name, mine === null ? missing : mine, other === null ? missing : other];
    });
    const headings = ["time", "index", "column", ...traces.map(trace => trace.label)];
    addTable(parent, headings, cells.length, (row, place) => cells[row][place], headings.length);
  }

  showFirstComponent();
  addPlots();
  addDifferences();
  addRows();
})();
