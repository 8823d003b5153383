// The production table: a column to type or paste into, a range to fill, square-root rates, and a small chart.

import { get } from "./ask.js";
import { Chart } from "./chart.js";
import { Grid, element } from "./grid.js";
import { commasPart, counted, group, parse, signed, whyNot } from "./numbers.js";

function make(panel, desk) {
  const holder = element("div", { class: "curve" });
  const table = element("table", { class: "entries" });
  const scroll = element("div", { class: "scroll entries-scroll" }, table);
  const field = (name, label, value = "") => element("label", {}, `${label} `, element("input", { name, inputmode: "numeric", size: 8, value, autocomplete: "off" }));
  const fill = element("form", { class: "tools" }, field("from", "From split"), field("to", "to"), field("value", "entry"), field("step", "and for each drum more", "0"), element("button", { class: "strong" }, "Fill"));
  const rates = element("button", { type: "button" }, "Square-root rates");
  const tools = element("div", { class: "tools-row" }, fill, rates);
  panel.append(element("p", { class: "legend" }, "Entry y is the cost of both plants together when the first one makes y. A column can be pasted."), tools, element("div", { class: "beside" }, scroll, holder));
  let grid = null, length = 0, chart = null;

  const state = () => desk.view.state;
  const basisTable = () => desk.basis()?.table;

  function cell(r) {
    const value = state().table[r], was = basisTable()?.[r];
    const altered = was !== undefined && was !== value;
    const parts = [["amount", group(value)]];
    if (altered && typeof was === "number" && typeof value === "number") parts.unshift(["was", signed(value - was)]);
    const refused = state().refused?.number === 9 && state().refused.place === r;
    return { parts, value, editable: desk.may("edit_entry"), label: `Entry of split ${group(r)}: ${group(value)}`, class: `edge${altered ? " altered" : ""}${refused ? " wrong" : ""}` };
  }

  function commit(changes) {
    if (changes.some(({ value }) => value.startsWith("-"))) {
      desk.wrong("An entry is not below 0. Nothing was changed.");
      return false;
    }
    return desk.act(changes.map(({ r, value }) => ["edit_entry", r, value]), ([, y]) => y < length && grid.outline(y, 0));
  }

  function drawGrid() {
    const now = state().table.length;
    if (grid && now === length) return grid.refresh();
    length = now;
    const options = { label: "Production table", rows: length, columns: 1, corner: "split", head: () => "entry", side: (r) => group(r), cell: (r) => cell(r), commit, say: (s) => desk.say(s), wrong: (s) => desk.wrong(s) };
    if (!grid) grid = new Grid(table, options);
    else {
      Object.assign(grid, options);
      grid.build();
    }
  }

  function drawChart() {
    const drawn = (entries) => entries.map(Number);
    const series = [{ class: "now", first: 0, values: drawn(state().table) }];
    if (basisTable()) series.unshift({ class: "was", first: 0, values: drawn(basisTable()) });
    const points = state().plan ? [{ x: state().plan.split, y: state().plan.production, glyph: "★", class: "given", text: "" }] : [];
    chart ??= new Chart(holder);
    const read = (y) => (state().table[y] === undefined ? `${group(y)}: no entry now` : `${desk.source(0)} ${group(y)} · entry ${group(state().table[y])}`);
    chart.draw({ label: "Entries over what plant 1 makes", axis: `${desk.source(0)} makes →`, height: 230, series, points, at: state().plan?.split ?? 0, read });
  }

  fill.addEventListener("submit", (event) => {
    event.preventDefault();
    const typed = ["from", "to", "value", "step"].map((name) => fill.elements[name].value || "x"), commas = commasPart(typed);
    const [from, to, value, step] = typed.map((text) => parse(text, commas));
    const odd = typed.find((text) => parse(text, commas) === null);
    if (odd !== undefined) return desk.wrong(`From, to, entry and step are whole numbers.${odd === "x" ? "" : ` \u201c${odd}\u201d ${whyNot(odd)}.`}`);
    const [a, b] = [Number(from), Number(to)];
    if (a < 0 || b < a || b >= length) return desk.wrong(`The range lies within 0 to ${group(length - 1)}, from the smaller to the larger.`);
    const calls = [];
    for (let y = a; y <= b; y++) {
      const entry = BigInt(value) + BigInt(step) * BigInt(y - a);
      if (entry < 0n) return desk.wrong(`At split ${group(y)} the entry would be below 0. Nothing was changed.`);
      if (String(entry) !== String(state().table[y])) calls.push(["edit_entry", y, String(entry)]);
    }
    if (!calls.length) return desk.say("The entries are so already.");
    desk.act(calls).then((taken) => taken && desk.say(`Filled ${counted(calls.length, "entry", "entries")}.`));
  });

  rates.addEventListener("click", async () => {
    const { status, told } = await get("/rates");
    if (status !== 200) return desk.wrong(told.refused?.sentence ?? told.sentence);
    const calls = told.table.map((entry, y) => ["edit_entry", y, entry]).filter(([, y, entry]) => entry !== state().table[y]);
    if (!calls.length) return desk.say("The entries are the square-root rates already.");
    const sure = await desk.ask({ title: "Square-root rates?", text: `100 times the square root of each output, rounded down, in place of ${counted(calls.length, "entry", "entries")}. Undo brings them back.`, yes: "Take the rates" });
    if (sure) desk.act(calls);
  });

  function update() {
    tools.hidden = !desk.may("edit_entry");
    drawChart();
    drawGrid();
  }
  return { update };
}

export default { id: "production", label: "Production", shows: (state) => Boolean(state.table), make };
