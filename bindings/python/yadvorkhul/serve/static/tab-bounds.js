// Entries known between a low and a high one only: which splits can be the cheapest, and how far the least total can lie.

import { post } from "./ask.js";
import { Chart } from "./chart.js";
import { element } from "./grid.js";
import { commasPart, counted, freights, group, parse, percent, whyNot } from "./numbers.js";

function make(panel, desk) {
  const field = (name, label, value) => element("label", {}, `${label} `, element("input", { name, inputmode: "numeric", size: 4, value, autocomplete: "off" }), " %");
  const form = element("form", { class: "tools" }, field("below", "Entries may be lower by up to", "5"), field("above", "or higher by up to", "5"), element("button", { class: "strong" }, "Show"));
  const high = element("textarea", { rows: 4, cols: 24, spellcheck: "false", "aria-label": "High entries, one in each line" });
  const pasted = element("details", {}, element("summary", {}, "Or paste a column of high entries, the table being the low ones"), high, element("p", {}, element("button", { type: "button", class: "strong" }, "Show with this column")));
  const answer = element("div", { class: "bounds", role: "status" });
  const holder = element("div", { class: "curve" });
  const list = element("p", { class: "legend" });
  panel.append(element("p", { class: "legend" }, "Where each entry is known between two bounds only: a split can be the cheapest if some whole entries between them make it so."), form, pasted, answer, holder, list);
  let chart = null, shown = "";

  const state = () => desk.view.state;

  function spans(first, possible) {
    const found = [];
    possible.forEach((yes, k) => {
      if (!yes) return;
      if (found.length && found[found.length - 1][1] === first + k - 1) found[found.length - 1][1]++;
      else found.push([first + k, first + k]);
    });
    return found;
  }

  function draw(told, low, high) {
    const count = told.possible.reduce((a, b) => a + b, 0), all = told.possible.length;
    answer.replaceChildren(
      element("p", {}, "The least total lies between ", element("b", {}, group(told.smallest)), " and ", element("b", {}, group(told.largest)), told.smallest > 0 ? ` (${percent(told.largest - told.smallest, told.smallest)} apart). ` : ". ",
        element("b", {}, group(count)), ` of ${counted(all, "split")} can be the cheapest.`),
    );
    const parts = spans(told.first, told.possible);
    list.textContent = "Can be the cheapest: " + parts.slice(0, 60).map(([a, b]) => (a === b ? group(a) : `${group(a)} to ${group(b)}`)).join(", ") + (parts.length > 60 ? ` and ${group(parts.length - 60)} more ranges` : "") + ".";
    const { plan } = state();
    holder.hidden = !plan;
    if (!plan) return;
    const freight = freights(plan.stops);
    const sums = (entries) => freight.map((value, k) => value + Number(entries[told.first + k]));
    const band = { first: told.first, low: sums(low), high: sums(high) };
    const read = (y) => {
      const k = y - told.first;
      return `${desk.source(0)} ${group(y)} · total from ${group(band.low[k])} to ${group(band.high[k])} · ${told.possible[k] ? "can be the cheapest" : "is never the cheapest"}`;
    };
    chart ??= new Chart(holder);
    chart.draw({ label: "Totals between the bounds", axis: `${desk.source(0)} makes →`, series: [], band, spans: parts, points: [{ x: plan.split, y: plan.total, glyph: "★", class: "given", text: "" }], at: plan.split, read });
  }

  async function ask(low, high) {
    const { status, told } = await post("/bounds", { low, high });
    if (status !== 200) {
      answer.replaceChildren();
      list.textContent = "";
      holder.hidden = true;
      return desk.wrong(told.refused?.sentence ?? told.sentence);
    }
    desk.right();
    shown = state().tag;
    draw(told, low, high);
  }

  form.addEventListener("submit", (event) => {
    event.preventDefault();
    const [below, above] = ["below", "above"].map((name) => parse(form.elements[name].value || "x"));
    if (below === null || above === null || below < 0 || below > 100 || above < 0) return desk.wrong("Give whole percent, at most 100 below.");
    const entries = state().table.map(BigInt);
    ask(entries.map((entry) => String(entry - (entry * BigInt(below)) / 100n)), entries.map((entry) => String(entry + (entry * BigInt(above) + 99n) / 100n)));
  });

  pasted.querySelector("button").addEventListener("click", () => {
    const lines = high.value.trim().split(/\s*\n\s*/), commas = commasPart(lines);
    const entries = lines.map((line) => parse(line, commas));
    const odd = entries.findIndex((entry) => entry === null || entry.startsWith("-"));
    if (odd >= 0) return desk.wrong(`Line ${odd + 1} of the column ${entries[odd] === null ? whyNot(lines[odd]) : "is below 0"}.`);
    ask(state().table.map(String), entries);
  });

  function update() {
    if (shown && shown !== state().tag) {
      shown = "";
      answer.replaceChildren(element("p", { class: "legend" }, "The case changed since; show it again."));
      list.textContent = "";
      holder.hidden = true;
    }
  }
  holder.hidden = true;
  return { update };
}

export default { id: "bounds", label: "Bounds", shows: (state) => Boolean(state.limits && state.table), make };
