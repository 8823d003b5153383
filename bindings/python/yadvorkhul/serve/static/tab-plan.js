// The curve, and the grid of sources against terminals.

import { Chart } from "./chart.js";
import { Grid, element } from "./grid.js";
import { freights, group, percent, signed } from "./numbers.js";

const NO_BOUND = 4000;

// Totals over the splits of a plan, with what they are made of.
export function totals(plan, table) {
  const first = plan.stops[0][0];
  const freight = freights(plan.stops);
  const production = freight.map((_, k) => Number(table[first + k]));
  return { first, freight, production, values: freight.map((value, k) => value + production[k]) };
}

function make(panel, desk) {
  const holder = element("div", { class: "curve" });
  const rivals = element("details", { class: "rivals" }, element("summary"), element("div", { class: "scroll", tabindex: 0, role: "region", "aria-label": "Local minima of the total" }, element("table")));
  const table = element("table", { class: "lanes" });
  const legend = element("p", { class: "legend" });
  const scroll = element("div", { class: "scroll lanes-scroll" }, table);
  const paper = element("div", { class: "paper" });
  panel.append(holder, rivals, legend, scroll, paper);
  let grid = null, size = "", chart = null;

  const view = () => desk.view.state;

  function laneCell(i, j) {
    const state = view(), cost = state.tariff.costs[i][j];
    const name = `${desk.source(i)} to ${desk.terminal(j)}`;
    const cell = { parts: [], value: cost, editable: desk.may("edit_cost"), label: `${name}: unit cost ${group(cost)}`, class: "lane" };
    if (!state.plan) {
      cell.parts.push(["unit alone", group(cost)]);
      return cell;
    }
    const drums = state.plan.amounts[i][j], most = state.limits.ceilings[i][j];
    const basis = desk.basis() ?? desk.view.before;
    const was = basis?.plan?.amounts?.[i]?.[j];
    cell.parts.push(["drums", drums ? group(drums) : "·"], ["unit", group(cost)]);
    if (most < NO_BOUND) cell.parts.push(["most", most === 0 ? "closed" : `≤ ${group(most)}`]);
    cell.label = `${name}: ${group(drums)} drums, unit cost ${group(cost)}${most < NO_BOUND ? `, ceiling ${group(most)}` : ""}`;
    if (drums) cell.class += " used";
    if (drums && drums === most) cell.class += " full";
    if (was !== undefined && was !== drums) {
      cell.class += " changed";
      cell.parts.push(["was", signed(drums - was)]);
      cell.label += `, was ${group(was)}`;
    }
    if (basis?.tariff && basis.tariff.costs[i]?.[j] !== cost && desk.basis()) cell.class += " altered";
    return cell;
  }

  function edgeCell(kind, k, value, editable, what) {
    const basis = desk.basis();
    const was = basis?.tariff?.[kind]?.[k];
    const altered = was !== undefined && was !== value;
    const parts = altered ? [["was", signed(value - was)], ["amount", group(value)]] : [["amount", group(value)]];
    if (kind === "supplies" && view().plan && k < 2) parts.push(["most", `makes ${group(view().plan.amounts[k].reduce((a, b) => a + b, 0))}`]);
    return { parts, value, editable, label: `${what}: ${group(value)}${altered ? `, was ${group(was)}` : ""}`, class: `edge${altered ? " altered" : ""}` };
  }

  function cell(r, c) {
    const { supplies, demands } = view().tariff;
    const m = supplies.length, n = demands.length;
    if (r < m && c < n) return laneCell(r, c);
    if (r < m) return edgeCell("supplies", r, supplies[r], r === 0 ? desk.may("edit_first_supply") : desk.may("edit_supply"), `Supply of ${desk.source(r)}`);
    if (c < n) return edgeCell("demands", c, demands[c], desk.may("edit_demand"), `Demand of ${desk.terminal(c)}`);
    const sum = demands.reduce((a, b) => a + b, 0);
    return { parts: [["amount", group(sum)]], value: sum, editable: false, label: `All demands: ${group(sum)}`, class: "edge" };
  }

  function call({ r, c, value }) {
    const { supplies, demands } = view().tariff;
    if (r < supplies.length && c < demands.length) return ["edit_cost", r + 1, c + 1, value];
    return r < supplies.length ? ["edit_supply", r + 1, value] : ["edit_demand", c + 1, value];
  }

  function refused([name, a, b]) {
    const { supplies, demands } = view().tariff;
    if (name === "edit_cost") grid.outline(a - 1, b - 1);
    if (name === "edit_supply") grid.outline(a - 1, demands.length);
    if (name === "edit_demand") grid.outline(supplies.length, a - 1);
  }

  function commit(changes) {
    const { supplies, demands } = view().tariff;
    if (changes.some(({ r, c }) => r === supplies.length && c === demands.length)) {
      desk.wrong("The sum of the demands cannot be pasted over. Nothing was changed.");
      return false;
    }
    const odd = changes.find(({ r, c, value }) => value.startsWith("-") && call({ r, c, value })[0] !== "edit_cost");
    if (odd) {
      desk.wrong("A supply or demand is not below 0. Nothing was changed.");
      grid.outline(odd.r, odd.c);
      return false;
    }
    return desk.act(changes.map(call), refused);
  }

  function drawGrid() {
    const { tariff } = view();
    table.classList.toggle("plain", !view().plan);
    scroll.classList.toggle("tall", !view().plan);
    const now = JSON.stringify([tariff.supplies.length, tariff.demands.length, view().sources, view().terminals]);
    if (now === size) return grid.refresh();
    size = now;
    const m = tariff.supplies.length, n = tariff.demands.length;
    const options = {
      label: "Sources against terminals", rows: m + 1, columns: n + 1, corner: "from \\ to", cell, commit,
      head: (c) => element("bdi", {}, c < n ? desk.terminal(c) : "supply"), side: (r) => element("bdi", {}, r < m ? desk.source(r) : "demand"),
      headClass: (c) => (c === n ? "edge" : ""), rowClass: (r) => (r === m ? "demands" : r === 1 ? "plants-end" : ""),
      say: (sentence) => desk.say(sentence), wrong: (sentence) => desk.wrong(sentence),
    };
    if (!grid) grid = new Grid(table, options);
    else {
      Object.assign(grid, options);
      grid.build();
    }
  }

  function drawLegend() {
    const state = view(), basis = desk.basis();
    const words = state.plan ? ["Drums, below them the unit cost", state.limits.ceilings.flat().some((most) => most < NO_BOUND) ? " and the ceiling" : "", ". "] : ["Unit costs, supplies and demands. "];
    if (state.plan && (basis || desk.view.before?.plan)) words.push(`Outlined: other than ${basis ? `mark ${basis.mark}` : "before the last change"}. `);
    if (state.may.some((deed) => deed.startsWith("edit_") && deed !== "edit_entry")) words.push("Type a number, or paste a block; Enter takes it, Escape leaves it.");
    legend.replaceChildren(...words);
  }

  function drawCurve() {
    const { plan, table: entries } = view();
    holder.hidden = rivals.hidden = !plan;
    if (!plan) return;
    const now = totals(plan, entries), basis = desk.basis();
    const series = [{ class: "now", first: now.first, values: now.values }];
    const points = [];
    if (basis?.plan) {
      const was = totals(basis.plan, basis.table);
      series.unshift({ class: "was", first: was.first, values: was.values });
      points.push({ x: basis.plan.split, y: basis.plan.total, glyph: "☆", class: "was", text: "" });
    }
    points.push({ x: plan.split, y: plan.total, glyph: "★", class: "given", text: `${group(plan.split)}: ${group(plan.total)}`, always: true });
    for (const [first, , total, more] of plan.rivals) points.push({ x: first, y: total, glyph: "◆", class: "rival", text: more ? signed(more) : "equal" });
    chart ??= new Chart(holder);
    chart.draw({ label: `Total over what ${desk.source(0)} makes`, axis: `${desk.source(0)} makes →`, height: 230, series, points, at: plan.split, read: reading(now, plan, basis) });
    drawRivals(plan, now);
  }

  function reading(now, plan, basis) {
    const made = plan.amounts[0].concat(plan.amounts[1]).reduce((a, b) => a + b, 0);
    const was = basis?.plan ? totals(basis.plan, basis.table) : null;
    return (split) => {
      const k = split - now.first;
      const other = was && was.values[split - was.first] !== undefined ? ` · mark ${basis.mark}: ${group(was.values[split - was.first])}` : "";
      if (now.values[k] === undefined) return `${group(split)}: not possible now${other}`;
      const more = now.values[k] - plan.total;
      const far = split === plan.split ? "★ the cheapest" : more ? `${signed(more)} (${percent(more, plan.total)})` : "equal";
      return `${desk.source(0)} ${group(split)}, ${desk.source(1)} ${group(made - split)} · production ${group(now.production[k])} · freight ${group(now.freight[k])} · total ${group(now.values[k])} · ${far}${other}`;
    };
  }

  function drawRivals(plan, now) {
    const made = plan.amounts[0].concat(plan.amounts[1]).reduce((a, b) => a + b, 0);
    const count = plan.rivals.length + plan.more_rivals;
    rivals.firstChild.textContent = count ? `${group(count)} other local ${count === 1 ? "minimum" : "minima"} of the total; the best ${plan.rivals[0][3] ? signed(plan.rivals[0][3]) : "equal"}` : now.values.length > 1 ? "No other local minimum: from any other split a small change is cheaper or as cheap" : "No other split is possible";
    const row = (cells, kind) => element("tr", { class: kind }, ...cells.map((text) => element("td", {}, text)));
    const span = (a, b) => (a === b ? group(a) : `${group(a)} to ${group(b)}`);
    const rows = [[plan.split, plan.split, plan.total, 0], ...plan.rivals].map(([a, b, total, more], k) =>
      row([span(a, b), span(made - b, made - a), group(now.production[a - now.first]), group(now.freight[a - now.first]), group(total), k ? (more ? signed(more) : "equal") : "★"], k ? "" : "given"));
    const heads = [desk.source(0), desk.source(1), "production", "freight", "total", "more"].map((text) => element("th", { scope: "col" }, text));
    rivals.querySelector("table").replaceChildren(element("thead", {}, element("tr", {}, ...heads)), element("tbody", {}, ...rows));
  }

  // On paper the lanes in use as a list: it fits whatever the number of terminals.
  function drawPaper() {
    const { plan, tariff } = view();
    if (!plan) return paper.replaceChildren();
    const rows = [];
    plan.amounts.forEach((line, i) => line.forEach((drums, j) => drums && rows.push([desk.source(i), desk.terminal(j), group(drums), group(tariff.costs[i][j]), group(drums * tariff.costs[i][j])])));
    const heads = ["from", "to", "drums", "unit cost", "cost"].map((text) => element("th", { scope: "col" }, text));
    const body = rows.map((cells) => element("tr", {}, ...cells.map((text) => element("td", {}, text))));
    paper.replaceChildren(element("h2", {}, "Lanes in use"), element("table", {}, element("thead", {}, element("tr", {}, ...heads)), element("tbody", {}, ...body)));
  }

  function update() {
    drawCurve();
    drawLegend();
    drawGrid();
    drawPaper();
  }
  return { update, paper: drawPaper };
}

export default { id: "plan", label: (state) => (state.plan || state.refused ? "Plan" : "Tariff"), shows: (state) => Boolean(state.tariff), make };
