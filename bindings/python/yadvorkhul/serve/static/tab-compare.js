// Now and the marks beside each other: results first, then the inputs and the lanes that differ.

import { element } from "./grid.js";
import { group, signed } from "./numbers.js";

const MOST = 400; // rows of a kind

function make(panel, desk) {
  const none = element("p", { class: "legend" }, "No mark is set yet. A mark keeps the whole case as it is; then this table shows what differs.");
  const table = element("table", { class: "compare" });
  panel.append(none, element("div", { class: "scroll", tabindex: 0, role: "region", "aria-label": "Now and the marks" }, table));

  const made = (one) => one.tariff.demands.reduce((a, b) => a + b, 0) - one.tariff.supplies.slice(2).reduce((a, b) => a + b, 0);

  function row(name, values, kind = "") {
    const now = values[0];
    const cells = values.map((value, k) => {
      const td = element("td", { class: k && value !== now ? "differs" : "" }, value === null || value === undefined ? "–" : group(value));
      if (k && typeof value === "number" && typeof now === "number" && value !== now) td.prepend(element("span", { class: "was" }, signed(value - now)));
      return td;
    });
    return element("tr", { class: kind }, element("th", { scope: "row" }, element("bdi", {}, name)), ...cells);
  }

  function heading(text, count) {
    return element("tr", { class: "heading" }, element("th", { colspan: count + 1, scope: "colgroup" }, text));
  }

  // The rows whose values are not all the same.
  function differing(names, all) {
    const rows = [];
    for (const [name, value] of names) {
      const values = all.map(value);
      if (values.some((one) => one !== values[0])) rows.push(row(name, values));
    }
    if (rows.length > MOST) {
      const left = rows.length - MOST;
      rows.length = MOST;
      rows.push(element("tr", {}, element("th", { scope: "row" }, `and ${group(left)} more`)));
    }
    return rows;
  }

  function results(all) {
    return [
      row(`${desk.source(0)} makes`, all.map((one) => one.plan?.split)),
      row(`${desk.source(1)} makes`, all.map((one) => one.plan && made(one) - one.plan.split)),
      row("production", all.map((one) => one.plan?.production)),
      row("freight", all.map((one) => one.plan?.freight)),
      row("total", all.map((one) => one.plan?.total), "strong"),
      ...(all.some((one) => one.refused) ? [element("tr", {}, element("th", { scope: "row" }, "no plan"), ...all.map((one) => element("td", { class: "words" }, one.refused?.sentence ?? "")))] : []),
    ];
  }

  function inputs(all) {
    const { supplies, demands } = desk.view.state.tariff;
    const names = supplies.map((_, i) => [`supply of ${desk.source(i)}`, (one) => one.tariff.supplies[i]]);
    names.push(...demands.map((_, j) => [`demand of ${desk.terminal(j)}`, (one) => one.tariff.demands[j]]));
    supplies.forEach((_, i) => demands.forEach((__, j) => names.push([`unit cost ${desk.source(i)} to ${desk.terminal(j)}`, (one) => one.tariff.costs[i][j]])));
    const longest = Math.max(...all.map((one) => one.table.length));
    for (let y = 0; y < longest; y++) names.push([`entry of split ${group(y)}`, (one) => one.table[y]]);
    return differing(names, all);
  }

  function lanes(all) {
    const { supplies, demands } = desk.view.state.tariff, names = [];
    supplies.forEach((_, i) => demands.forEach((__, j) => names.push([`${desk.source(i)} to ${desk.terminal(j)}`, (one) => one.plan?.amounts[i][j]])));
    return differing(names, all);
  }

  function update(view) {
    const marks = [...view.marks.values()];
    none.hidden = marks.length > 0;
    table.hidden = marks.length === 0;
    if (!marks.length) return;
    const all = [view.state, ...marks];
    const heads = [element("th", { scope: "col" }, ""), element("th", { scope: "col" }, "now"), ...marks.map((mark) => element("th", { scope: "col" }, `${mark.mark} `, element("bdi", {}, mark.name)))];
    const [given, flows] = [inputs(all), lanes(all)];
    table.replaceChildren(
      element("thead", {}, element("tr", {}, ...heads)),
      element("tbody", {}, ...results(all), heading(given.length ? "Inputs that differ" : "No input differs", all.length), ...given, heading(flows.length ? "Lanes that differ, in drums" : "No lane differs", all.length), ...flows),
    );
  }
  return { update };
}

export default { id: "compare", label: "Compare", shows: (state) => Boolean(state.marks), make };
