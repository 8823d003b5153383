// What one drum more would change: each number planned again with one drum more, exact for that one drum. And the fingerprints.

import { get } from "./ask.js";
import { element } from "./grid.js";
import { group, signed } from "./numbers.js";

const KINDS = [
  [["ceiling"], "One drum more on a lane that is full or closed"],
  [["demand"], "One drum more of demand"],
  [["supply", "stock"], "One drum more that a plant can make, or that a depot holds"],
  [["run"], "A least run one drum lower"],
];

const spoken = (print) => print.match(/.{4}/g).slice(0, 4).join(" ");

function make(panel, desk) {
  const prints = element("p", { class: "legend" });
  const tables = element("div", { class: "more scroll", tabindex: 0, role: "region", "aria-label": "What one drum more changes" });
  panel.append(element("p", { class: "legend" }, "What the total would change by, planned again by the proved function with that one number changed: exact for one drum, not for more."), prints, tables);
  let shown = "";

  function name(drum) {
    if (drum.kind === "ceiling") return `${desk.source(drum.source - 1)} → ${desk.terminal(drum.terminal - 1)}`;
    return drum.terminal ? desk.terminal(drum.terminal - 1) : desk.source(drum.source - 1);
  }

  function words(drum) {
    if (drum.below !== null) return drum.below > 0 ? `worth it if the entry for ${group(drum.asked)} is below ${group(drum.below)}` : "worth nothing at any entry";
    return drum.change === null ? `no plan (refusal ${drum.refusal})` : drum.change === 0 ? "0" : signed(drum.change);
  }

  function table(title, drums) {
    const rows = drums.map((drum) => element("tr", {}, element("th", { scope: "row" }, element("bdi", {}, name(drum))), element("td", {}, group(drum.now)), element("td", {}, words(drum))));
    const head = element("tr", {}, element("th", { scope: "col" }, title), element("th", { scope: "col" }, "now"), element("th", { scope: "col" }, "total changes by"));
    return element("table", { class: "compare" }, element("thead", {}, head), element("tbody", {}, ...rows));
  }

  function draw(told) {
    prints.textContent = `Fingerprint of the case ${spoken(told.case_fingerprint)}, of the plan ${spoken(told.plan_fingerprint)}: who reads the same over the telephone has the same.`;
    const parts = KINDS.map(([kinds, title]) => [title, told.drums.filter((drum) => kinds.includes(drum.kind))]);
    parts[0][1].sort((a, b) => (a.change ?? 0) - (b.change ?? 0));
    tables.replaceChildren(...parts.filter(([, drums]) => drums.length).map(([title, drums]) => table(title, drums)));
  }

  async function update() {
    const tag = desk.view.state.tag;
    if (panel.hidden || shown === tag) return;
    shown = tag;
    const { status, told } = await get("/one-more");
    if (desk.view.state.tag !== tag) return;
    if (status === 200) return draw(told);
    prints.textContent = told.refused?.sentence ?? told.sentence ?? "";
    tables.replaceChildren();
  }
  return { update };
}

export default { id: "more", label: "One drum more", shows: (state) => Boolean(state.limits && state.table), make };
