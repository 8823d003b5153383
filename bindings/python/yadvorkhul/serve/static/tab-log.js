// Who did what: the steps that stand, the last first.

import { get } from "./ask.js";
import { element } from "./grid.js";
import { counted, group } from "./numbers.js";

function make(panel, desk) {
  const words = element("p", { class: "legend" });
  const body = element("tbody");
  const heads = ["when (UTC)", "who", "what"].map((text) => element("th", { scope: "col" }, text));
  panel.append(words, element("div", { class: "scroll", tabindex: 0, role: "region", "aria-label": "Steps" }, element("table", { class: "log" }, element("thead", {}, element("tr", {}, ...heads)), body)));
  let shown = "";

  async function update({ state }) {
    if (shown === state.tag) return;
    shown = state.tag;
    const { status, told } = await get("/log");
    if (status !== 200) return desk.wrong(told.sentence);
    words.textContent = `${counted(told.count, "step")}${told.count > told.steps.length ? `, the last ${group(told.steps.length)} shown` : ""}. The journal has them all, with those undone.`;
    body.replaceChildren(...told.steps.map((step) => element("tr", {}, element("td", {}, step.time.replace("T", " ").replace("Z", "")), element("td", {}, step.user || "–"), element("td", { class: "words" }, step.what))));
  }
  return { update };
}

export default { id: "log", label: "Steps", shows: (state) => state.undo !== undefined, make };
