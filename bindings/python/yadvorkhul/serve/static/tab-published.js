// The lanes that a planner froze for everybody to see, without costs.

import { element } from "./grid.js";
import { group } from "./numbers.js";

const WARNING = "Everybody who may sign in will see the drums on each lane as they are now, without any cost or total. A plan tells something of the production entries: it shows how much each plant makes, and whoever sees several can tell more.";

function make(panel, desk) {
  const acts = element("div", { class: "tools-row" });
  const words = element("p", { class: "legend" });
  const table = element("table", { class: "frozen" });
  panel.append(acts, words, element("div", { class: "scroll", tabindex: 0, role: "region", "aria-label": "The published plan" }, table));
  const publish = element("button", { type: "button", class: "strong" }, "Publish the plan of now");
  const withdraw = element("button", { type: "button" }, "Withdraw it");
  acts.append(publish, withdraw);
  publish.addEventListener("click", async () => {
    const { standing } = desk.view.state;
    if (await desk.ask({ title: "Publish this plan?", text: WARNING, yes: "Publish" })) desk.send("/publish", { standing });
  });
  withdraw.addEventListener("click", async () => {
    if (await desk.ask({ title: "Withdraw the published plan?", text: "It is no longer shown. Whoever saw it may remember it.", yes: "Withdraw" })) desk.send("/withdraw", {});
  });

  function update({ state }) {
    const told = state.published;
    acts.hidden = state.undo === undefined;
    publish.disabled = !state.plan;
    withdraw.hidden = !told;
    table.hidden = !told;
    words.textContent = told ? `As published by ${told.user} on ${told.time.replace("T", " ").replace("Z", " UTC")}. The case may have changed since.` : "Nothing is published.";
    if (!told) return;
    const source = (i) => told.sources?.[i] ?? `${i < 2 ? "Plant" : "Depot"} ${i + 1}`, terminal = (j) => told.terminals?.[j] ?? `Terminal ${j + 1}`;
    const sum = (line) => line.reduce((a, b) => a + b, 0);
    const cell = (drums) => element("td", { class: drums ? "used" : "" }, drums ? group(drums) : "·");
    const heads = ["from \\ to", ...told.demands.map((_, j) => terminal(j)), "sends"].map((text) => element("th", { scope: "col" }, element("bdi", {}, text)));
    const rows = told.amounts.map((line, i) => element("tr", {}, element("th", { scope: "row" }, element("bdi", {}, source(i))), ...line.map(cell), element("td", { class: "edge" }, group(sum(line)))));
    const last = element("tr", { class: "demands" }, element("th", { scope: "row" }, "gets"), ...told.demands.map((_, j) => element("td", { class: "edge" }, group(sum(told.amounts.map((line) => line[j]))))), element("td", { class: "edge" }, group(sum(told.demands))));
    table.replaceChildren(element("thead", {}, element("tr", {}, ...heads)), element("tbody", {}, ...rows, last));
  }
  return { update };
}

export default { id: "published", label: "Published", shows: (state) => Boolean(state.published || state.plan), make };
