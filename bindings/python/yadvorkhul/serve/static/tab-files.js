// Files out, per role what it may see, and another case in.

import { element } from "./grid.js";

const OUT = [
  ["/out/plan.html", "plan.html", "the page of the plan, for keeping and printing", (state) => state.plan || state.refused],
  ["/out/plan.csv", "plan.csv", "every lane, as the program plan prints it", (state) => state.plan],
  ["/out/tariff.csv", "tariff.csv", "unit costs, supplies and demands", (state) => state.tariff],
  ["/out/production.csv", "production.csv", "the production table", (state) => state.table],
  ["/out/case.json", "case.json", "the case with names, as far as you may see it", (state) => state.tariff],
];

const PLAIN = ["tariff.csv", "production.csv"]; // the two files have no place for least runs and ceilings

// What the two files leave out. Who may not see whether there are least runs or ceilings is told what holds for any case.
function leftOut({ limits }) {
  if (!limits) return "Least runs and ceilings, where the case has some, are not in it.";
  const some = limits.runs.some((run) => run > 0) || limits.ceilings?.some((row) => row.some((most) => most < 4000));
  return some ? "The least runs and ceilings of this case are not in it; case.json has them." : "";
}

// The letters of a file as they stand, so that the server reads what the command would.
async function textOf(file) {
  try {
    return new TextDecoder("utf-8", { fatal: true, ignoreBOM: true }).decode(await file.arrayBuffer());
  } catch (error) {
    throw new Error("The file is not UTF-8.");
  }
}

function make(panel, desk) {
  const list = element("ul", { class: "files" });
  const picker = element("input", { type: "file", multiple: true, accept: ".json,.csv,application/json,text/csv", id: "import-files" });
  const take = element("button", { type: "button", class: "strong" }, "Enter this case");
  const entering = element("section", {}, element("h2", {}, "Another case"), element("p", { class: "legend" }, "One .json file, or the tariff and the production table as two .csv files. It takes the place of this case and its marks; undo brings both back."),
    element("div", { class: "tools-row" }, element("label", { for: "import-files" }, "Files "), picker, take));
  panel.append(element("h2", {}, "Save"), list, entering);

  async function bodyOf(files) {
    if (files.length === 1 && files[0].name.endsWith(".json")) return { text: await textOf(files[0]) };
    const one = (word) => files.find((file) => file.name.toLowerCase().includes(word));
    const [tariff, production] = [one("tariff") ?? files[0], one("production") ?? files[1]];
    if (files.length !== 2 || tariff === production) throw new Error("Choose one .json file, or a tariff and a production table.");
    return { tariff: await tariff.text(), production: await production.text() };
  }

  take.addEventListener("click", async () => {
    let body;
    try {
      body = await bodyOf([...picker.files]);
    } catch (error) {
      return desk.wrong(error.message);
    }
    const sure = await desk.ask({ title: "Enter this case?", text: "It takes the place of the present case for everybody. Undo brings the present one back.", yes: "Enter" });
    if (sure && (await desk.send("/import", body))) picker.value = "";
  });

  // Fetched first, so that a refusal is a sentence on the page and not a file.
  async function save(event, path, name) {
    event.preventDefault();
    const link = event.target;
    link.setAttribute("aria-busy", "true");
    const response = await fetch(path, { credentials: "same-origin", cache: "no-store" });
    link.removeAttribute("aria-busy");
    if (!response.ok) {
      const told = await response.json();
      return desk.wrong(told.refused?.sentence ?? told.sentence);
    }
    desk.right();
    const address = URL.createObjectURL(await response.blob());
    element("a", { href: address, download: name }).click();
    setTimeout(() => URL.revokeObjectURL(address), 10000);
    desk.say(`${name} is saved.`);
  }

  function update({ state }) {
    const left = leftOut(state);
    const shown = OUT.filter(([, , , shows]) => shows(state));
    list.replaceChildren(...shown.map(([path, name, words]) => element("li", {}, element("a", { href: path, download: name, onclick: (event) => save(event, path, name) }, name), ` ${words}`, PLAIN.includes(name) && left ? element("span", { class: "left-out" }, `. ${left}`) : "")));
    entering.hidden = state.undo === undefined;
  }
  return { update };
}

export default { id: "files", label: "Files", shows: (state) => Boolean(state.tariff), make };
