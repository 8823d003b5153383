// The screen: asks for the state, shows what the answer has, sends what is typed. What a person may do is what the server answers.

import { get, post } from "./ask.js";
import { element } from "./grid.js";
import { group, percent, signed } from "./numbers.js";
import planTab from "./tab-plan.js";
import productionTab from "./tab-production.js";
import compareTab from "./tab-compare.js";
import boundsTab from "./tab-bounds.js";
import moreTab from "./tab-more.js";
import publishedTab from "./tab-published.js";
import filesTab from "./tab-files.js";
import logTab from "./tab-log.js";

// Each tab has an id, a label, shows(state), and make(panel, desk), which gives update(view). A further tab is one entry more.
const TABS = [planTab, productionTab, compareTab, moreTab, boundsTab, publishedTab, filesTab, logTab];
const LOOK = 4000; // milliseconds between two looks at what others did

const part = (id) => document.getElementById(id);

class Desk {
  constructor() {
    this.view = { state: null, marks: new Map(), base: 0, before: null };
    this.queue = Promise.resolve();
    this.tabs = new Map();
    this.marksSeen = "";
  }

  // names -------------------------------------------------------------------------------------------------------------------------

  source(i) {
    return this.view.state.sources?.[i] ?? `${i < 2 ? "Plant" : "Depot"} ${i + 1}`;
  }

  terminal(j) {
    return this.view.state.terminals?.[j] ?? `Terminal ${j + 1}`;
  }

  may(deed) {
    return this.view.state.may.includes(deed);
  }

  // what is compared with: a mark, or the plan before the last change that this page saw
  basis() {
    const mark = this.view.marks.get(this.view.base);
    return mark ? { name: mark.name, ...mark } : null;
  }

  // words -------------------------------------------------------------------------------------------------------------------------

  say(sentence) {
    part("spoken").textContent = "";
    requestAnimationFrame(() => (part("spoken").textContent = sentence));
  }

  wrong(sentence) {
    part("wrong-words").textContent = sentence;
    part("wrong").hidden = false;
  }

  right() {
    part("wrong").hidden = true;
    part("wrong-words").textContent = "";
  }

  // A question with its answer: a text, true, or null where it was closed.
  ask({ title, text, field, yes }) {
    const dialog = part("question");
    part("question-title").textContent = title;
    part("question-text").replaceChildren(...[].concat(text || []).map((one) => element("p", {}, one)));
    const label = part("question-label"), input = part("question-field");
    label.hidden = !field;
    part("question-name").textContent = field?.label ?? "";
    input.value = field?.value ?? "";
    input.disabled = !field;
    part("question-yes").textContent = yes;
    dialog.returnValue = "";
    dialog.showModal();
    if (field) input.select();
    return new Promise((done) => {
      dialog.addEventListener("close", () => done(dialog.returnValue === "yes" ? (field ? input.value.trim() || null : true) : null), { once: true });
    });
  }

  // requests ----------------------------------------------------------------------------------------------------------------------

  // Sends a write, one after the other. True where it was taken; where it was refused the sentence stands on the page.
  // A body that depends on what comes before it is a function.
  send(path, body, refused) {
    const turn = this.queue.then(async () => {
      const whole = typeof body === "function" ? body() : body;
      if (!whole) return false;
      const { status, told } = await post(path, whole, () => this.say("The server does not answer; trying again."));
      if (status === 200) {
        this.right();
        await this.take(told, true);
        return true;
      }
      this.wrong(told.refused?.sentence ?? told.sentence ?? `The server answered ${status}.`);
      if (told.refused?.call && refused) refused(told.refused.call);
      if (status === 409) this.look();
      return false;
    });
    this.queue = turn.catch(() => false);
    return turn;
  }

  async act(calls, refused, names) {
    const { standing } = this.view.state; // the case that is looked at now: another one may stand when the calls arrive
    if (!(await this.sure(calls))) return false;
    return this.send("/do", names ? { calls, names, standing } : { calls, standing }, refused);
  }

  // Before a smaller a_1 cuts entries.
  async sure(calls) {
    const now = this.view.state.tariff.supplies[0];
    const cut = calls.filter(([name, i]) => name === "edit_supply" && Number(i) === 1).map((call) => Number(call[2]));
    const least = Math.min(...cut, now);
    if (!this.may("edit_first_supply") || least >= now) return true;
    const text = `The production table has an entry for each output of ${this.source(0)}. From ${group(now)} to ${group(least)}, ${group(now - least)} entries at its end are cut off. A later increase brings zeros; undo brings the entries back.`;
    return this.ask({ title: "Cut the production table?", text, yes: "Cut it" });
  }

  // Undo and redo: of the step that is the last one when all that was typed before has been sent.
  turn(kind) {
    return this.send("/" + kind, () => this.view.state[kind] && { of: this.view.state[kind].of });
  }

  async look() {
    if (document.hidden || this.busy) return;
    this.busy = true;
    try {
      const have = this.view.state ? "?have=" + this.view.state.tag : "";
      const { status, told } = await get("/state" + have);
      if (status === 200) {
        const first = !this.view.state;
        await this.take(told, false);
        if (!first && told.undo) this.say(`Changed by ${told.undo.user}: ${told.undo.what}.`);
      } else if (status >= 400) this.wrong(told.sentence ?? `The server answered ${status}.`);
      part("line").hidden = true;
    } catch (error) {
      part("line").hidden = false;
    } finally {
      this.busy = false;
    }
  }

  async take(state, mine) {
    const old = this.view.state;
    if (old && old.tag === state.tag) return;
    // what another case had is no change of this one
    if (old && old.standing !== state.standing) this.view.before = null;
    else if (old?.plan) this.view.before = old;
    this.view.state = state;
    await this.loadMarks();
    this.draw();
    if (mine && old) this.say(this.effect() || "Done.");
  }

  async loadMarks() {
    const seen = JSON.stringify(this.view.state.marks ?? []);
    if (seen === this.marksSeen) return;
    const { status, told } = this.view.state.marks?.length ? await get("/marks") : { status: 200, told: { marks: [] } };
    if (status !== 200) return;
    this.marksSeen = seen;
    this.view.marks = new Map(told.marks.map((mark) => [mark.mark, mark]));
    if (!this.view.marks.has(this.view.base)) this.view.base = 0;
  }

  // the parts of the screen -------------------------------------------------------------------------------------------------------

  effect() {
    const { state } = this.view;
    if (!state.undo || !state.before) return "";
    const [was, is] = [state.before.total, state.plan?.total ?? null];
    if (was === null || is === null) return is === null ? "No plan now." : "There is a plan again.";
    return is === was ? "The total stays." : `Total ${signed(is - was)} (${percent(is - was, was)}).`;
  }

  draw() {
    const { state } = this.view;
    part("title").textContent = state.title || "Production and freight";
    document.title = part("title").textContent;
    this.drawTurns();
    this.drawResult();
    this.drawMarks();
    this.drawTabs();
  }

  drawTurns() {
    const { state } = this.view;
    for (const [id, step, word] of [["undo", state.undo, "Undo"], ["redo", state.redo, "Redo"]]) {
      const button = part(id);
      button.hidden = state.undo === undefined;
      button.setAttribute("aria-disabled", step ? "false" : "true");
      button.title = step ? `${word}: ${step.what}${step.user ? ` (${step.user})` : ""}` : `Nothing to ${word.toLowerCase()}`;
    }
    part("effect").textContent = state.undo ? `Last change${state.undo.user ? `, by ${state.undo.user}` : ""}: ${state.undo.what}. ${this.effect()}` : "";
  }

  drawResult() {
    const { state } = this.view;
    part("result").hidden = !state.plan && !state.refused;
    part("none").hidden = !state.refused;
    part("tiles").hidden = !state.plan;
    if (state.refused) {
      part("none-sentence").textContent = `No plan. ${state.refused.sentence}`;
      part("none-advice").textContent = state.refused.advice;
      part("none-facts").replaceChildren(...state.refused.facts.map(([name, value]) => element("div", {}, element("dt", {}, name), element("dd", {}, value))));
    }
    if (!state.plan) return;
    const basis = this.basis()?.plan;
    const made = (tariff) => tariff.demands.reduce((a, b) => a + b, 0) - tariff.supplies.slice(2).reduce((a, b) => a + b, 0);
    const other = basis && made(this.basis().tariff) - basis.split;
    const { plan } = state;
    const tiles = [
      [`${this.source(0)} makes`, plan.split, basis?.split], [`${this.source(1)} makes`, made(state.tariff) - plan.split, other],
      ["Production", plan.production, basis?.production], ["Freight", plan.freight, basis?.freight], ["Total", plan.total, basis?.total],
    ];
    part("tiles").replaceChildren(...tiles.map(([name, now, was], k) => this.tile(name, now, was, k === 4)));
  }

  tile(name, now, was, total) {
    const made = element("div", { class: total ? "total" : "" }, element("dt", {}, name), element("dd", {}, group(now)));
    if (was !== undefined && was !== null) {
      const less = now < was ? "less" : now > was ? "more" : "";
      made.append(element("dd", { class: `difference ${less}`, title: `${this.basis().name}: ${group(was)}` }, signed(now - was)));
    }
    return made;
  }

  drawMarks() {
    const { state, marks, base } = this.view;
    part("marks").hidden = !state.marks;
    if (!state.marks) return;
    const set = new Map(state.marks.map((mark) => [mark.mark, mark.name]));
    const chip = (mark, words) => element("button", { type: "button", class: "chip", "aria-pressed": String(base === mark), "data-mark": mark, onclick: () => this.choose(mark) }, ...words);
    const chips = [chip(0, ["no mark"]), ...[...set].map(([mark, name]) => chip(mark, [element("b", {}, String(mark)), " ", element("bdi", {}, name)]))];
    const focused = document.activeElement?.dataset?.mark;
    part("chips").replaceChildren(...chips);
    if (focused !== undefined) part("chips").querySelector(`[data-mark="${focused}"]`)?.focus();
    part("mark-acts").hidden = !base || !this.may("go_back");
    part("mark-new").hidden = !this.may("mark") || set.size === 8;
  }

  choose(mark) {
    this.view.base = mark;
    this.draw();
    this.say(mark ? `Compared with mark ${mark}, ${this.view.marks.get(mark)?.name}.` : "Compared with nothing.");
  }

  async newMark() {
    const taken = new Set(this.view.state.marks.map((mark) => mark.mark));
    const mark = [1, 2, 3, 4, 5, 6, 7, 8].find((k) => !taken.has(k));
    const name = await this.ask({ title: `Mark ${mark}`, text: "The mark keeps the whole case as it is now.", field: { label: "Name", value: `Trial ${mark}` }, yes: "Set mark" });
    if (name && (await this.act([["mark", mark]], null, { [mark]: name.slice(0, 40) }))) this.choose(mark);
  }

  async markAct(what) {
    const mark = this.view.base, name = this.view.marks.get(mark).name;
    if (what === "back") return this.act([["go_back", mark]]);
    if (what === "again") {
      const sure = await this.ask({ title: `Set mark ${mark} again?`, text: `“${name}” then keeps the case as it is now, in place of what it keeps. Undo brings that back.`, yes: "Set again" });
      return sure && this.act([["mark", mark]]);
    }
    const given = await this.ask({ title: `Name of mark ${mark}`, field: { label: "Name", value: name }, yes: "Keep" });
    return given && this.act([], null, { [mark]: given.slice(0, 40) });
  }

  // tabs --------------------------------------------------------------------------------------------------------------------------

  drawTabs() {
    const shown = TABS.filter((tab) => tab.shows(this.view.state));
    const names = shown.map((tab) => tab.id).join();
    if (names !== this.shownTabs) {
      this.shownTabs = names;
      part("tabs").replaceChildren(...shown.map((tab) => this.tabButton(tab)));
      if (!shown.some((tab) => tab.id === this.tab)) this.tab = (shown.find((tab) => "#" + tab.id === location.hash) ?? shown[0])?.id;
    }
    for (const tab of TABS) this.drawTab(tab);
  }

  tabButton(tab) {
    return element("button", { type: "button", role: "tab", id: `tab-${tab.id}`, "aria-controls": `panel-${tab.id}`, onclick: () => this.openTab(tab.id) }, typeof tab.label === "function" ? tab.label(this.view.state) : tab.label);
  }

  drawTab(tab) {
    const button = part(`tab-${tab.id}`), open = tab.id === this.tab;
    if (button) {
      button.setAttribute("aria-selected", String(open));
      button.tabIndex = open ? 0 : -1;
    }
    let made = this.tabs.get(tab.id);
    if (open && !made) {
      const panel = element("section", { id: `panel-${tab.id}`, role: "tabpanel", "aria-labelledby": `tab-${tab.id}` });
      part("panels").append(panel);
      made = { panel, ...tab.make(panel, this) };
      this.tabs.set(tab.id, made);
    }
    if (!made) return;
    made.panel.hidden = !open;
    if (open) made.update(this.view);
  }

  openTab(id) {
    this.tab = id;
    history.replaceState(null, "", "#" + id);
    this.drawTabs();
  }

  tabKey(event) {
    const all = [...part("tabs").children];
    const at = all.indexOf(document.activeElement);
    const to = { ArrowRight: at + 1, ArrowLeft: at - 1, Home: 0, End: all.length - 1 }[event.key];
    if (to === undefined || at < 0) return;
    event.preventDefault();
    const next = all[(to + all.length) % all.length];
    next.focus();
    next.click();
  }
}

const desk = new Desk();
part("undo").addEventListener("click", () => desk.turn("undo"));
part("redo").addEventListener("click", () => desk.turn("redo"));
part("wrong-close").addEventListener("click", () => desk.right());
part("mark-new").addEventListener("click", () => desk.newMark());
for (const button of document.querySelectorAll("[data-act]")) button.addEventListener("click", () => desk.markAct(button.dataset.act));
part("tabs").addEventListener("keydown", (event) => desk.tabKey(event));
document.addEventListener("keydown", (event) => {
  if (!(event.ctrlKey || event.metaKey) || event.target.closest("input, textarea, dialog[open]")) return;
  const key = event.key.toLowerCase();
  const kind = key === "z" && !event.shiftKey ? "undo" : key === "y" || (key === "z" && event.shiftKey) ? "redo" : "";
  if (!kind || desk.view.state?.undo === undefined) return;
  event.preventDefault();
  desk.turn(kind);
});
document.addEventListener("visibilitychange", () => desk.look());
window.addEventListener("beforeprint", () => desk.tabs.get("plan")?.paper?.());
await desk.look();
setInterval(() => desk.queue.then(() => desk.look()), LOOK);
