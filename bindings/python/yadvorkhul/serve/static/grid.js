// A grid of numbers for the keyboard: arrows move, Enter or a digit begins, Enter ends, Escape takes back, a block is pasted whole or not at all.

import { commasPart, parse, whyNot } from "./numbers.js";

export function element(name, attributes = {}, ...children) {
  const made = document.createElement(name);
  for (const [key, value] of Object.entries(attributes)) {
    if (value === null || value === undefined || value === false) continue;
    if (key === "class") made.className = value;
    else if (key.startsWith("on")) made.addEventListener(key.slice(2), value);
    else made.setAttribute(key, value === true ? "" : value);
  }
  made.append(...children);
  return made;
}

export class Grid {
  // options: label, rows, columns, corner, head(c), side(r), cell(r, c), commit(changes), say(sentence), wrong(sentence)
  // cell gives { parts: [[class, text]], value, editable, label, class }
  constructor(table, options) {
    Object.assign(this, options);
    this.table = table;
    this.at = [0, 0];
    this.from = [0, 0];
    this.editing = null;
    this.build();
    table.addEventListener("keydown", (event) => this.key(event));
    table.addEventListener("mousedown", (event) => this.press(event));
    table.addEventListener("dblclick", (event) => this.cellOf(event) && this.begin());
    table.addEventListener("copy", (event) => this.copy(event));
    table.addEventListener("paste", (event) => this.paste(event));
  }

  build() {
    this.table.replaceChildren();
    this.table.setAttribute("role", "grid");
    this.table.setAttribute("aria-label", this.label);
    const heads = Array.from({ length: this.columns }, (_, c) => element("th", { scope: "col", class: this.headClass?.(c) }, this.head(c)));
    this.table.append(element("thead", {}, element("tr", {}, element("th", { scope: "col", class: "corner" }, this.corner), ...heads)));
    const body = element("tbody");
    this.cells = [];
    this.keys = [];
    for (let r = 0; r < this.rows; r++) {
      const cells = Array.from({ length: this.columns }, (_, c) => element("td", { role: "gridcell", tabindex: -1, "data-at": `${r},${c}` }));
      this.cells.push(cells);
      this.keys.push([]);
      body.append(element("tr", { class: this.rowClass?.(r) }, element("th", { scope: "row" }, this.side(r)), ...cells));
    }
    this.table.append(body);
    this.at = [Math.min(this.at[0], this.rows - 1), Math.min(this.at[1], this.columns - 1)];
    this.from = this.at;
    this.td(...this.at).tabIndex = 0;
    this.refresh();
  }

  td(r, c) {
    return this.cells[r][c];
  }

  refresh() {
    for (let r = 0; r < this.rows; r++) for (let c = 0; c < this.columns; c++) this.draw(r, c);
  }

  draw(r, c) {
    if (this.editing && this.editing.r === r && this.editing.c === c) return;
    const cell = this.cell(r, c);
    const key = JSON.stringify(cell);
    if (this.keys[r][c] === key) return;
    this.keys[r][c] = key;
    const td = this.td(r, c);
    td.className = cell.class || "";
    td.replaceChildren(...cell.parts.map(([kind, text]) => element("span", { class: kind }, text)));
    td.setAttribute("aria-label", cell.label);
    td.setAttribute("aria-readonly", cell.editable ? "false" : "true");
  }

  // Outlines a cell that was refused, until something is done there.
  outline(r, c) {
    this.clearOutline();
    this.outlined = this.td(r, c);
    this.outlined.classList.add("wrong");
    this.outlined.scrollIntoView({ block: "nearest", inline: "nearest" });
  }

  clearOutline() {
    if (this.outlined) this.outlined.classList.remove("wrong");
    this.outlined = null;
  }

  cellOf(event) {
    const td = event.target.closest("td[data-at]");
    return td && this.table.contains(td) ? td.dataset.at.split(",").map(Number) : null;
  }

  press(event) {
    const at = this.cellOf(event);
    if (!at || event.target.tagName === "INPUT") return;
    event.preventDefault();
    this.go(at[0], at[1], event.shiftKey);
  }

  go(r, c, extend = false) {
    r = Math.max(0, Math.min(this.rows - 1, r));
    c = Math.max(0, Math.min(this.columns - 1, c));
    this.td(...this.at).tabIndex = -1;
    this.at = [r, c];
    if (!extend) this.from = this.at;
    const td = this.td(r, c);
    td.tabIndex = 0;
    td.focus({ preventScroll: true });
    td.scrollIntoView({ block: "nearest", inline: "nearest" });
    this.select();
  }

  // The block between the two corners.
  block() {
    const rows = [this.from[0], this.at[0]].sort((a, b) => a - b);
    const columns = [this.from[1], this.at[1]].sort((a, b) => a - b);
    return { top: rows[0], bottom: rows[1], left: columns[0], right: columns[1] };
  }

  select() {
    for (const td of this.table.querySelectorAll("td.selected")) td.classList.remove("selected");
    const { top, bottom, left, right } = this.block();
    if (top === bottom && left === right) return;
    for (let r = top; r <= bottom; r++) for (let c = left; c <= right; c++) this.td(r, c).classList.add("selected");
  }

  key(event) {
    if (event.target.tagName === "INPUT") return this.keyInEditor(event);
    const [r, c] = this.at;
    const far = event.ctrlKey || event.metaKey;
    const moves = {
      ArrowUp: [far ? 0 : r - 1, c], ArrowDown: [far ? this.rows - 1 : r + 1, c], ArrowLeft: [r, far ? 0 : c - 1], ArrowRight: [r, far ? this.columns - 1 : c + 1],
      Home: [far ? 0 : r, 0], End: [far ? this.rows - 1 : r, this.columns - 1], PageUp: [r - 10, c], PageDown: [r + 10, c],
    };
    if (moves[event.key]) {
      event.preventDefault();
      this.go(...moves[event.key], event.shiftKey);
    } else if (event.key === "Enter" || event.key === "F2") {
      event.preventDefault();
      this.begin();
    } else if (event.key.length === 1 && /[\d\u2212-]/.test(event.key) && !far && !event.altKey) {
      event.preventDefault();
      this.begin(event.key);
    }
  }

  begin(text = null) {
    const [r, c] = this.at;
    const cell = this.cell(r, c);
    if (!cell.editable) {
      this.say(`${cell.label}. This is not yours to change.`);
      return;
    }
    this.clearOutline();
    const td = this.td(r, c);
    const input = element("input", { inputmode: "numeric", "aria-label": cell.label, size: 6, autocomplete: "off", spellcheck: "false" });
    input.value = text ?? String(cell.value);
    this.editing = { r, c, td, input, old: String(cell.value) };
    td.classList.add("editing");
    td.append(input);
    input.focus();
    if (text === null) input.select();
    input.addEventListener("blur", () => this.editing?.input === input && this.finish(null));
  }

  keyInEditor(event) {
    const [r, c] = this.at;
    if (event.key === "Escape") {
      event.preventDefault();
      event.stopPropagation();
      this.close();
      this.go(r, c);
    } else if (event.key === "Enter" || event.key === "Tab") {
      event.preventDefault();
      const back = event.shiftKey ? -1 : 1;
      this.finish(event.key === "Enter" ? [r + back, c] : [r, c + back]);
    } else if (event.key === "ArrowUp" || event.key === "ArrowDown") {
      event.preventDefault();
      this.finish([r + (event.key === "ArrowDown" ? 1 : -1), c]);
    }
  }

  close() {
    const { r, c, td, input } = this.editing;
    this.editing = null;
    input.remove();
    td.classList.remove("editing");
    this.keys[r][c] = null;
    this.draw(r, c);
  }

  // Ends an edit. The next cell can be typed into at once; where the edit is refused, the editor comes back with what was typed.
  async finish(next) {
    const { r, c, input, old } = this.editing;
    const typed = input.value, value = parse(typed);
    if (value === null) this.wrong(`\u201c${typed}\u201d ${whyNot(typed)}.`);
    this.close();
    if (value !== null && next) this.go(...next);
    if (value === old) return;
    if (value === null) return this.again(r, c, typed, next);
    const td = this.td(r, c);
    td.replaceChildren(element("span", { class: "pending" }, typed));
    const taken = await this.commit([{ r, c, value }]);
    if (this.cells[r]?.[c] !== td) return; // another case, another grid
    this.keys[r][c] = null;
    this.draw(r, c);
    if (!taken) this.again(r, c, typed, next);
  }

  again(r, c, typed, next) {
    if (this.editing || !next) return this.outline(r, c);
    this.go(r, c);
    this.begin(typed);
    this.outline(r, c);
    this.editing.input.setAttribute("aria-invalid", "true");
    this.editing.input.select();
  }

  copy(event) {
    if (event.target.tagName === "INPUT") return;
    const { top, bottom, left, right } = this.block();
    const lines = [];
    for (let r = top; r <= bottom; r++) {
      lines.push(Array.from({ length: right - left + 1 }, (_, k) => String(this.cell(r, left + k).value ?? "")).join("\t"));
    }
    event.clipboardData.setData("text/plain", lines.join("\r\n"));
    event.preventDefault();
    this.say(`Copied ${bottom - top + 1} by ${right - left + 1}.`);
  }

  paste(event) {
    const text = event.clipboardData.getData("text/plain");
    if (event.target.tagName === "INPUT") {
      if (!/[\t\n]/.test(text.trim())) return;
      this.close();
    }
    event.preventDefault();
    this.takeBlock(text);
  }

  async takeBlock(text) {
    const { top, left } = this.block();
    const lines = text.replace(/\r\n?/g, "\n").replace(/\n+$/, "").split("\n").map((line) => line.split("\t"));
    const width = Math.max(...lines.map((line) => line.length));
    if (lines.some((line) => line.length !== width)) return this.wrong("The rows of the block are not equally long. Nothing was changed.");
    if (top + lines.length > this.rows || left + width > this.columns) {
      return this.wrong(`The block is ${lines.length} by ${width}; from here there is room for ${this.rows - top} by ${this.columns - left}. Nothing was changed.`);
    }
    const changes = [], commas = commasPart(lines.flat());
    for (let i = 0; i < lines.length; i++) {
      for (let j = 0; j < width; j++) {
        const value = parse(lines[i][j], commas);
        if (value === null) {
          this.outline(top + i, left + j);
          return this.wrong(`\u201c${lines[i][j].slice(0, 20)}\u201d in row ${i + 1}, column ${j + 1} of the block ${whyNot(lines[i][j])}. Nothing was changed.`);
        }
        if (value !== String(this.cell(top + i, left + j).value)) changes.push({ r: top + i, c: left + j, value });
      }
    }
    if (changes.length && (await this.commit(changes))) this.say(`Pasted ${lines.length} by ${width}.`);
    this.go(top, left);
    this.at = [top + lines.length - 1, left + width - 1];
    this.select();
    this.at = [top, left];
  }
}
