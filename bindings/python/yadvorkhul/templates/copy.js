
// A name as one field of text: no sheet takes it for a formula, and it fills one cell.
function field(cell) {
  var text = cell.textContent;
  if (!cell.classList.contains("text")) return text;
  text = text.replace(/[\u0000-\u001f\u007f-\u009f\u2028\u2029]+/g, " ");
  if (/^\s*[=+\-@\uff1d\uff0b\uff0d\uff20']/.test(text)) text = "'" + text;
  return text.indexOf('"') < 0 ? text : '"' + text.replace(/"/g, '""') + '"';
}
document.getElementById("copy").addEventListener("click", function () {
  var rows = document.querySelectorAll("#list tr");
  var text = Array.prototype.map.call(rows, function (row) {
    return Array.prototype.map.call(row.cells, field).join("\t");
  }).join("\r\n") + "\r\n";
  var area = document.createElement("textarea");
  area.value = text;
  document.body.appendChild(area);
  area.select();
  var done = document.execCommand("copy");
  document.body.removeChild(area);
  this.focus();
  document.getElementById("copied").textContent = done ? "Copied " + (rows.length - 1) + " lanes." : "Select the list below and copy it.";
});
// What stands under the pointer: the split there, read off the list of every split.
(function () {
  var told = document.getElementById("pointed"), names = JSON.parse(told.dataset.names), made = Number(told.dataset.made);
  var rows = document.querySelectorAll("#splits tbody tr"), figure = told.closest("figure"), first = told.textContent, at = null;
  function group(text) { return String(text).replace("-", "\u2212").replace(/\B(?=(\d{3})+(?!\d))/g, ","); }
  function mark(svg, split) {
    var d = svg.dataset, low = Number(d.low), high = Number(d.high), left = Number(d.left), right = Number(d.right);
    var line = svg.querySelector(".pointed");
    if (!line) {
      line = document.createElementNS("http://www.w3.org/2000/svg", "line");
      line.setAttribute("class", "pointed");
      line.setAttribute("stroke", "#57606a");
      line.setAttribute("y1", "0");
      line.setAttribute("y2", svg.viewBox.baseVal.height);
      svg.appendChild(line);
    }
    var x = high === low ? left : left + (split - low) / (high - low) * (right - left);
    line.setAttribute("x1", x);
    line.setAttribute("x2", x);
  }
  function show(split) {
    var svgs = figure.querySelectorAll("svg"), low = Number(svgs[0].dataset.low);
    at = Math.max(low, Math.min(low + rows.length - 1, split));
    var cells = Array.prototype.map.call(rows[at - low].cells, function (cell) { return group(cell.textContent); });
    var more = cells[5] === "0" ? "" : " (+" + cells[5] + ")";
    told.textContent = "\u2068" + names[0] + "\u2069 " + cells[0] + ", \u2068" + names[1] + "\u2069 " + group(made - at) + ": production " + cells[2] + ", freight " + cells[3] + ", total " + cells[4] + more;
    Array.prototype.forEach.call(svgs, function (svg) { mark(svg, at); });
  }
  Array.prototype.forEach.call(figure.querySelectorAll("svg"), function (svg) {
    svg.addEventListener("pointermove", function (event) {
      var box = svg.getBoundingClientRect(), d = svg.dataset, left = Number(d.left), right = Number(d.right);
      var x = (event.clientX - box.left) / box.width * svg.viewBox.baseVal.width;
      var share = right === left ? 0 : (x - left) / (right - left);
      show(Math.round(Number(d.low) + share * (Number(d.high) - Number(d.low))));
    });
  });
  figure.addEventListener("keydown", function (event) {
    var step = { ArrowLeft: -1, ArrowRight: 1 }[event.key];
    if (!step) return;
    event.preventDefault();
    var given = Number(document.getElementById("split").textContent.replace(/[^0-9]/g, ""));
    show(at === null ? given : at + step);
  });
  figure.addEventListener("pointerleave", function () {
    at = null;
    told.textContent = first;
    Array.prototype.forEach.call(figure.querySelectorAll(".pointed"), function (line) { if (line !== told) line.remove(); });
  });
})();
