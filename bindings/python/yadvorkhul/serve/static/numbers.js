// Numbers for people. A number beyond 2^53 comes and goes as text.

const MINUS = "\u2212";

export function group(number) {
  const text = String(number);
  const minus = text.startsWith("-");
  return (minus ? MINUS : "") + text.replace("-", "").replace(/\B(?=(\d{3})+(?!\d))/g, ",");
}

// A difference, with its sign.
export function signed(number) {
  return number === 0 ? "\u00b10" : number > 0 ? "+" + group(number) : group(number);
}

// What is more, in percent of a total.
export function percent(more, total) {
  if (!total) return "";
  const share = (100 * more) / Math.abs(total);
  const text = Math.abs(share) < 0.005 && more ? "under 0.01" : Math.abs(share).toFixed(2);
  return `${text}\u00a0%`;
}

const bareOf = (text) => text.trim().replace(/^[\u2212\u2013]/, "-");

// Whether one of the texts shows that a comma parts thousands: with two commas it is no decimal.
export function commasPart(texts) {
  return texts.some((text) => /^-?\d{1,3}(,\d{3}){2,}$/.test(bareOf(text)));
}

// Why a text is no number.
export function whyNot(text) {
  const bare = bareOf(text);
  if (!/^-?\d{1,3},\d{3}$/.test(bare)) return "is no whole number";
  return `may be ${bare.replace(",", "")} or a decimal; leave the comma out`;
}

// The digits of what a person typed or pasted, or null where it is no whole number. Groups of three may be parted by a blank or an
// apostrophe; by a comma where it, or another text of the same block, shows that commas part thousands.
export function parse(text, commas = commasPart([text])) {
  const bare = bareOf(text);
  const parted = commas ? /^-?\d{1,3}([,'\u2019\u00a0\u202f ])\d{3}(\1\d{3})*$/ : /^-?\d{1,3}(['\u2019\u00a0\u202f ])\d{3}(\1\d{3})*$/;
  const digits = parted.test(bare) ? bare.replace(/[^\d-]/g, "") : bare;
  if (!/^-?\d{1,20}$/.test(digits)) return null;
  return digits.replace(/^(-?)0+(?=\d)/, "$1").replace(/^-0$/, "0");
}

export function counted(number, thing, things) {
  return `${group(number)} ${number === 1 ? thing : things || thing + "s"}`;
}

// The least freight at every split, from the first stop to the last: straight between two stops.
export function freights(stops) {
  const found = [stops[0][1]];
  for (let k = 1; k < stops.length; k++) {
    const [[p, a], [q, b]] = [stops[k - 1], stops[k]];
    for (let y = p + 1; y <= q; y++) found.push(a + ((b - a) / (q - p)) * (y - p));
  }
  return found;
}
