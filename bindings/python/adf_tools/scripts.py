"""The scripts of the pages of a catalogue: tables are sorted and filtered by one, the parts of the search asked by the other."""

from adf_tools.markup import Html

SCRIPT = Html("""
const order = new Intl.Collator("en", { numeric: true });
const body = document.querySelector("#images tbody");
const heads = [...body.parentElement.querySelectorAll("thead th")];
function sort(column) {
  const falls = heads[column].getAttribute("aria-sort") === "ascending";
  const keyed = [...body.rows].map(row => [row.cells[column].dataset.key ?? row.cells[column].textContent, row]);
  keyed.sort((one, other) => (falls ? -1 : 1) * order.compare(one[0], other[0]));
  for (const [, row] of keyed) body.append(row);
  heads.forEach(head => head.removeAttribute("aria-sort"));
  heads[column].setAttribute("aria-sort", falls ? "descending" : "ascending");
}
heads.forEach((head, column) => {
  const button = document.createElement("button");
  button.append(...head.childNodes);
  button.onclick = () => sort(column);
  head.append(button);
});
const filter = document.querySelector("#filter");
const shown = document.querySelector("#shown");
function hide() {
  const words = filter.value.toLowerCase().split(" ");
  const rows = [...body.rows];
  for (const row of rows) row.hidden = !words.every(word => row.textContent.toLowerCase().includes(word));
  shown.textContent = rows.filter(row => !row.hidden).length + " shown";
}
function hash() {
  const text = location.hash.slice(1);
  try { return decodeURIComponent(text); } catch { return text; }
}
filter.value = hash().startsWith("find=") ? "" : hash();
filter.oninput = () => { history.replaceState(null, "", "#" + encodeURIComponent(filter.value)); hide(); };
hide();
""")
SEARCHING = Html("""
const loaded = new Map();
const waiting = new Map();
function part([name, images, words]) { waiting.get(name)?.({ images, words: Object.entries(words) }); }
function load(name) {
  if (!loaded.has(name)) loaded.set(name, new Promise(resolve => {
    const script = document.createElement("script");
    waiting.set(name, resolve);
    script.onerror = () => resolve({ images: [], words: [] });
    script.src = "search/" + name + ".js";
    document.head.append(script);
  }));
  return loaded.get(name);
}
const text_words = text => text.replace(/\\\\x[0-9a-f]{2}/g, " ").normalize("NFD").replace(/\\p{M}/gu, "").toLowerCase().match(/[\\p{L}\\p{N}]+/gu) ?? [];
const letters = "abcdefghijklmnopqrstuvwxyz0123456789_";
const plain = text => text.replace(/[^a-z0-9]/g, "_");
function partsOf(word) {
  const front = plain([...word].slice(0, 3).join("")).slice(0, 3);
  return front.length === 2 ? [front + "_", ...[...letters.slice(0, -1)].map(letter => front + letter)] : [front.padEnd(3, "_")];
}
async function wordsIn(name, word) {
  let one = await load(name);
  const letters = [...word];
  while (one.words.length === 1 && one.words[0][0] === "" && letters.length > name.length) one = await load(name += plain(letters[name.length])[0]);
  return one;
}
const isSum = term => /^[0-9a-f]{64}$/.test(term);
const begins = (term, word) => term === "" || term === word || term.startsWith(word) && !isSum(term);
async function placesOf(word) {
  const places = new Map();
  const numbers = new Set();
  const named = new Set();
  let isWhole = word.length > 1;
  const parts = await Promise.all(partsOf(word).map(name => wordsIn(name, word)));
  for (const { images, words } of parts) for (const [term, [found, steps]] of words) if (begins(term, word)) {
    for (const [image, path, comment] of found) {
      const [name, page, number, label] = images[image];
      const own = text_words(path + " " + (comment ?? ""));
      places.set(JSON.stringify([number, path, comment]), { name, page, number, path, own, above: text_words(name + " " + label) });
      numbers.add(number);
      if (path === "") named.add(number);
    }
    let number = 0;
    for (const step of steps ?? []) numbers.add(number += step);
    isWhole &&= !steps;
  }
  return { word, places, numbers, named, isWhole };
}
const has = (texts, word) => texts.some(text => text.startsWith(word));
async function nameOf(number) {
  const { images } = await load("i-" + Math.floor(number / 2 ** 32));
  const [name, page] = images[number] ?? [];
  return name === undefined ? undefined : { name, page, number, path: "", isMore: true };
}
function item({ name, page, path, isMore }) {
  const line = document.createElement("li");
  const link = document.createElement(page ? "a" : "span");
  if (page) link.href = page;
  link.textContent = name;
  line.append(link, path ? ": " + path : isMore ? ": entries on its page" : "");
  return line;
}
async function find() {
  const words = text_words(document.querySelector("#wanted").value);
  const each = await Promise.all(words.map(placesOf));
  const every = new Map(each.flatMap(one => [...one.places]));
  const fits = (key, place) => each.every(one => one.places.has(key) || has(place.own, one.word) || has(place.above, one.word));
  const found = [...every].filter(([key, place]) => fits(key, place)).map(([, place]) => place);
  found.sort((one, other) => order.compare(one.name + "\t" + one.path, other.name + "\t" + other.path));
  const seen = new Set(found.map(place => place.number));
  const mayHave = number => each.every(one => one.isWhole ? one.named.has(number) : one.numbers.has(number));
  const more = each.every(one => one.isWhole) ? [] : [...each[0].numbers].filter(number => !seen.has(number) && mayHave(number));
  const named = (await Promise.all(more.slice(0, Math.max(0, 500 - found.length)).map(nameOf))).filter(place => place);
  named.sort((one, other) => order.compare(one.name, other.name));
  document.querySelector("#places").replaceChildren(...found.slice(0, 500).map(item), ...named.map(item));
  const count = found.length + " found" + (more.length ? ", and in " + more.length + " more images" : "");
  const isAll = found.length <= 500 && !more.length && each.some(one => one.isWhole);
  const rest = isAll ? "" : "; adf-catalogue find lists all";
  document.querySelector("#told").textContent = words.length ? count + rest : "";
}
document.querySelector("#search").onsubmit = event => {
  event.preventDefault();
  location.hash = "find=" + encodeURIComponent(document.querySelector("#wanted").value);
};
function goTo() {
  const wanted = hash().match(/^find=(.*)$/s);
  if (!wanted) return;
  document.querySelector("#wanted").value = wanted[1];
  find();
}
window.onhashchange = goTo;
goTo();
""")
