// The words of the exhibit, in each language that a file words-XX.json has. What is engraved on the machine stays as it is.

const WORDS = JSON.parse(document.getElementById("words").textContent);
let language = WORDS.first;

const filled = (text, parts) => text.replace(/\{(\w+)\}/g, (all, name) => name in parts ? parts[name] : all);
const word = (name, parts = {}) => filled(WORDS.all[language][name] || WORDS.all.en[name], parts);
const entry = (kind, name) => (WORDS.all[language][kind] || {})[name] || WORDS.all.en[kind][name];

// Each part of the page that has a word of its own.
function drawWords() {
  document.documentElement.lang = language;
  for (const part of document.querySelectorAll("[data-word]")) part.textContent = word(part.dataset.word);
  for (const part of document.querySelectorAll("[data-word-label]")) { part.setAttribute("aria-label", word(part.dataset.wordLabel)); part.title = word(part.dataset.wordLabel); }
}
