// Cards: the picture of one, the same as bin/cards --svg draws, and the hopper and the punch.

const HOLES = Object.fromEntries(tableOf("characters").map(line => [line[0], line.slice(1).trim().split(" ")[0].split("-")]));
const ROWS = ["12", "11", "0", "1", "2", "3", "4", "5", "6", "7", "8", "9"];

// A number with one digit behind the point. A half is rounded to the even digit, as awk's printf does.
function tenth(value) {
  const tenths = Math.floor(value * 10);
  return Number.isInteger(value * 4) && (value * 20) % 2 === 1 ? ((tenths + tenths % 2) / 10).toFixed(1) : value.toFixed(1);
}

function cardPicture(text) {
  const across = column => 25.1 + 8.7 * (column - 1), plain = c => ({ "&": "&amp;", "<": "&lt;", ">": "&gt;" })[c] || (c < "!" || c > "~" ? "?" : c);
  text = text.padEnd(80).slice(0, 80);
  let picture = "<g transform=\"translate(6 6)\">\n<path class=\"card\" d=\"M25 0H730Q738 0 738 8V317Q738 325 730 325H8Q0 325 0 317V43Z\"/>\n";
  for (let column = 1; column <= 80; column++) {
    const c = text[column - 1], x = across(column), holes = HOLES[c] || [];
    if (c !== " ") picture += `<text x="${tenth(x)}" y="13" class="line">${plain(c)}</text>\n`;
    ROWS.forEach((row, i) => {
      const y = 25 * (i + 1);
      if (holes.includes(row)) picture += `<rect x="${tenth(x - 2.75)}" y="${tenth(y - 6.25)}"/>\n`;
      else if (i > 1) picture += `<text x="${tenth(x)}" y="${y + 3}">${row}</text>\n`;
    });
  }
  for (let column = 1; column <= 80; column += column === 1 ? 4 : 5) picture += `<text x="${tenth(across(column))}" y="319" class="number">${column}</text>\n`;
  return "<svg xmlns=\"http://www.w3.org/2000/svg\" viewBox=\"0 0 750 337\" role=\"img\">\n<title>A punched card</title>\n<style>\n.card { fill: #f3e3bd; stroke: #8a7a55 }\n" +
    "text { font: 6px monospace; text-anchor: middle; fill: #a8956b }\n.line { font-size: 8px; fill: #202020 }\n.number { font-size: 5px }\nrect { width: 5.5px; height: 12.5px; fill: #202020 }\n</style>\n" +
    picture + "</g>\n</svg>\n";
}

// In the page the picture is an image, so that its style stays within it.
function cardImage(text, label) {
  const image = el("img");
  image.src = "data:image/svg+xml," + encodeURIComponent(cardPicture(text));
  image.alt = label + ": " + (text.trim() || "a blank card");
  return image;
}
function showCard(id, text, label) {
  const box = $(id), shown = text === null ? "" : "card " + text;
  if (box.dataset.shown === shown) return;
  box.dataset.shown = shown;
  box.textContent = "";
  if (text !== null) box.append(cardImage(text, label));
}

function linesOf(text) {
  const lines = text.split("\n");
  if (lines[lines.length - 1] === "") lines.pop();
  return lines.map(line => line.endsWith("\r") ? line.slice(0, -1) : line);
}

function drawCards(s, panel) {
  const all = [...view.about.deck.map(text => [text, ""]), ...linesOf(view.about.data).map(text => [text, "   (data)"])];
  const jams = Array.isArray(panel.cardsLeft), left = jams ? panel.cardsLeft[1] : panel.cardsLeft, read = left === null || left === undefined ? null : all.length - left;
  $("hopper-title").textContent = read === null ? "Hopper: how many cards are left is not known here" : `Hopper: ${left} of ${all.length} cards left` + (jams ? ", the next one jams" : "");
  showCard("hopper", read !== null && all[read] ? all[read][0] : null, "the next card to be read");
  const list = $("hopper-list"), from = Math.max(0, (read === null ? 0 : read) - 3), to = Math.min(all.length, from + 12);
  list.textContent = "";
  if (from) list.append(el("span", `.. ${from} cards read before\n`, "read"));
  for (let i = from; i < to; i++) list.append(el("span", all[i][0].trimEnd().slice(0, 80) + all[i][1] + "\n", read !== null && i < read ? "read" : i === read ? "next" : ""));
  if (to < all.length) list.append(`.. and ${all.length - to} more\n`);
  if (!all.length) list.append("no cards");
}

function drawPunched(s) {
  $("punch-title").textContent = `Punched: ${s.punchedCount} card${s.punchedCount === 1 ? "" : "s"}`;
  showCard("punched", s.punched.length ? s.punched[s.punched.length - 1] : null, "the last punched card");
  const list = $("punched-list");
  list.hidden = s.punched.length < 2;
  list.textContent = s.punched.map(card => card.trimEnd()).join("\n");
}
