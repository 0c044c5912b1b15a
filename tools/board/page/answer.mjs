// Shows an answer of the explorer: moves, games, and the history.

import { counted, drawn, element, grouped } from "./dom.mjs";

const RESULTS = [["white", "White won"], ["draws", "drawn"], ["black", "Black won"]];
const COLORS = { white: "White", black: "Black" };
const MONTHS_SHOWN = 120;
const CHART = { height: 150, left: 44, right: 16, bottom: 20, top: 8 };

const totalOf = ({ white, draws, black }) => white + draws + black;

function percent(part, whole) {
  const rounded = Math.round((100 * part) / whole);
  if (rounded === 0 && part > 0) return "<1%";
  return rounded === 100 && part < whole ? ">99%" : `${rounded}%`;
}

const OF_ALL = {
  games: "game of the store",
  whose: "",
  results: RESULTS,
  resultsHead: "White, draws, Black",
  rating: "averageRating",
  ratingHead: "Rating",
};

// How an answer is told: that of all games by White and Black, that of a player's games from the player's side, the
// wins first and in the player's colour, with the ratings of the opponents.
export function viewOf({ player, color }) {
  if (!player) return OF_ALL;
  const whose = ` of ${player} with ${COLORS[color]}`;
  return {
    games: `game${whose}`,
    whose,
    results: [[color, "won"], ["draws", "drawn"], [color === "white" ? "black" : "white", "lost"]],
    resultsHead: "Won, drawn, lost",
    rating: "averageOpponentRating",
    ratingHead: "Opponents’ rating",
  };
}

export function totalsInWords(answer, { games, whose, results }) {
  const total = totalOf(answer);
  if (total === 0) return `No ${games} comes to this position with these filters.`;
  const parts = results.map(([name, words]) => `${percent(answer[name], total)} ${words}`);
  return `${counted(total, "game", "games")}${whose}: ${parts.join(", ")}`;
}

// The code and the name of an opening, as parts of a text; none where the position has no name.
export function openingInWords(opening) {
  if (!opening) return [];
  const { eco, name } = opening;
  return [element("span", { class: "code" }, eco), name && ` ${name}`];
}

// A bar of the results in their order, with the shares as its text.
function resultBar(totals, results) {
  const total = totalOf(totals);
  const shown = results.filter(([name]) => totals[name] > 0);
  const label = shown.map(([name, words]) => `${grouped(totals[name])} ${words}`).join(", ");
  const parts = shown.map(([name]) => {
    const share = totals[name] / total;
    const text = share >= 0.14 ? percent(totals[name], total) : "";
    return element("span", { class: name, style: `width: ${100 * share}%` }, text);
  });
  return element("div", { class: "bar", role: "img", title: label, "aria-label": label }, ...parts);
}

const openingLine = (opening) => (opening ? [element("div", { class: "opening" }, ...openingInWords(opening))] : []);

function moveRow(entry, whole, view, { onPlay, onPoint }) {
  const total = totalOf(entry);
  const point = (uci) => () => onPoint(uci);
  return element("tr", { "data-uci": entry.uci, onmouseenter: point(entry.uci), onmouseleave: point(null) },
    element("th", { scope: "row" }, element("button", {
      type: "button", class: "move", onclick: () => onPlay(entry.uci), onfocus: point(entry.uci), onblur: point(null),
    }, entry.san)),
    element("td", { class: "number" }, grouped(total)),
    element("td", { class: "number share" }, percent(total, whole)),
    element("td", { class: "results" }, resultBar(entry, view.results), ...openingLine(entry.opening)),
    element("td", { class: "number" }, String(entry[view.rating])));
}

// A table's head of columns, each a word and the class of its cells.
export function tableHead(columns) {
  const cells = columns.map(([word, kind]) => element("th", { scope: "col", class: kind ?? null }, word));
  return element("thead", {}, element("tr", {}, ...cells));
}

const moveColumns = ({ resultsHead, ratingHead }) => [
  ["Move"], ["Games", "number"], ["Share", "number share"], [resultsHead, "results"], [ratingHead, "number"],
];

export function movesTable(answer, view, actions) {
  if (answer.moves.length === 0) return element("p", { class: "none" }, "No move was played here.");
  const whole = totalOf(answer);
  const rows = answer.moves.map((entry) => moveRow(entry, whole, view, actions));
  return element("table", { class: "moves" }, tableHead(moveColumns(view)), element("tbody", {}, ...rows));
}

const RESULT_OF = { white: "1-0", black: "0-1" };

function gameItem(game, onPlay) {
  const player = ({ name, rating }) => `${name || "?"} (${rating})`;
  return element("li", {},
    element("button", { type: "button", class: "game", title: `Play ${game.uci}`, onclick: () => onPlay(game.uci) },
      element("span", { class: "players" }, `${player(game.white)} – ${player(game.black)}`),
      element("span", { class: `result ${game.winner ?? "draws"}` }, RESULT_OF[game.winner] ?? "½-½"),
      element("span", { class: "about" }, `${game.month} · ${game.speed} · ${game.mode} · ${game.id}`)));
}

export function gamesList(games, onPlay) {
  if (games.length === 0) return element("p", { class: "none" }, "None.");
  return element("ol", { class: "game-list" }, ...games.map((game) => gameItem(game, onPlay)));
}

const monthNumber = (month) => 12 * Number(month.slice(0, 4)) + Number(month.slice(5)) - 1;
const padded = (number, digits) => String(number).padStart(digits, "0");
const monthName = (number) => `${padded(Math.floor(number / 12), 4)}-${padded((number % 12) + 1, 2)}`;

function added(one, two) {
  return { white: one.white + two.white, draws: one.draws + two.draws, black: one.black + two.black };
}

// The history by month or, where that would be too many bars, by year: every unit from the first
// to the last, with { name, white, draws, black }.
export function unitsOf(history) {
  if (history.length === 0) return { unit: "month", units: [] };
  const months = history.map(({ month }) => monthNumber(month));
  const isByYear = months.at(-1) - months[0] >= MONTHS_SHOWN;
  const numberOf = (month) => (isByYear ? Math.floor(month / 12) : month);
  const first = numberOf(months[0]);
  const units = Array.from({ length: numberOf(months.at(-1)) - first + 1 }, (_, place) => ({
    name: isByYear ? String(first + place) : monthName(first + place), white: 0, draws: 0, black: 0,
  }));
  history.forEach((entry, place) => {
    const at = numberOf(months[place]) - first;
    units[at] = { ...units[at], ...added(units[at], entry) };
  });
  return { unit: isByYear ? "year" : "month", units };
}

function unitBars(unit, place, step, heightOf) {
  const x = CHART.left + place * step;
  const label = `${unit.name}: ${RESULTS.map(([name, words]) => `${grouped(unit[name])} ${words}`).join(", ")}`;
  let bottom = CHART.height - CHART.bottom;
  const bars = ["black", "draws", "white"].filter((name) => unit[name] > 0).map((name) => {
    const height = heightOf(unit[name]);
    bottom -= height;
    return drawn("rect", { class: name, x: x + step * 0.08, y: bottom, width: step * 0.84, height });
  });
  return drawn("g", { "data-unit": unit.name }, drawn("title", {}, label), ...bars);
}

function axis(units, width, step, most) {
  const base = CHART.height - CHART.bottom;
  const label = (x, y, anchor, words) => drawn("text", { x, y, "text-anchor": anchor }, words);
  const every = Math.ceil(70 / step);
  const names = units.flatMap((unit, place) =>
    (place % every === 0 ? [label(CHART.left + (place + 0.5) * step, CHART.height - 5, "middle", unit.name)] : []));
  return [
    drawn("line", { x1: CHART.left, x2: width - CHART.right, y1: base, y2: base }),
    label(CHART.left - 6, CHART.top + 9, "end", grouped(most)),
    label(CHART.left - 6, base, "end", "0"),
    ...names,
  ];
}

// A chart of the units, drawn for a width.
export function historyChart({ unit, units }, width) {
  if (units.length === 0) return element("p", { class: "none" }, "None.");
  const most = Math.max(...units.map(totalOf));
  const step = Math.min(60, (width - CHART.left - CHART.right) / units.length);
  const heightOf = (games) => (games / most) * (CHART.height - CHART.bottom - CHART.top);
  const bars = units.map((entry, place) => unitBars(entry, place, step, heightOf));
  const label = `Games by ${unit} from ${units[0].name} to ${units.at(-1).name}, at most ${most}`;
  const frame = { class: "chart", viewBox: `0 0 ${width} ${CHART.height}`, role: "img", "aria-label": label };
  return drawn("svg", frame, ...axis(units, width, step, most), ...bars);
}
