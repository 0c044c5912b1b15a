// The page: where the game stands, what is asked, and what is shown.

import * as chess from "./chess.mjs";
import { gamesList, historyChart, movesTable, openingInWords, totalsInWords, unitsOf, viewOf } from "./answer.mjs";
import { BoardView } from "./boardview.mjs";
import { byId, counted, element, showText } from "./dom.mjs";
import { ExplorerFault, ask } from "./explorer.mjs";
import { importFile } from "./importing.mjs";
import { askedBy, gameOf, hashOf, made } from "./link.mjs";

const SPEEDS = ["ultraBullet", "bullet", "blitz", "rapid", "classical", "correspondence"];
const MODES = ["rated", "casual"];
const COLORS = ["white", "black"];
const RATINGS = ["0", "1000", "1200", "1400", "1600", "1800", "2000", "2200", "2500"];

// The root as a text and a position, the moves from it as { move, uci, san, position }, and how
// many of them are played on the board.
const game = { fen: chess.START, root: chess.readFen(chess.START).position, moves: [], played: 0 };
let asking = new AbortController();

const here = () => (game.played === 0 ? game.root : game.moves[game.played - 1].position);
const playedMoves = () => game.moves.slice(0, game.played);

function chips(node, values, attributes) {
  node.replaceChildren(...values.map((value) => {
    const box = element("input", { type: "checkbox", value, ...attributes });
    return element("label", {}, box, element("span", {}, value));
  }));
}

const ticked = (id) => [...byId(id).querySelectorAll("input:checked")].map((box) => box.value).join(",");

function tick(id, values) {
  for (const box of byId(id).querySelectorAll("input")) box.checked = values.includes(box.value);
}

const playerName = () => byId("player").value.trim();

// What is asked: without a player's name for all games, and then neither the colour nor the modes count.
function parameters() {
  const asked = {
    fen: game.fen === chess.START ? "" : game.fen,
    play: playedMoves().map(({ uci }) => uci).join(","),
    speeds: ticked("speeds"),
    since: byId("since").value,
    until: byId("until").value,
    moves: "999",
  };
  const player = playerName();
  if (player !== "") return { ...asked, player, color: ticked("color"), modes: ticked("modes") };
  return { ...asked, ratings: ticked("ratings"), history: "true" };
}

// What the explorer answers for all games alone.
function showRest(body) {
  byId("top-games").replaceChildren(gamesList(body.topGames, playUci));
  const history = unitsOf(body.history);
  byId("history-unit").textContent = history.unit;
  byId("history").replaceChildren(historyChart(history, Math.max(280, byId("history").clientWidth)));
}

function showAnswer({ body, batches }, asked) {
  const view = viewOf(asked);
  showText(byId("error"), null);
  byId("answer").classList.remove("faulty");
  byId("batches").textContent = counted(batches, "batch of games", "batches of games");
  byId("opening").replaceChildren(...openingInWords(body.opening));
  byId("totals").textContent = totalsInWords(body, view);
  const actions = { onPlay: playUci, onPoint: (uci) => board.hint(uci && chess.moveOfUci(here(), uci)) };
  const isByKeys = byId("moves").querySelector(":focus-visible") !== null;
  byId("moves").replaceChildren(movesTable(body, view, actions));
  if (isByKeys) byId("moves").querySelector("button")?.focus();
  byId("recent-games").replaceChildren(gamesList(body.recentGames, playUci));
  if (!asked.player) showRest(body);
}

function showFault(error) {
  showText(byId("error"), error.message);
  byId("answer").classList.add("faulty");
  for (const id of ["batches", "opening", "totals", "moves", "history", "top-games", "recent-games"]) byId(id).replaceChildren();
}

// Asks for the position on the board; an answer that comes after a later question is dropped.
async function refresh() {
  asking.abort();
  asking = new AbortController();
  const { signal } = asking;
  const asked = parameters();
  byId("link").hash = hashOf(asked);
  byId("linked").textContent = "";
  byId("answer").setAttribute("aria-busy", "true");
  byId("answer").classList.toggle("of-player", Boolean(asked.player));
  byId("everybody").disabled = !asked.player;
  try {
    const answer = await ask(asked, signal);
    if (!signal.aborted) showAnswer(answer, asked);
  } catch (error) {
    if (signal.aborted) return;
    if (!(error instanceof ExplorerFault)) throw error;
    showFault(error);
  }
  if (!signal.aborted) byId("answer").setAttribute("aria-busy", "false");
}

function moveNumber(place) {
  const ply = place + (game.root.turn === "w" ? 0 : 1);
  if (ply % 2 === 0) return `${ply / 2 + 1}. `;
  return place === 0 ? "1… " : "";
}

function showLine() {
  byId("line").replaceChildren(...game.moves.map(({ san }, place) => {
    const isHere = place === game.played - 1;
    const button = element("button", {
      type: "button", class: "move", "aria-current": isHere && "step", onclick: () => goTo(place + 1),
    }, san);
    return element("li", {}, moveNumber(place), button);
  }));
}

function show() {
  board.show(here(), game.moves[game.played - 1]?.move);
  byId("fen").value = chess.writeFen(here());
  showLine();
  byId("first").disabled = byId("back").disabled = game.played === 0;
  byId("forward").disabled = byId("last").disabled = game.played === game.moves.length;
  return refresh();
}

function goTo(played) {
  game.played = Math.max(0, Math.min(game.moves.length, played));
  show();
}

// Plays a legal move. The moves that were taken back are kept where it is the first of them.
function play(move) {
  if (game.moves[game.played]?.uci !== chess.uciOf(move)) game.moves = [...playedMoves(), made(here(), move)];
  goTo(game.played + 1);
}

function playUci(uci) {
  const move = chess.moveOfUci(here(), uci);
  if (move) play(move);
}

const board = new BoardView(byId("board"), play);

function setRoot(fen, position) {
  Object.assign(game, { fen, root: position, moves: [], played: 0 });
  show();
}

// Asks the explorer for a position before the board takes it; what is wrong with a refused one is
// told by the page's own reading.
async function setFen(text) {
  const { position, fault } = chess.readFen(text);
  try {
    await ask({ fen: text, moves: "0", topGames: "0", recentGames: "0" });
    if (position) setRoot(text, position);
    else showText(byId("error"), fault);
  } catch (error) {
    if (!(error instanceof ExplorerFault)) throw error;
    showText(byId("error"), `${error.message} ${fault ?? ""}`.trim());
  }
}

// Shows what the address links to. What is amiss with it is told above the answer.
async function followLink() {
  const asked = askedBy(location.hash);
  const { fault, ...linked } = gameOf(asked);
  Object.assign(game, linked, { played: linked.moves.length });
  for (const name of ["speeds", "ratings", "modes"]) tick(name, asked[name].split(","));
  tick("color", [asked.color || (asked.player ? "" : "white")]);
  for (const name of ["player", "since", "until"]) byId(name).value = asked[name];
  await show();
  if (fault && byId("error").hidden) showText(byId("error"), fault);
}

// The click also puts the link into the address, as that of any page.
async function copyLink() {
  const text = byId("link").href;
  let isCopied = true;
  try {
    await navigator.clipboard.writeText(text);
  } catch {
    // A browser gives the clipboard to pages of this machine and of HTTPS alone.
    isCopied = false;
  }
  byId("linked").textContent = isCopied ? "Copied." : "It stands in the address.";
}

const KEYS = {
  ArrowLeft: () => goTo(game.played - 1),
  ArrowRight: () => goTo(game.played + 1),
  Home: () => goTo(0),
  End: () => goTo(game.moves.length),
  f: () => board.turn(),
};

function keyPressed(event) {
  const isTyping = event.target.matches("input:not([type=checkbox])") || byId("promotion").open;
  const act = KEYS[event.key];
  if (isTyping || act === undefined || event.altKey || event.ctrlKey || event.metaKey) return;
  event.preventDefault();
  act();
}

let importing = null;

async function startImport(event) {
  event.preventDefault();
  const [file] = byId("file").files;
  if (importing !== null) return;
  if (file === undefined) {
    showText(byId("import-error"), "Choose a file first.");
    return;
  }
  importing = new AbortController();
  byId("send").disabled = true;
  byId("stop").hidden = false;
  try {
    if (await importFile(file, importing.signal, setFen)) refresh();
  } finally {
    importing = null;
    byId("send").disabled = false;
    byId("stop").hidden = true;
  }
}

function clearFilters() {
  byId("filters").reset();
  refresh();
}

function refreshPlayer() {
  if (playerName() !== "") refresh();
}

// A name that has changed is asked for by then; one that has not is asked for again.
function showPlayer(event) {
  event.preventDefault();
  if (byId("answer").getAttribute("aria-busy") !== "true") refresh();
}

function clearPlayer() {
  byId("player-form").reset();
  refresh();
}

function listen() {
  byId("first").addEventListener("click", KEYS.Home);
  byId("back").addEventListener("click", KEYS.ArrowLeft);
  byId("forward").addEventListener("click", KEYS.ArrowRight);
  byId("last").addEventListener("click", KEYS.End);
  byId("link").addEventListener("click", copyLink);
  window.addEventListener("hashchange", () => {
    if (location.hash !== byId("link").hash) followLink();
  });
  byId("flip").addEventListener("click", KEYS.f);
  byId("start").addEventListener("click", () => setRoot(chess.START, chess.readFen(chess.START).position));
  byId("clear").addEventListener("click", clearFilters);
  byId("player").addEventListener("change", refresh);
  byId("player-form").addEventListener("submit", showPlayer);
  byId("everybody").addEventListener("click", clearPlayer);
  byId("since").addEventListener("change", refresh);
  byId("until").addEventListener("change", refresh);
  byId("import-form").addEventListener("submit", startImport);
  byId("stop").addEventListener("click", () => importing?.abort());
  document.addEventListener("keydown", keyPressed);
  byId("filters").addEventListener("submit", (event) => event.preventDefault());
  byId("fen-form").addEventListener("submit", (event) => {
    event.preventDefault();
    setFen(byId("fen").value);
  });
}

chips(byId("speeds"), SPEEDS, { onchange: refresh });
chips(byId("ratings"), RATINGS, { onchange: refresh });
chips(byId("modes"), MODES, { onchange: refreshPlayer });
chips(byId("color"), COLORS, { type: "radio", name: "color", onchange: refreshPlayer });
byId("color").querySelector("input").defaultChecked = true;
listen();
followLink();
