// The import of a file: sends it part by part, and shows how far it is and what was refused.

import { tableHead } from "./answer.mjs";
import { readFen, writeFen } from "./chess.mjs";
import { NotGames, bodies, causeInWords, countLines, movedCause, setUps, textAround } from "./cutting.mjs";
import { byId, counted, element, grouped, showText } from "./dom.mjs";
import { ExplorerFault, send } from "./explorer.mjs";

const ROWS_SHOWN = 500;
const SET_UPS_SHOWN = 20;

class Report {
  constructor() {
    this.stored = 0;
    this.refused = 0;
    this.lines = 1;
    this.setUps = new Map();
    this.rows = element("tbody");
    const head = tableHead([["Byte", "number"], ["Line", "number"], ["Cause"], ["Text around it"]]);
    this.table = element("table", { class: "refusals" }, head, this.rows);
  }

  addRow(place, line, why, { before, at, after }) {
    this.refused += 1;
    if (this.refused > ROWS_SHOWN) return;
    this.rows.append(element("tr", {},
      element("td", { class: "number" }, grouped(place)),
      element("td", { class: "number" }, grouped(line)),
      element("td", { title: why }, causeInWords(why)),
      element("td", { class: "text" }, before, element("mark", {}, at), after)));
  }

  add({ start, bytes }, { stored, refused }) {
    this.stored += stored;
    for (const { place, why } of refused) {
      const line = this.lines + countLines(bytes, place);
      this.addRow(start + place, line, movedCause(why, start), textAround(bytes, place, why));
    }
    this.lines += countLines(bytes, bytes.length);
    for (const fen of setUps(bytes, refused)) this.countSetUp(readFen(fen).position);
  }

  countSetUp(position) {
    if (!position) return;
    const fen = writeFen(position);
    this.setUps.set(fen, 1 + (this.setUps.get(fen) ?? 0));
  }

  // The positions that games of the file begin in; a click puts one on the board.
  showSetUps(node, onPlace) {
    node.replaceChildren();
    if (this.setUps.size === 0) return;
    const most = [...this.setUps].sort(([, one], [, other]) => other - one);
    const items = most.slice(0, SET_UPS_SHOWN).map(([fen, games]) => element("li", {},
      element("button", { type: "button", title: "Put it on the board", onclick: () => onPlace(fen) }, fen),
      ` ${counted(games, "game", "games")}`));
    const rest = most.length - items.length;
    node.append(element("h3", {}, "Games of the file begin in these positions"), element("ul", { class: "set-ups" }, ...items));
    if (rest > 0) node.append(element("p", {}, `There are ${grouped(rest)} more.`));
  }

  show(node) {
    node.replaceChildren();
    if (this.refused === 0) return;
    const rest = this.refused - ROWS_SHOWN;
    node.append(element("h3", {}, counted(this.refused, "text was refused", "texts were refused")), this.table);
    if (rest > 0) node.append(element("p", {}, `The first ${ROWS_SHOWN} are shown; there are ${grouped(rest)} more.`));
  }
}

function showProgress(file, sent, report, state) {
  byId("progress").hidden = false;
  byId("sent").value = file.size === 0 ? 1 : sent / file.size;
  const games = `${counted(report.stored, "game", "games")} stored, ${grouped(report.refused)} refused`;
  byId("imported").textContent = `${state}: ${games}; ${grouped(sent)} of ${grouped(file.size)} bytes sent.`;
}

// Sends the parts of the file one after another, and answers how many bytes went.
async function sendAll(file, report, signal) {
  let sent = 0;
  for await (const part of bodies(file)) {
    if (part.tooLong) {
      report.addRow(part.start, report.lines, `TooLong ${part.tooLong}`, { before: "", at: "", after: "(not sent)" });
      sent = part.start + part.tooLong;
    } else {
      const { body } = await send(part.bytes, signal);
      report.add(part, body);
      sent = part.start + part.bytes.length;
    }
    showProgress(file, sent, report, "Importing");
  }
  return sent;
}

function faultInWords(error) {
  if (error.name === "AbortError") return "Stopped. What was sent before is stored.";
  if (error instanceof NotGames || error instanceof ExplorerFault) return error.message;
  if (error.name === "NotReadableError" || error.name === "NotFoundError") return "The file cannot be read any more.";
  throw error;
}

// Imports a file and answers whether any game was stored. `onPlace` takes a position that games of it begin in.
export async function importFile(file, signal, onPlace) {
  const report = new Report();
  showText(byId("import-error"), null);
  byId("report").replaceChildren();
  byId("set-ups").replaceChildren();
  showProgress(file, 0, report, "Importing");
  try {
    const sent = await sendAll(file, report, signal);
    showProgress(file, sent, report, "Done");
  } catch (error) {
    showText(byId("import-error"), faultInWords(error));
    byId("progress").hidden = error instanceof NotGames;
    byId("imported").textContent = `Not all was imported: ${counted(report.stored, "game", "games")} stored before.`;
  }
  report.show(byId("report"));
  report.showSetUps(byId("set-ups"), onPlace);
  return report.stored > 0;
}
