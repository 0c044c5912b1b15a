// Asks the explorer through the page's own server, and says in words what goes wrong.

import { counted, grouped } from "./dom.mjs";

const PLAYER = "/player";

const PARAMETERS = {
  player: "A player's games are found by the player's name, which is missing.",
  color: "A player's games are those of one colour: pick white or black.",
  modes: "The explorer does not take these modes.",
  variant: "The explorer knows standard chess alone.",
  fen: "The explorer does not take this position in FEN.",
  play: "The explorer does not take the moves that lead here.",
  speeds: "The explorer does not take these speeds.",
  ratings: "The explorer does not take these ratings.",
  since: "The first month has to have the form YYYY-MM.",
  until: "The last month has to have the form YYYY-MM.",
};

const stored = (body) => `${counted(body.stored, "game of this part was", "games of this part were")} stored.`;

// By status and, where one status has several causes, the word of the body.
const CAUSES = {
  "0 no board": () => "The server of this page does not answer any more. Where it is tools/board/board, start it again.",
  "0 other answer": () => "What answers is no explorer.",
  "400 malformed parameter": ({ parameter }) =>
    PARAMETERS[parameter] ?? `The explorer does not take the parameter ${parameter}.`,
  "400 bad request": () => "The explorer did not understand the request.",
  "403 foreign page": () => "The board takes requests of its own page alone.",
  "404 not found": () => "What answers is no explorer: it does not know this path.",
  "405 method not allowed": () => "What answers does not take this kind of request.",
  "413 body too large": () => "The part of the file is larger than the explorer takes at once.",
  "431 head too large": () => "The line of moves, or the name, is longer than the explorer takes in a request.",
  "500 disk fault": (body) =>
    `The explorer's disk failed, and it stores nothing more until it is started again. ${stored(body)}`,
  "500 closed": () => "The explorer stores nothing more since its disk failed. It has to be started again.",
  "502 no explorer": ({ address }) =>
    `No explorer answers at ${address}. Is it running? ./explorer serve STORE ${address}`,
  "502 no reply": ({ address }) => `What listens at ${address} broke off, or does not answer as an explorer does.`,
  "503 out of memory": () => "The explorer had no memory for this. It goes on running; try again.",
  "503 no reading": () => "The explorer could not read its games just now. Try again.",
  "504 no answer": ({ address }) =>
    `The explorer at ${address} did not answer in time. Each of its readers serves one connection at a time:`
    + " are all of them held?",
  "507 full": (body) =>
    `The store is full: it holds ${counted(body.games, "game", "games")} and ${grouped(body.bytes)} bytes of text.`
    + ` ${stored(body)}`,
};

// By status, where the body is none of the explorer's: a web server in front of it has answered.
const IN_FRONT = {
  403: "The web server in front of the explorer takes no games from here.",
  413: "The part of the file is larger than the web server takes at once.",
  414: "The line of moves, or the name, is longer than the web server takes in a request.",
  429: "The web server takes no more requests from here just now. Try again.",
  502: "The web server reaches no explorer. Is it running?",
  503: "The web server takes no more requests just now. Try again.",
  504: "The explorer did not answer the web server in time.",
};

const NO_PLAYERS = "What answers knows no games of a player: the explorer, or the web server in front of it, is of an earlier form.";

function faultInWords(status, body, target) {
  if (status === 404 && target.startsWith(PLAYER)) return NO_PLAYERS;
  const words = CAUSES[`${status} ${body.error}`];
  if (words) return words(body);
  return (body.error === undefined && IN_FRONT[status]) || `The explorer answered with status ${status}.`;
}

export class ExplorerFault extends Error {
  constructor(status, body, target = "") {
    super(faultInWords(status, body, target));
    this.status = status;
    this.parameter = body.parameter;
  }
}

// Asks, and takes a reply of status 200 alone, with a member that tells an explorer's.
async function request(target, options, member) {
  let reply;
  try {
    reply = await fetch(target, options);
  } catch (error) {
    if (error.name === "AbortError") throw error;
    throw new ExplorerFault(0, { error: "no board" });
  }
  const told = await reply.json().catch(() => null);
  const body = told !== null && typeof told === "object" ? told : {};
  if (!reply.ok) throw new ExplorerFault(reply.status, body, target);
  if (!(member in body)) throw new ExplorerFault(0, { error: "other answer" });
  return { body, batches: Number(reply.headers.get("X-Explorer-Batches")) };
}

// Asks for a player's games where there is a player, else for all games.
export function ask(parameters, signal) {
  const path = parameters.player ? PLAYER : "/lichess";
  return request(`${path}?${new URLSearchParams(parameters)}`, { signal, cache: "no-store" }, "moves");
}

export const send = (bytes, signal) => request("/import", { method: "POST", body: bytes, signal }, "stored");
