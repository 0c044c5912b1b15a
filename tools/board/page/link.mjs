// The link to what the page shows: the position that the game begins in, the moves from there, the player and the filters. All of it
// stands behind the "#" of the page's address, so that no server has to know of it.

import * as chess from "./chess.mjs";

const NAMES = ["fen", "play", "player", "color", "modes", "speeds", "ratings", "since", "until"];

// What stands behind the page's address, with the "#". What has its default is left out.
export function hashOf(asked) {
  const told = NAMES.filter((name) => asked[name]).map((name) => [name, asked[name]]);
  return `#${new URLSearchParams(told)}`.replaceAll("%2C", ",").replaceAll("%2F", "/");
}

// What a link asks for, by name; what it leaves out is the empty text.
export function askedBy(hash) {
  const told = new URLSearchParams(hash.replace(/^#/, ""));
  return Object.fromEntries(NAMES.map((name) => [name, told.get(name) ?? ""]));
}

export function made(position, move) {
  return { move, uci: chess.uciOf(move), san: chess.sanOf(position, move), position: chess.play(position, move) };
}

// The game of a link: { fen, root, moves }, with `fault` where the position is none or a move is not legal. It goes up to that move.
export function gameOf({ fen, play }) {
  const { position, fault } = chess.readFen(fen || chess.START);
  if (fault) {
    return { fen: chess.START, root: chess.readFen(chess.START).position, moves: [], fault: `The link has no position. ${fault}` };
  }
  const game = { fen: fen || chess.START, root: position, moves: [] };
  for (const uci of play === "" ? [] : play.split(",")) {
    const here = game.moves.at(-1)?.position ?? position;
    const move = chess.moveOfUci(here, uci);
    if (move === null) return { ...game, fault: `The link goes on with “${uci}”, which is no legal move here.` };
    game.moves.push(made(here, move));
  }
  return game;
}
