// Tests of the board's rules of chess, by known counts of legal moves. Run: node test_chess.mjs
import assert from "node:assert/strict";
import { test } from "node:test";
import * as chess from "./page/chess.mjs";

// Positions and counts from https://www.chessprogramming.org/Perft_Results
const PERFT = [
  ["start", chess.START, [20, 400, 8902, 197281]],
  ["pins and castling", "r3k2r/p1ppqpb1/bn2pnp1/3PN3/1p2P3/2N2Q1p/PPPBBPPP/R3K2R w KQkq - 0 1", [48, 2039, 97862]],
  ["en passant and pins", "8/2p5/3p4/KP5r/1R3p1k/8/4P1P1/8 w - - 0 1", [14, 191, 2812, 43238]],
  ["promotions", "r3k2r/Pppp1ppp/1b3nbN/nP6/BBP1P3/q4N2/Pp1P2PP/R2Q1RK1 w kq - 0 1", [6, 264, 9467]],
  ["promotion on a capture", "rnbq1k1r/pp1Pbppp/2p5/8/2B5/8/PPP1NnPP/RNBQK2R w KQ - 1 8", [44, 1486, 62379]],
  ["middle game", "r4rk1/1pp1qppp/p1np1n2/2b1p1B1/2B1P1b1/P1NP1N2/1PP1QPPP/R4RK1 w - - 0 10", [46, 2079, 89890]],
];

const positionOf = (fen) => chess.readFen(fen).position;

function perft(position, depth) {
  const moves = chess.legalMoves(position);
  if (depth === 1) return moves.length;
  return moves.reduce((sum, move) => sum + perft(chess.play(position, move), depth - 1), 0);
}

for (const [name, fen, counts] of PERFT) {
  test(`legal moves are counted: ${name}`, () => {
    counts.forEach((count, place) => assert.equal(perft(positionOf(fen), place + 1), count));
  });
}

function line(text) {
  let position = positionOf(chess.START);
  return text.split(" ").map((uci) => {
    const move = chess.moveOfUci(position, uci);
    const san = chess.sanOf(position, move);
    position = chess.play(position, move);
    return san;
  });
}

test("moves are written in algebraic notation", () => {
  const scholar = line("e2e4 e7e5 d1h5 b8c6 f1c4 g8f6 h5f7");
  assert.deepEqual(scholar, ["e4", "e5", "Qh5", "Nc6", "Bc4", "Nf6", "Qxf7#"]);
  const pinned = line("d2d4 g8f6 c2c4 e7e6 b1c3 f8b4 e2e3 b7b6 g1e2");
  assert.equal(pinned.at(-1), "Ne2");
});

const WRITTEN = [
  ["4k3/8/8/8/8/8/8/R3K2R w KQ - 0 1", "e1g1", "O-O"],
  ["4k3/8/8/8/8/8/8/R3K2R w KQ - 0 1", "e1c1", "O-O-O"],
  ["4k3/P7/8/8/8/8/8/4K3 w - - 0 1", "a7a8q", "a8=Q+"],
  ["4k3/8/8/3pP3/8/8/8/4K3 w - d6 0 1", "e5d6", "exd6"],
  ["4k3/8/8/8/8/8/8/N3K1N1 w - - 0 1", "g1e2", "Ne2"],
  ["4k3/8/8/8/8/2N3N1/8/4K3 w - - 0 1", "g3e4", "Nge4"],
  ["4k3/8/8/N7/8/N7/8/4K3 w - - 0 1", "a3c4", "N3c4"],
  ["1k6/8/8/8/4Q2Q/8/8/K6Q w - - 0 1", "h4e1", "Qh4e1"],
];

test("origins are named as far as they are needed", () => {
  for (const [fen, uci, san] of WRITTEN) {
    const position = positionOf(fen);
    assert.equal(chess.sanOf(position, chess.moveOfUci(position, uci)), san);
  }
});

test("an attacked square forbids castling, an attacked rook's path does not", () => {
  assert.equal(chess.moveOfUci(positionOf("3rk3/8/8/8/8/8/8/R3K3 w Q - 0 1"), "e1c1"), null);
  assert.notEqual(chess.moveOfUci(positionOf("1r2k3/8/8/8/8/8/8/R3K3 w Q - 0 1"), "e1c1"), null);
});

test("FEN is read and written", () => {
  for (const [, fen] of PERFT) {
    assert.equal(chess.writeFen(positionOf(fen)), fen.replace(/\d+ \d+$/, "0 1"));
  }
  const tidied = positionOf("  4k3/8/8/8/8/8/8/4K2R   w  KQ e6 ");
  assert.equal(chess.writeFen(tidied), "4k3/8/8/8/8/8/8/4K2R w K - 0 1");
});

const REFUSED = [
  ["", "The text is empty."],
  ["8/8/8/8/8/8/8/8 w - -", "White has no king."],
  ["4k3/8/8/8/8/8/8 w - -", "The board has 7 ranks, not 8."],
  ["4k3/8/8/8/9/8/8/4K3 w - -", "“9” is no piece."],
  ["4k3/8/8/8/7/8/8/4K3 w - -", "Rank 4 has 7 squares, not 8."],
  ["4k3/8/8/8/8/8/8/P3K3 w - -", "A pawn stands on the first or the last rank."],
  ["4k3/8/8/8/8/8/8/4K3 x - -", "The side to move is neither “w” nor “b”."],
  ["4k3/8/8/8/8/8/8/4KR2 w KK -", "The castling rights are neither “-” nor some of “KQkq”."],
  ["4k3/8/8/8/8/8/8/4K3 w - e3", "The en passant square is neither “-” nor on the rank behind a pawn."],
  ["4k3/8/8/8/8/8/8/4RK2 w - -", "The side that is not to move is in check."],
  ["4k3/8/8/8/8/8/8/4K3 w - - 0", "Behind the en passant square stand neither two numbers nor nothing."],
];

test("a faulty FEN is told in words", () => {
  for (const [fen, words] of REFUSED) assert.equal(chess.readFen(fen).fault, words);
});
