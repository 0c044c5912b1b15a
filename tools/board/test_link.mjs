// Tests of the page's links. Run: node --test test_link.mjs
import assert from "node:assert/strict";
import { test } from "node:test";
import { START } from "./page/chess.mjs";
import { askedBy, gameOf, hashOf } from "./page/link.mjs";

const NOTHING = { fen: "", play: "", player: "", color: "", modes: "", speeds: "", ratings: "", since: "", until: "" };

test("what a link is made of is what it asks for", () => {
  for (const asked of [
    NOTHING,
    { ...NOTHING, play: "e2e4,e7e5" },
    { ...NOTHING, fen: "r3k2r/8/8/8/8/8/8/R3K2R w KQkq - 0 1", play: "e1g1", speeds: "blitz,rapid", ratings: "2200", since: "2020-01" },
  ]) {
    assert.deepEqual(askedBy(hashOf(asked)), asked);
  }
  assert.equal(hashOf({ ...NOTHING, play: "e2e4,e7e5", moves: "999", until: "2020-12" }), "#play=e2e4,e7e5&until=2020-12");
  assert.equal(hashOf({ ...NOTHING, fen: "8/8/8/8 w - -" }), "#fen=8/8/8/8+w+-+-");
  assert.deepEqual(askedBy(""), NOTHING);
  assert.deepEqual(askedBy("#fen=4k3%2F8%20w&other=1"), { ...NOTHING, fen: "4k3/8 w" });
});

test("a link is followed as far as its moves are legal", () => {
  const { moves, fault, fen } = gameOf(askedBy("#play=e2e4,e7e5,g1f3"));
  assert.deepEqual(moves.map(({ san }) => san), ["e4", "e5", "Nf3"]);
  assert.deepEqual([fault, fen], [undefined, START]);
  const stopped = gameOf(askedBy("#play=e2e4,e7e5,e4e5"));
  assert.equal(stopped.fault, "The link goes on with “e4e5”, which is no legal move here.");
  assert.equal(stopped.moves.length, 2);
  const castled = gameOf({ fen: "r3k2r/8/8/8/8/8/8/R3K2R w KQkq -", play: "e1g1,e8c8" });
  assert.deepEqual(castled.moves.map(({ san }) => san), ["O-O", "O-O-O"]);
});

test("a link without a position leads to the start", () => {
  const { fen, moves, fault } = gameOf(askedBy("#fen=4k3/8/8/8/7/8/8/4K3+w+-+-&play=e2e4"));
  assert.deepEqual([fen, moves], [START, []]);
  assert.equal(fault, "The link has no position. Rank 4 has 7 squares, not 8.");
});
