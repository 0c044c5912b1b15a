// Tests of what the page asks and tells of a player's games. Run: node --test test_player.mjs
import assert from "node:assert/strict";
import { afterEach, test } from "node:test";
import { totalsInWords, viewOf } from "./page/answer.mjs";
import { ask } from "./page/explorer.mjs";
import { askedBy, hashOf } from "./page/link.mjs";

const ANSWER = { white: 5, draws: 2, black: 3, moves: [] };
const fetched = globalThis.fetch;
afterEach(() => { globalThis.fetch = fetched; });

// What `ask` asks for, and its answer or the words of its fault, where the server replies so.
async function asked(parameters, status, text) {
  let target;
  globalThis.fetch = async (place) => {
    target = place;
    return new Response(text, { status, headers: { "X-Explorer-Batches": "3" } });
  };
  return ask(parameters).then((answer) => [target, answer], (error) => [target, error.message]);
}

test("a player's games are asked for where a player is named", async () => {
  const body = JSON.stringify(ANSWER);
  for (const [parameters, target] of [
    [{ fen: "", play: "e2e4" }, "/lichess?fen=&play=e2e4"],
    [{ play: "e2e4", player: "", color: "white" }, "/lichess?play=e2e4&player=&color=white"],
    [{ play: "", player: "Zoé & Co", color: "black", modes: "rated" }, "/player?play=&player=Zo%C3%A9+%26+Co&color=black&modes=rated"],
  ]) {
    assert.deepEqual(await asked(parameters, 200, body), [target, { body: ANSWER, batches: 3 }]);
  }
});

test("what is refused of a player's games is told in words", async () => {
  const malformed = (parameter) => JSON.stringify({ error: "malformed parameter", parameter });
  for (const [status, text, words] of [
    [400, malformed("player"), /by the player's name, which is missing/],
    [400, malformed("color"), /pick white or black/],
    [400, malformed("modes"), /does not take these modes/],
    [400, malformed("fen"), /does not take this position/],
    [404, '{"error":"not found"}', /knows no games of a player/],
    [404, "<html>", /knows no games of a player/],
    [431, '{"error":"head too large"}', /or the name, is longer than the explorer takes/],
    [503, '{"error":"out of memory"}', /had no memory/],
    [502, "<html>", /reaches no explorer/],
  ]) {
    assert.match((await asked({ player: "Ann", color: "white" }, status, text))[1], words);
  }
  assert.match((await asked({ play: "" }, 404, '{"error":"not found"}'))[1], /What answers is no explorer/);
});

test("results are told from the player's side", () => {
  for (const [whose, words, colors] of [
    [{}, "10 games: 50% White won, 20% drawn, 30% Black won", ["white", "draws", "black"]],
    [{ player: "Ann", color: "white" }, "10 games of Ann with White: 50% won, 20% drawn, 30% lost", ["white", "draws", "black"]],
    [{ player: "Ann", color: "black" }, "10 games of Ann with Black: 30% won, 20% drawn, 50% lost", ["black", "draws", "white"]],
  ]) {
    const view = viewOf(whose);
    assert.equal(totalsInWords(ANSWER, view), words);
    assert.deepEqual(view.results.map(([name]) => name), colors);
    assert.equal(view.rating, whose.player ? "averageOpponentRating" : "averageRating");
  }
  const none = { white: 0, draws: 0, black: 0 };
  assert.equal(totalsInWords(none, viewOf({})), "No game of the store comes to this position with these filters.");
  assert.equal(totalsInWords(none, viewOf({ player: "Bo", color: "black" })),
    "No game of Bo with Black comes to this position with these filters.");
});

test("a link names the player", () => {
  const player = { player: "Müller, K. & #1/2 (50%)", color: "black", modes: "rated,casual" };
  const hash = hashOf({ fen: "", play: "e2e4", ...player, moves: "999" });
  assert.equal(hash, "#play=e2e4&player=M%C3%BCller,+K.+%26+%231/2+%2850%25%29&color=black&modes=rated,casual");
  assert.deepEqual(askedBy(hash), { fen: "", play: "e2e4", ...player, speeds: "", ratings: "", since: "", until: "" });
});
