// Tests of how a file is cut into bodies. Run: node --test test_cutting.mjs
import assert from "node:assert/strict";
import { readFile, readdir } from "node:fs/promises";
import { test } from "node:test";
import { BODY_LIMIT, NotGames, bodies, causeInWords, countLines, movedCause, setUps, textAround } from "./page/cutting.mjs";

const game = (number, filling = 0) =>
  `[Event "Game ${number}"]\n[White "Ann"]\n\n1. e4 {${"x".repeat(filling)}} [Event is no line here 1-0\n\n`;

async function partsOf(text) {
  const parts = [];
  for await (const part of bodies(new Blob([text]))) {
    parts.push(part.bytes ? new TextDecoder("utf-8", { ignoreBOM: true }).decode(part.bytes) : part);
  }
  return parts;
}

test("a small file is one body", async () => {
  assert.deepEqual(await partsOf(game(1) + game(2)), [game(1) + game(2)]);
  assert.deepEqual(await partsOf(`\ufeff${game(1)}`), [`\ufeff${game(1)}`]);
});

test("a large file is cut between games, and nothing is lost", async () => {
  const text = [...Array(90).keys()].map((number) => game(number, 40000)).join("");
  const parts = await partsOf(text);
  assert.equal(parts.join(""), text);
  assert.ok(parts.length >= 4);
  assert.ok(parts.every((part) => part.length <= BODY_LIMIT && part.startsWith("[Event \"Game")));
});

test("a text that is longer than a body is left out and told", async () => {
  const long = game(2, BODY_LIMIT + 10);
  const parts = await partsOf(game(1) + long + game(3));
  assert.deepEqual(parts, [game(1), { start: game(1).length, tooLong: long.length }, game(3)]);
  assert.deepEqual(await partsOf(game(1) + long), [game(1), { start: game(1).length, tooLong: long.length }]);
});

test("every place of a cut at the edge of a reading is found", async () => {
  for (let edge = -9; edge <= 9; edge += 1) {
    const filling = 2 * BODY_LIMIT + edge - game(1, 0).length;
    const text = game(1, filling) + game(2);
    assert.deepEqual(await partsOf(text), [{ start: 0, tooLong: game(1, filling).length }, game(2)]);
  }
});

test("what is no PGN is refused in words", async () => {
  await assert.rejects(partsOf(""), /The file is empty/);
  await assert.rejects(partsOf("hello\n"), NotGames);
  await assert.rejects(partsOf("x [Event \"1\"]\n"), /no file of games/);
  await assert.rejects(partsOf(new Uint8Array([0x28, 0xb5, 0x2f, 0xfd, 0])), /packed \(Zstandard\)/);
});

test("a refusal is told in words, with the text around it", () => {
  const text = `${game(1)}[Event "é"]\n[WhiteElo "?"]\n\n1. e4 e5 2. Ke3 1-0\n\n${game(3)}`;
  const bytes = new TextEncoder().encode(text);
  const start = game(1).length;
  const place = new TextEncoder().encode("[Event \"é\"]\n[WhiteElo \"?\"]\n\n1. e4 e5 2. ").length;
  assert.equal(causeInWords(`Illegal 3 ${place}`), "ply 3 is no legal move");
  assert.deepEqual(textAround(bytes, start, `Illegal 3 ${place}`), {
    before: "t \"é\"] [WhiteElo \"?\"] 1. e4 e5 2. ", at: "Ke3", after: " 1-0 ",
  });
  assert.equal(textAround(bytes, start, "Bad WhiteElo").at, "[WhiteElo \"?\"]");
  assert.equal(textAround(bytes, start, "Missing Site").at, "[Event \"é\"]");
  assert.match(textAround(bytes, start, "NoTermination").before, /Ke3 1-0$/);
  assert.equal(countLines(bytes, start), 5);
  assert.equal(movedCause("Twice 7", 100), "Twice 107");
  assert.equal(movedCause("BadSetUp 3", 100), "BadSetUp 3");
  assert.equal(movedCause("Lex 7", 100), "Lex 7");
});

test("what is amiss with a position that is set up is told, with its tag", () => {
  const text = '[Event "x"]\n[SetUp "1"]\n[FEN "8/8/8/8/8/8/8/8 w - -"]\n\n1. e4 1-0\n';
  const bytes = new TextEncoder().encode(text);
  assert.equal(causeInWords("BadSetUp 1"), "the tag FEN sets up no position: the pieces on the board (field 1)");
  assert.equal(causeInWords("BadSetUp 6"), "the tag FEN sets up no position: the number of the move, or the number of fields (field 6)");
  assert.equal(textAround(bytes, 0, "BadSetUp 1").at, '[FEN "8/8/8/8/8/8/8/8 w - -"]');
  assert.equal(causeInWords("SetUp"), "the tag SetUp does not say whether there is a tag FEN");
  assert.equal(textAround(bytes, 0, "SetUp").at, '[SetUp "1"]');
});

const PAGES = new URL("../../docs/", import.meta.url);

test("each refusal of the explorer has words", async () => {
  const names = (await readdir(PAGES)).filter((name) => name.endsWith(".md"));
  const pages = await Promise.all(names.map((name) => readFile(new URL(name, PAGES), "utf8")));
  const rows = pages.join("\n\n").split("| Refusal | Words |")[1].split("\n\n")[0].split("\n").slice(2);
  const causes = rows.flatMap((row) => row.split(" | ").at(-1).match(/(?<=`)[A-Z]\w+/g));
  assert.ok(causes.length > 15);
  for (const cause of causes) assert.notEqual(causeInWords(`${cause} 1 1`), `${cause} 1 1`, cause);
});

test("the positions that games are set up from are found", () => {
  const setUp = (fen, movetext = "1. Kd2 1-0") => `[Event "x"]\n[SetUp "1"]\n[FEN "${fen}"]\n\n${movetext}\n\n`;
  const texts = [setUp("one"), game(1), setUp("two"), setUp("three"), `[Event "x"]\n\n1. e4 {\n\n[FEN "none"]\n} 1-0\n`, setUp("four")];
  const bytes = new TextEncoder().encode(`\ufeff${texts.join("")}`);
  const place = (number) => 3 + texts.slice(0, number).join("").length;
  assert.deepEqual(setUps(bytes, []), ["one", "two", "three", "four"]);
  const refused = [{ place: 3, why: "BadSetUp 1" }, { place: place(2), why: "Repeated 7" }, { place: place(3), why: "Twice 3" }];
  assert.deepEqual(setUps(bytes, refused), ["two", "four"]);
  assert.deepEqual(setUps(new TextEncoder().encode("x"), []), []);
});
