// Cuts a file of games into bodies that an explorer takes, and says what a line of its report means.

export const BODY_LIMIT = 1 << 20;

const HEADER = new TextEncoder().encode("[Event ");
const LINE_END = 10;

const PACKED = [
  ["Zstandard", [0x28, 0xb5, 0x2f, 0xfd]],
  ["gzip", [0x1f, 0x8b]],
  ["bzip2", [0x42, 0x5a, 0x68]],
  ["zip", [0x50, 0x4b, 3, 4]],
  ["7z", [0x37, 0x7a, 0xbc, 0xaf]],
];

const startsWith = (bytes, at, wanted) => wanted.every((byte, place) => bytes[at + place] === byte);

const isGameAt = (bytes, at) => startsWith(bytes, at, HEADER) && (at === 0 || bytes[at - 1] === LINE_END);

// The first place from `from` on at which a game begins, or -1.
export function firstGame(bytes, from) {
  for (let at = bytes.indexOf(HEADER[0], from); at !== -1; at = bytes.indexOf(HEADER[0], at + 1)) {
    if (isGameAt(bytes, at)) return at;
  }
  return -1;
}

// The last place above 0 at which a game begins, or -1.
export function lastGame(bytes) {
  for (let at = bytes.lastIndexOf(HEADER[0]); at > 0; at = bytes.lastIndexOf(HEADER[0], at - 1)) {
    if (isGameAt(bytes, at)) return at;
  }
  return -1;
}

export class NotGames extends Error {}

// The length of the byte order mark that a file may begin with.
const markLength = (bytes) => (startsWith(bytes, 0, [0xef, 0xbb, 0xbf]) ? 3 : 0);

function checkBeginning(bytes) {
  const packed = PACKED.find(([, mark]) => startsWith(bytes, 0, mark));
  if (packed) throw new NotGames(`The file is packed (${packed[0]}). Unpack it first: the explorer takes plain text.`);
  if (firstGame(bytes.subarray(markLength(bytes)), 0) === -1) {
    throw new NotGames("This is no file of games in PGN: no line begins with “[Event ”.");
  }
}

const read = async (file, from, to) => new Uint8Array(await file.slice(from, to).arrayBuffer());

// The place of the next game in the file from `from` on, or the file's end.
async function nextGame(file, from) {
  for (let at = from; at < file.size; at += BODY_LIMIT) {
    const bytes = await read(file, at, at + BODY_LIMIT + HEADER.length);
    const found = firstGame(bytes.subarray(1), 0);
    if (found > 0 || (found === 0 && bytes[0] === LINE_END)) return at + 1 + found;
  }
  return file.size;
}

// The parts of a file, cut between games: { start, bytes }, or { start, tooLong } for a text that
// is longer than a body may be.
export async function* bodies(file) {
  if (file.size === 0) throw new NotGames("The file is empty.");
  for (let start = 0; start < file.size;) {
    const bytes = await read(file, start, start + BODY_LIMIT);
    if (start === 0) checkBeginning(bytes);
    const isRest = start + bytes.length === file.size;
    const end = isRest ? bytes.length : lastGame(bytes);
    if (end === -1) {
      const next = await nextGame(file, start);
      yield { start, tooLong: next - start };
      start = next;
    } else {
      yield { start, bytes: bytes.subarray(0, end) };
      start += end;
    }
  }
}

// What is wrong where a field of a FEN is faulty.
const FIELDS = [
  "the pieces on the board", "the side to move, or the other one is in check", "the castling rights", "the en passant square",
  "the count of half-moves", "the number of the move, or the number of fields",
];

const CAUSES = {
  Preamble: () => "this stands before the first game",
  TooLong: ([length]) => `the text has ${length} bytes, more than 65,536`,
  Lex: () => "the text breaks the grammar of PGN here",
  Missing: ([name]) => `the tag ${name} is missing`,
  Bad: ([name]) => `the tag ${name} has a value that is not taken`,
  NotStandard: () => "the game is no standard chess",
  SetUp: () => "the tag SetUp does not say whether there is a tag FEN",
  BadSetUp: ([field]) => `the tag FEN sets up no position: ${FIELDS[field - 1]} (field ${field})`,
  UnknownResult: () => "the result is not known",
  NoTermination: () => "the moves end without a result",
  ResultDiffers: () => "the moves end with another result than the tags tell",
  TooManyPlies: () => "the game has more than 1,024 plies",
  NotSan: ([ply]) => `ply ${ply} is no move`,
  Illegal: ([ply]) => `ply ${ply} is no legal move`,
  Ambiguous: ([ply]) => `ply ${ply} may be more than one move`,
  Twice: ([first]) => `a game with this id stands earlier, at byte ${first}`,
  Repeated: ([number]) => `the game is stored already, as number ${number}`,
};

export function causeInWords(why) {
  const [word, ...numbers] = why.split(" ");
  return CAUSES[word] ? CAUSES[word](numbers) : why;
}

const TAG_OF = {
  ResultDiffers: "Result", UnknownResult: "Result", Twice: "Site", Repeated: "Site",
  NotStandard: "Variant", SetUp: "SetUp", BadSetUp: "FEN",
};
const AT_PLACE = { Lex: 0, NotSan: 1, Illegal: 1, Ambiguous: 1 };

// The part of a text that a refusal is about: [from, to] in the bytes of the text.
function faultyPart(bytes, text, why) {
  const [word, ...numbers] = why.split(" ");
  if (word in AT_PLACE) {
    const from = Number(numbers[AT_PLACE[word]]);
    const length = bytes.subarray(from).findIndex((byte) => byte <= 32);
    return [from, from + Math.max(1, length === -1 ? bytes.length - from : length)];
  }
  const name = word === "Bad" ? numbers[0] : TAG_OF[word];
  const found = name ? text.search(new RegExp(`^\\[${name}\\s`, "m")) : -1;
  const from = word === "NoTermination" ? text.trimEnd().length : Math.max(0, found);
  const end = text.indexOf("\n", from);
  return word === "NoTermination" ? [from, from] : [from, end === -1 ? text.length : end];
}

const AROUND = 36;

// What stands before, at and behind the fault of the text that begins at `start`, in its lines.
export function textAround(bytes, start, why) {
  const next = firstGame(bytes.subarray(start + 1), 0);
  const own = bytes.subarray(start, next === -1 ? bytes.length : start + 1 + next);
  // One character for each byte, so that places are those of the bytes.
  const [from, to] = faultyPart(own, new TextDecoder("latin1").decode(own), why);
  const words = (first, last) => new TextDecoder().decode(own.subarray(first, last)).replace(/\s+/g, " ");
  return {
    before: words(Math.max(0, from - AROUND), from),
    at: words(from, Math.min(to, from + 3 * AROUND)),
    after: words(to, to + AROUND),
  };
}

// The texts of some bytes, as [start, end].
function* textsOf(bytes) {
  const mark = markLength(bytes);
  let at = firstGame(bytes.subarray(mark), 0) + mark;
  while (at >= mark) {
    const next = firstGame(bytes.subarray(at + 1), 0);
    yield [at, next === -1 ? bytes.length : at + 1 + next];
    at = next === -1 ? -1 : at + 1 + next;
  }
}

const FEN_TAG = /\[\s*FEN\s*"([^"\n]*)"\s*\]/;

// The positions that the games of some bytes begin in, by their tags FEN. A refused text is no game, but where the game is stored.
export function setUps(bytes, refused) {
  const noGames = new Set(refused.filter(({ why }) => !why.startsWith("Repeated ")).map(({ place }) => place));
  return [...textsOf(bytes)].filter(([start]) => !noGames.has(start)).flatMap(([start, end]) => {
    const [tags] = new TextDecoder().decode(bytes.subarray(start, end)).split(/\n\s*\n/, 1);
    const tag = tags.match(FEN_TAG);
    return tag ? [tag[1]] : [];
  });
}

// A cause with the places of the stream moved by `by`.
export const movedCause = (why, by) => why.replace(/^Twice (\d+)$/, (_, first) => `Twice ${Number(first) + by}`);

export function countLines(bytes, to) {
  let lines = 0;
  for (let at = bytes.indexOf(LINE_END); at !== -1 && at < to; at = bytes.indexOf(LINE_END, at + 1)) lines += 1;
  return lines;
}
