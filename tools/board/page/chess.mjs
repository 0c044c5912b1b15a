// The rules of chess that the board needs: positions, legal moves, and their notations.
//
// A position is { squares, turn, rights, enPassant }: 64 letters of FEN ("" for an empty square,
// a1 first, then b1), "w" or "b", a string out of "KQkq", and the index of a square or null.
// A move is { from, to, promotion }, with promotion "" or one of "nbrq"; castling is the move of
// the king. Whatever changes a position makes a new one.

export const START = "rnbqkbnr/pppppppp/8/8/8/8/PPPPPPPP/RNBQKBNR w KQkq - 0 1";

const STRAIGHT = [[0, 1], [1, 0], [0, -1], [-1, 0]];
const DIAGONAL = [[1, 1], [1, -1], [-1, -1], [-1, 1]];
const AROUND = [...STRAIGHT, ...DIAGONAL];
const KNIGHT = [[1, 2], [2, 1], [2, -1], [1, -2], [-1, -2], [-2, -1], [-2, 1], [-1, 2]];

const STEPS = { n: KNIGHT, k: AROUND };
const LINES = { b: DIAGONAL, r: STRAIGHT, q: AROUND };

const CASTLINGS = {
  K: { king: 4, rook: 7, free: [5, 6], safe: [4, 5, 6] },
  Q: { king: 4, rook: 0, free: [1, 2, 3], safe: [4, 3, 2] },
  k: { king: 60, rook: 63, free: [61, 62], safe: [60, 61, 62] },
  q: { king: 60, rook: 56, free: [57, 58, 59], safe: [60, 59, 58] },
};

export const fileOf = (square) => square % 8;
export const rankOf = (square) => Math.floor(square / 8);
export const squareName = (square) => "abcdefgh"[fileOf(square)] + (rankOf(square) + 1);
export const squareOf = (name) => "abcdefgh".indexOf(name[0]) + 8 * (Number(name[1]) - 1);
export const colorOf = (piece) => (piece === "" ? null : piece < "a" ? "w" : "b");
export const other = (color) => (color === "w" ? "b" : "w");

const roleOf = (piece) => piece.toLowerCase();
const pieceOf = (color, role) => (color === "w" ? role.toUpperCase() : role);

// The square that lies [files, ranks] away, or null off the board.
function step(square, [files, ranks]) {
  const file = fileOf(square) + files;
  const rank = rankOf(square) + ranks;
  return file < 0 || file > 7 || rank < 0 || rank > 7 ? null : 8 * rank + file;
}

// The squares from a square along a line, up to and with the first piece.
function* along(squares, square, direction) {
  for (let at = step(square, direction); at !== null; at = step(at, direction)) {
    yield at;
    if (squares[at] !== "") return;
  }
}

const pawnTakes = (color) => (color === "w" ? [[-1, 1], [1, 1]] : [[-1, -1], [1, -1]]);

export function isAttacked(squares, square, by) {
  const stands = (at, role) => at !== null && squares[at] === pieceOf(by, role);
  if (pawnTakes(other(by)).some((way) => stands(step(square, way), "p"))) return true;
  for (const [role, ways] of Object.entries(STEPS)) {
    if (ways.some((way) => stands(step(square, way), role))) return true;
  }
  return AROUND.some((way) => {
    const end = [...along(squares, square, way)].pop();
    const roles = way[0] === 0 || way[1] === 0 ? "rq" : "bq";
    return end !== undefined && [...roles].some((role) => stands(end, role));
  });
}

export function isInCheck(squares, color) {
  return isAttacked(squares, squares.indexOf(pieceOf(color, "k")), other(color));
}

function* pawnTargets({ squares, turn, enPassant }, from) {
  const ahead = turn === "w" ? 1 : -1;
  const one = step(from, [0, ahead]);
  if (squares[one] === "") {
    yield one;
    const two = step(one, [0, ahead]);
    if (rankOf(from) === (turn === "w" ? 1 : 6) && squares[two] === "") yield two;
  }
  for (const way of pawnTakes(turn)) {
    const to = step(from, way);
    if (to === null) continue;
    if (to === enPassant || colorOf(squares[to]) === other(turn)) yield to;
  }
}

function* targets(position, from) {
  const { squares, turn } = position;
  const role = roleOf(squares[from]);
  if (role === "p") {
    yield* pawnTargets(position, from);
    return;
  }
  const reached = role in STEPS
    ? STEPS[role].map((way) => step(from, way)).filter((to) => to !== null)
    : LINES[role].flatMap((way) => [...along(squares, from, way)]);
  yield* reached.filter((to) => colorOf(squares[to]) !== turn);
}

function* castlings({ squares, turn, rights }) {
  for (const right of rights) {
    if (colorOf(right) !== turn) continue;
    const { king, free, safe } = CASTLINGS[right];
    if (free.some((square) => squares[square] !== "")) continue;
    if (safe.some((square) => isAttacked(squares, square, other(turn)))) continue;
    yield { from: king, to: safe[2], promotion: "" };
  }
}

function* pseudoLegal(position) {
  const { squares, turn } = position;
  for (let from = 0; from < 64; from += 1) {
    if (colorOf(squares[from]) !== turn) continue;
    for (const to of targets(position, from)) {
      const promotes = roleOf(squares[from]) === "p" && (to < 8 || to > 55);
      for (const promotion of promotes ? ["q", "r", "b", "n"] : [""]) yield { from, to, promotion };
    }
  }
}

const isCastling = (piece, { from, to }) => roleOf(piece) === "k" && Math.abs(from - to) === 2;

// The squares after a move: what stood on `from` stands on `to`, and the rest of the move is done.
function squaresAfter({ squares, turn, enPassant }, { from, to, promotion }) {
  const piece = squares[from];
  const after = [...squares];
  after[from] = "";
  after[to] = promotion === "" ? piece : pieceOf(turn, promotion);
  if (roleOf(piece) === "p" && to === enPassant) after[to + (turn === "w" ? -8 : 8)] = "";
  if (isCastling(piece, { from, to })) {
    const rook = to > from ? to + 1 : to - 2;
    after[(from + to) / 2] = after[rook];
    after[rook] = "";
  }
  return after;
}

// The position after a legal move. The en passant square is kept whenever a pawn goes two squares.
export function play(position, move) {
  const { squares, turn, rights } = position;
  const isDouble = roleOf(squares[move.from]) === "p" && Math.abs(move.from - move.to) === 16;
  const touched = (square) => square === move.from || square === move.to;
  return {
    squares: squaresAfter(position, move),
    turn: other(turn),
    rights: [...rights]
      .filter((right) => !touched(CASTLINGS[right].king) && !touched(CASTLINGS[right].rook))
      .join(""),
    enPassant: isDouble ? (move.from + move.to) / 2 : null,
  };
}

export function legalMoves(position) {
  const isSafe = (move) => !isInCheck(squaresAfter(position, move), position.turn);
  return [...[...pseudoLegal(position)].filter(isSafe), ...castlings(position)];
}

export const uciOf = ({ from, to, promotion }) => squareName(from) + squareName(to) + promotion;

// The legal move that a text of UCI names, or null.
export function moveOfUci(position, text) {
  return legalMoves(position).find((move) => uciOf(move) === text) ?? null;
}

// The file, the rank or both, as far as they are needed to tell a move from those of its rivals.
function origin(position, { from, to }) {
  const piece = position.squares[from];
  const rivals = legalMoves(position)
    .filter((move) => move.to === to && move.from !== from && position.squares[move.from] === piece);
  if (rivals.length === 0) return "";
  const name = squareName(from);
  if (rivals.every((move) => fileOf(move.from) !== fileOf(from))) return name[0];
  return rivals.every((move) => rankOf(move.from) !== rankOf(from)) ? name[1] : name;
}

function plainSan(position, move) {
  const { from, to, promotion } = move;
  const piece = position.squares[from];
  const role = roleOf(piece);
  if (isCastling(piece, move)) return to > from ? "O-O" : "O-O-O";
  const takes = position.squares[to] !== "" || (role === "p" && fileOf(from) !== fileOf(to));
  const capture = takes ? "x" : "";
  if (role !== "p") return role.toUpperCase() + origin(position, move) + capture + squareName(to);
  const start = takes ? squareName(from)[0] : "";
  return start + capture + squareName(to) + (promotion && `=${promotion.toUpperCase()}`);
}

// A legal move in Standard Algebraic Notation.
export function sanOf(position, move) {
  const after = play(position, move);
  const plain = plainSan(position, move);
  if (!isInCheck(after.squares, after.turn)) return plain;
  return plain + (legalMoves(after).length === 0 ? "#" : "+");
}

class FenFault extends Error {}

function fault(words) {
  throw new FenFault(words);
}

function rankSquares(text, number) {
  const squares = [...text].flatMap((letter) => {
    if ("12345678".includes(letter)) return Array(Number(letter)).fill("");
    return "PNBRQKpnbrqk".includes(letter) ? [letter] : fault(`“${letter}” is no piece.`);
  });
  return squares.length === 8 ? squares : fault(`Rank ${number} has ${squares.length} squares, not 8.`);
}

function readSquares(text) {
  const ranks = text.split("/");
  if (ranks.length !== 8) fault(`The board has ${ranks.length} ranks, not 8.`);
  const squares = ranks.map((rank, place) => rankSquares(rank, 8 - place)).reverse().flat();
  for (const [color, name] of [["w", "White"], ["b", "Black"]]) {
    const own = squares.filter((piece) => colorOf(piece) === color);
    const kings = own.filter((piece) => roleOf(piece) === "k").length;
    if (kings !== 1) fault(`${name} has ${kings === 0 ? "no king" : `${kings} kings`}.`);
    if (own.length > 16) fault(`${name} has more than 16 pieces.`);
  }
  const isPawnAt = (square) => roleOf(squares[square]) === "p";
  if ([...Array(8).keys()].some((file) => isPawnAt(file) || isPawnAt(56 + file))) {
    fault("A pawn stands on the first or the last rank.");
  }
  return squares;
}

function readTurn(text, squares) {
  if (text !== "w" && text !== "b") fault("The side to move is neither “w” nor “b”.");
  if (isInCheck(squares, other(text))) fault("The side that is not to move is in check.");
  return text;
}

function readRights(text, squares) {
  const isEachOnce = new Set(text).size === text.length;
  if (text !== "-" && (!/^[KQkq]+$/.test(text) || !isEachOnce)) {
    fault("The castling rights are neither “-” nor some of “KQkq”.");
  }
  const isAtHome = (right) => {
    const { king, rook } = CASTLINGS[right];
    const color = colorOf(right);
    return squares[king] === pieceOf(color, "k") && squares[rook] === pieceOf(color, "r");
  };
  return [..."KQkq"].filter((right) => text.includes(right) && isAtHome(right)).join("");
}

// An en passant square that no pawn can just have crossed is dropped.
function readEnPassant(text, squares, turn) {
  if (text === "-") return null;
  const isOnRank = turn === "w" ? /^[a-h]6$/.test(text) : /^[a-h]3$/.test(text);
  if (!isOnRank) fault("The en passant square is neither “-” nor on the rank behind a pawn.");
  const square = squareOf(text);
  const back = turn === "w" ? 8 : -8;
  const isCrossed = squares[square] === "" && squares[square + back] === ""
    && squares[square - back] === pieceOf(other(turn), "p");
  return isCrossed ? square : null;
}

// { position } of a text of Forsyth-Edwards notation with four or six fields, or { fault } in words.
export function readFen(text) {
  const fields = text.split(" ").filter((field) => field !== "");
  try {
    const squares = readSquares(fields[0] ?? fault("The text is empty."));
    const turn = readTurn(fields[1] ?? fault("The side to move is missing."), squares);
    const rights = readRights(fields[2] ?? fault("The castling rights are missing."), squares);
    const enPassant = readEnPassant(fields[3] ?? fault("The en passant square is missing."), squares, turn);
    const counts = fields.slice(4);
    if (counts.length !== 0 && (counts.length !== 2 || !counts.every((count) => /^\d{1,6}$/.test(count)))) {
      fault("Behind the en passant square stand neither two numbers nor nothing.");
    }
    return { position: { squares, turn, rights, enPassant } };
  } catch (error) {
    if (error instanceof FenFault) return { fault: error.message };
    throw error;
  }
}

export function writeFen({ squares, turn, rights, enPassant }) {
  const ranks = [7, 6, 5, 4, 3, 2, 1, 0].map((rank) => squares
    .slice(8 * rank, 8 * rank + 8)
    .map((piece) => piece || "1")
    .join("")
    .replace(/1+/g, (run) => String(run.length)));
  const crossed = enPassant === null ? "-" : squareName(enPassant);
  return `${ranks.join("/")} ${turn} ${rights || "-"} ${crossed} 0 1`;
}
