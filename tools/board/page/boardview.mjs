// The board on the page: shows a position and tells of the legal moves that are made on it by
// clicks, by dragging, and by keys.

import { colorOf, fileOf, isInCheck, legalMoves, rankOf, squareName } from "./chess.mjs";
import { byId, element, pieceImage } from "./dom.mjs";

const NAMES = { p: "pawn", n: "knight", b: "bishop", r: "rook", q: "queen", k: "king" };
const ARROWS = { ArrowLeft: [-1, 0], ArrowRight: [1, 0], ArrowUp: [0, 1], ArrowDown: [0, -1] };
const DRAG_STARTS_AT = 5;

function pieceName(piece) {
  if (piece === "") return "empty";
  return `${colorOf(piece) === "w" ? "white" : "black"} ${NAMES[piece.toLowerCase()]}`;
}

export class BoardView {
  constructor(node, onMove) {
    this.node = node;
    this.onMove = onMove;
    this.isTurned = false;
    this.selected = null;
    this.cursor = 12;
    this.drag = null;
    this.wasDragged = false;
    this.isPressed = false;
    this.isByKeys = false;
    this.buttons = [...Array(64).keys()].map((square) => this.makeButton(square));
    node.addEventListener("keydown", (event) => this.keyPressed(event));
    window.addEventListener("pointerup", () => { this.isPressed = false; });
    this.place();
  }

  makeButton(square) {
    const shade = (fileOf(square) + rankOf(square)) % 2 === 0 ? "dark" : "light";
    return element("button", {
      type: "button",
      class: `square ${shade}`,
      "data-square": squareName(square),
      tabindex: "-1",
      onclick: () => this.clicked(square),
      onfocus: () => this.focused(square),
      onpointerdown: (event) => this.pressed(event, square),
    }, element("span", { class: "rank" }), element("span", { class: "file" }));
  }

  // Puts the squares in the order in which they are seen.
  place() {
    const rows = [7, 6, 5, 4, 3, 2, 1, 0].flatMap((rank) =>
      [...Array(8).keys()].map((file) => this.buttons[8 * rank + file]));
    if (this.isTurned) rows.reverse();
    rows.forEach((button, place) => {
      const [file, rank] = squareName(this.buttons.indexOf(button));
      button.querySelector(".file").textContent = place >= 56 ? file : "";
      button.querySelector(".rank").textContent = place % 8 === 0 ? rank : "";
    });
    this.node.replaceChildren(...rows);
  }

  turn() {
    this.isTurned = !this.isTurned;
    this.place();
  }

  show(position, lastMove) {
    this.position = position;
    this.moves = legalMoves(position);
    this.lastMove = lastMove;
    this.selected = null;
    this.hinted = null;
    position.squares.forEach((piece, square) => this.showSquare(square, piece));
    this.mark();
  }

  showSquare(square, piece) {
    const button = this.buttons[square];
    if (button.dataset.piece !== piece) {
      button.dataset.piece = piece;
      button.querySelector(".piece")?.remove();
      if (piece !== "") button.append(pieceImage(piece));
    }
    button.setAttribute("aria-label", `${squareName(square)}, ${pieceName(piece)}`);
  }

  // Points out a move, as that of the table's row under the pointer.
  hint(move) {
    this.hinted = move;
    this.mark();
  }

  mark() {
    const { squares, turn } = this.position;
    const targets = this.targetsOf(this.selected);
    const isIn = (move, square) => Boolean(move) && (move.from === square || move.to === square);
    const checked = isInCheck(squares, turn) ? squares.indexOf(turn === "w" ? "K" : "k") : null;
    this.buttons.forEach((button, square) => {
      button.classList.toggle("selected", square === this.selected);
      button.classList.toggle("target", targets.includes(square));
      button.classList.toggle("last", isIn(this.lastMove, square));
      button.classList.toggle("hinted", isIn(this.hinted, square));
      button.classList.toggle("checked", square === checked);
      button.tabIndex = square === this.cursor ? 0 : -1;
    });
  }

  targetsOf(from) {
    return this.moves.filter((move) => move.from === from).map((move) => move.to);
  }

  select(square) {
    this.selected = square;
    this.mark();
  }

  clicked(square) {
    if (this.wasDragged) return;
    if (this.targetsOf(this.selected).includes(square)) {
      this.make(this.selected, square);
    } else {
      const isOwn = colorOf(this.position.squares[square]) === this.position.turn;
      this.select(isOwn && square !== this.selected ? square : null);
    }
  }

  async make(from, to) {
    const moves = this.moves.filter((move) => move.from === from && move.to === to);
    const move = moves.length > 1 ? await this.askPromotion(moves) : moves[0];
    if (move) this.onMove(move);
    else this.select(null);
  }

  // The move that is picked out of the promotions, or undefined.
  askPromotion(moves) {
    const dialog = byId("promotion");
    const color = this.position.turn;
    dialog.returnValue = "";
    dialog.replaceChildren(...moves.map(({ promotion }) => {
      const piece = color === "w" ? promotion.toUpperCase() : promotion;
      const pick = () => dialog.close(promotion);
      return element("button", { type: "button", "aria-label": NAMES[promotion], onclick: pick }, pieceImage(piece));
    }));
    dialog.showModal();
    return new Promise((resolve) => {
      const closed = () => resolve(moves.find(({ promotion }) => promotion === dialog.returnValue));
      dialog.addEventListener("close", closed, { once: true });
    });
  }

  // The arrows go from square to square only where the board was come to by keys.
  focused(square) {
    this.isByKeys = !this.isPressed;
    this.cursor = square;
    this.buttons.forEach((button, at) => { button.tabIndex = at === square ? 0 : -1; });
  }

  keyPressed(event) {
    if (event.key === "Escape") this.select(null);
    const way = ARROWS[event.key];
    if (way === undefined || !this.isByKeys || event.altKey || event.ctrlKey || event.metaKey) return;
    event.preventDefault();
    event.stopPropagation();
    const sign = this.isTurned ? -1 : 1;
    const file = fileOf(this.cursor) + sign * way[0];
    const rank = rankOf(this.cursor) + sign * way[1];
    if (file >= 0 && file < 8 && rank >= 0 && rank < 8) this.buttons[8 * rank + file].focus();
  }

  pressed(event, square) {
    this.isPressed = true;
    this.isByKeys = false;
    this.wasDragged = false;
    const isOwn = colorOf(this.position.squares[square]) === this.position.turn;
    if (!isOwn || event.button !== 0 || this.drag !== null) return;
    const ending = new AbortController();
    this.drag = { square, x: event.clientX, y: event.clientY, ghost: null, ending };
    const listen = (name, act) => window.addEventListener(name, act, { signal: ending.signal });
    listen("pointermove", (moved) => this.dragged(moved));
    listen("pointerup", (up) => this.dropped(up));
    listen("pointercancel", () => this.endDrag());
  }

  dragged(event) {
    const { drag } = this;
    const way = Math.hypot(event.clientX - drag.x, event.clientY - drag.y);
    if (drag.ghost === null && way < DRAG_STARTS_AT) return;
    if (drag.ghost === null) this.startDrag(drag);
    drag.ghost.style.left = `${event.clientX}px`;
    drag.ghost.style.top = `${event.clientY}px`;
  }

  startDrag(drag) {
    const button = this.buttons[drag.square];
    this.wasDragged = true;
    this.select(drag.square);
    button.classList.add("lifted");
    drag.ghost = element("div", { class: "ghost" }, pieceImage(this.position.squares[drag.square]));
    drag.ghost.style.width = `${button.offsetWidth}px`;
    document.body.append(drag.ghost);
  }

  dropped(event) {
    const { square, ghost } = this.drag;
    this.endDrag();
    if (ghost === null) return;
    const under = document.elementFromPoint(event.clientX, event.clientY)?.closest(".square");
    const to = this.buttons.indexOf(under);
    if (this.targetsOf(square).includes(to)) this.make(square, to);
    else this.select(null);
  }

  endDrag() {
    const { square, ghost, ending } = this.drag;
    this.drag = null;
    ending.abort();
    ghost?.remove();
    this.buttons[square].classList.remove("lifted");
  }
}
