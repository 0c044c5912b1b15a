// Small helpers over the document.

export const byId = (id) => document.getElementById(id);

const SVG = "http://www.w3.org/2000/svg";

function fill(node, attributes, children) {
  for (const [name, value] of Object.entries(attributes)) {
    if (name.startsWith("on")) node.addEventListener(name.slice(2), value);
    else if (value !== null && value !== false) node.setAttribute(name, value === true ? "" : value);
  }
  node.append(...children);
  return node;
}

// An element with attributes, listeners ("onclick" and so on) and children. Texts are never markup.
export const element = (tag, attributes = {}, ...children) =>
  fill(document.createElement(tag), attributes, children);

export const drawn = (tag, attributes = {}, ...children) =>
  fill(document.createElementNS(SVG, tag), attributes, children);

export function pieceImage(piece) {
  const color = piece < "a" ? "white" : "black";
  const shape = drawn("use", { href: `pieces.svg#${piece.toLowerCase()}` });
  return drawn("svg", { class: `piece ${color}`, viewBox: "0 0 45 45", "aria-hidden": "true" }, shape);
}

export function showText(node, text) {
  node.textContent = text ?? "";
  node.hidden = text === null;
}

export const grouped = (number) => number.toLocaleString("en-US");

export const counted = (number, one, many) => `${grouped(number)} ${number === 1 ? one : many}`;
