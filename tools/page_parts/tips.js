// Tips: what became of the operation that is under the pointer or has the focus, and what the rule there says.

const tip = h("div", { class: "tip", role: "tooltip", id: "tip", hidden: true });
let hovered;

const hoveredOn = run => hovered?.side === run.side ? hovered.id : undefined;
const chosenOn = run => chosen.side === run.side ? chosen.operation : undefined;

/** The run to which an element belongs. */
const sideOf = element => Number(element.closest("[data-side]")?.dataset.side ?? chosen.side);

function tipOf(element) {
  const { rule, op: id } = element.dataset;
  if (rule) {
    const { words, form } = data.texts[rule];
    return [h("h4", {}, rule), h("p", {}, prose(words)),
      h("div", { class: "form" }, form.map(text => h("p", {}, prose(text))))];
  }
  const run = runs[sideOf(element)], each = run.operations.get(id);
  return [h("h4", {}, id), h("p", {}, h("code", {}, each.command)),
    shownFates(run, each, run.made(positionOn(run)), 8)];
}

function showTip(element) {
  tip.replaceChildren(...tipOf(element));
  tip.hidden = false;
  const box = element.getBoundingClientRect(), { width, height } = tip.getBoundingClientRect();
  const isBelow = box.bottom + 6 + height < innerHeight;
  tip.style.left = `${Math.max(8, Math.min(innerWidth - width - 8, box.left))}px`;
  tip.style.top = `${isBelow ? box.bottom + 6 : Math.max(8, box.top - height - 6)}px`;
  element.setAttribute("aria-describedby", "tip");
}

function hideTip() {
  tip.hidden = true;
  for (const each of document.querySelectorAll("[aria-describedby=tip]")) each.removeAttribute("aria-describedby");
}

/** Makes the ways of an operation strong. Rows stay as they are drawn, since the pointer may be on one. */
function light(under) {
  if (hovered?.id === under?.id && hovered?.side === under?.side) return;
  hovered = under;
  requestAnimationFrame(() => drawLanes(false));
}

const tipped = ({ target }) => target.closest?.("[data-op], [data-rule]");

function enter(event) {
  const element = tipped(event);
  if (!element) return;
  showTip(element);
  light(element.dataset.op && { id: element.dataset.op, side: sideOf(element) });
}

function leave(event) {
  if (!tipped(event)) return;
  hideTip();
  light(undefined);
}

document.addEventListener("pointerover", enter);
document.addEventListener("pointerout", leave);
document.addEventListener("focusin", enter);
document.addEventListener("focusout", leave);
document.addEventListener("click", event => {
  const element = tipped(event), id = element?.dataset.op;
  if (!id) return;
  const side = sideOf(element), isChosen = chosen.operation === id && chosen.side === side;
  choose(isChosen ? undefined : id, side);
});
