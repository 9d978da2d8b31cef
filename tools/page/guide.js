"use strict";
const find = id => document.getElementById(id);
const grid = find("grid"), detail = find("detail"), search = find("find"), found = find("found");
const events = [...grid.querySelectorAll("button.e")];
const texts = JSON.parse(find("texts").textContent);
const places = new Map(events.map((event, place) => [event, place]));
const searched = texts.map(text => text.join("\n").toLowerCase());
let chosen = null;

const value = (element, name) => parseFloat(element.style.getPropertyValue(name));
const pixels = () => parseFloat(getComputedStyle(document.documentElement).getPropertyValue("--px"));
const names = () => parseFloat(getComputedStyle(document.documentElement).getPropertyValue("--names"));
const middle = event => value(event, "--a") + Math.min(value(event, "--d"), 30) / 2;

function paragraph(text, soft) {
  if (!text) return;
  const made = document.createElement("p");
  made.textContent = text;
  if (soft) made.className = "soft";
  detail.append(made);
}

function show(event) {
  if (chosen) { chosen.classList.remove("chosen"); chosen.tabIndex = -1; }
  chosen = event;
  event.classList.add("chosen");
  event.tabIndex = 0;
  const [name, time, short, extended, particulars] = texts[places.get(event)];
  detail.textContent = "";
  const title = document.createElement("h2");
  title.textContent = name;
  detail.append(title);
  paragraph(event.closest(".row").querySelector(".name b").textContent + " · " + time, true);
  paragraph(short);
  paragraph(extended);
  paragraph(particulars, true);
  detail.scrollTop = 0;
}

function scrollToMinute(minute) { grid.scrollLeft = minute * pixels(); }

function reveal(event) {
  const left = value(event, "--a") * pixels(), right = left + value(event, "--d") * pixels();
  const from = grid.scrollLeft, room = grid.clientWidth - names();
  if (left < from || left > from + room - 60) grid.scrollLeft = Math.max(left - 40, 0);
  else if (right > from + room) grid.scrollLeft = Math.min(left - 8, right - room);
  event.closest(".row").scrollIntoView({block: "nearest"});
  const row = event.closest(".row").getBoundingClientRect(), ruler = grid.querySelector(".ruler").getBoundingClientRect();
  if (row.top < ruler.bottom) grid.scrollTop -= ruler.bottom - row.top;
}

function go(event) {
  if (!event) return;
  event.focus({preventScroll: true});
  show(event);
  reveal(event);
}

function beside(event, step) {
  const place = places.get(event) + step, other = events[place];
  return other && other.parentElement === event.parentElement ? other : null;
}

function above(event, step) {
  for (let row = event.closest(".row"); row; ) {
    row = step < 0 ? row.previousElementSibling : row.nextElementSibling;
    const there = row ? [...row.querySelectorAll("button.e")] : [];
    if (there.length) {
      const at = middle(event);
      const distance = other => Math.max(value(other, "--a") - at, at - value(other, "--a") - value(other, "--d"), 0);
      return there.reduce((best, other) => distance(other) < distance(best) ? other : best);
    }
  }
  return null;
}

function filter() {
  const word = search.value.trim().toLowerCase();
  let count = 0;
  events.forEach((event, place) => {
    const hit = searched[place].includes(word);
    if (hit) count += 1;
    event.classList.toggle("dim", !hit);
  });
  found.textContent = word ? `${count} found` : "";
}

function nextFound() {
  const start = chosen ? places.get(chosen) : -1;
  for (let step = 1; step <= events.length; step += 1) {
    const event = events[(start + step) % events.length];
    if (!event.classList.contains("dim")) { show(event); reveal(event); return; }
  }
}

function zoom(factor) {
  const at = (grid.scrollLeft + (grid.clientWidth - names()) / 2) / pixels();
  const wanted = Math.min(Math.max(pixels() * factor, 0.8), 12);
  document.documentElement.style.setProperty("--px", wanted + "px");
  grid.scrollLeft = at * wanted - (grid.clientWidth - names()) / 2;
}

function toNow() {
  const clock = find("clock"), present = grid.querySelector(".e.now");
  const at = clock ? value(clock, "--a") : present ? value(present, "--a") : 0;
  scrollToMinute(Math.max(at - 30, 0));
}

grid.addEventListener("click", click => {
  const event = click.target.closest("button.e");
  if (event) { event.focus({preventScroll: true}); show(event); }
});
grid.addEventListener("focusin", focus => { if (focus.target.matches("button.e")) show(focus.target); });
grid.addEventListener("keydown", key => {
  const event = key.target.closest("button.e");
  const other = !event ? undefined : key.key === "ArrowLeft" ? beside(event, -1) : key.key === "ArrowRight" ? beside(event, 1)
    : key.key === "ArrowUp" ? above(event, -1) : key.key === "ArrowDown" ? above(event, 1) : undefined;
  if (other !== undefined) { key.preventDefault(); go(other); }
});
document.addEventListener("keydown", key => {
  if (key.key === "/" && document.activeElement !== search) { key.preventDefault(); search.focus(); }
});
search.addEventListener("input", filter);
search.addEventListener("keydown", key => {
  if (key.key === "Enter") nextFound();
  else if (key.key === "Escape") { search.value = ""; filter(); search.blur(); }
});
find("day").addEventListener("change", change => scrollToMinute(parseFloat(change.target.value)));
find("now").addEventListener("click", toNow);
find("narrow").addEventListener("click", () => zoom(1 / 1.5));
find("wide").addEventListener("click", () => zoom(1.5));

toNow();
const first = grid.querySelector(".e.now") || events[0];
if (first) show(first);
