"use strict";
// Shows the steps of a run. Every number and sentence comes from the data; this looks them up and draws them.
(function () {
  const data = JSON.parse(document.getElementById("data").textContent);
  if (!data) return;
  const byId = (id) => document.getElementById(id);
  const slider = byId("slider"), picture = byId("picture"), lines = byId("lines"), arrows = byId("arrows");
  const last = data.steps.length - 1;
  const KINDS = ["", "inside", "outside", "unbounded"];
  const TAGS = { read: "read", address: "address taken", written: "written" };
  const FOLDS = { clear: " clear words", words: " words that the run leaves alone ", copied: " words within a copied struct " };
  const LANES = 7, LANE = 9; // arrows run side by side in so many lanes, of so many pixels
  const PAGE = 900; // a picture of so many pixels fits a sheet of paper
  const wordsOf = (stretches) => stretches.flatMap(([first, end]) => Array.from({ length: end - first + 1 }, (_, more) => first + more));
  for (const one of data.steps) for (const kind in TAGS) one[kind] = wordsOf(one[kind]);
  const rowOf = new Map(); // the row of each word that has one, and of the first word of a fold
  let step = -1, memory = new Map(), held; // `held` is the pointer's word that the mouse or the focus is on

  function make(name, attributes, ...children) {
    const element = document.createElement(name);
    for (const key in attributes || {}) element.setAttribute(key, attributes[key]);
    element.append(...children);
    return element;
  }

  // A sentence, in which no line ends within `at->next`.
  function phrase(text) {
    return text.split(/(\S*->\S*)/).map((part) => (part.includes("->") ? make("span", { class: "whole" }, part) : part));
  }

  // Words, by name and by state.

  function groupOf(word) {
    return data.groups.find((group) => group.start <= word && word < group.end);
  }
  function cell(group, word) {
    return (word - group.start) % group.cells.length;
  }
  function nameOf(group, word) {
    const name = group.cells[cell(group, word)];
    if (!group.row) return name;
    return "[" + Math.floor((word - group.start) / group.cells.length) + "]" + (name ? "." + name : "");
  }
  function stateOf(group, word) {
    return memory.get(word) || [word, 0, 0, 0, group.notes[cell(group, word)], 0];
  }
  function memoryAt(number) {
    const found = new Map();
    for (let at = 0; at <= number; at++) for (const word of data.steps[at].words) found.set(word[0], word);
    return found;
  }

  // The rows, made once.

  function rowFor(group, first, end, fold) {
    const clear = fold === "clear";
    const row = make("tr", { role: "row", "data-word": first, "data-last": end });
    const address = fold ? first + ".." + end : String(first);
    const name = fold ? nameOf(group, first) + " .. " + nameOf(group, end) : nameOf(group, first);
    const note = make("td", { role: "cell", class: "note" });
    row.append(
      make("th", { role: "rowheader", scope: "row" }, address),
      make("td", { role: "cell", class: "name" }, name),
      make("td", { role: "cell", class: "value" }, clear ? "0" : fold ? "\u2026" : ""),
      note
    );
    if (fold) {
      row.classList.add("fold");
      note.append(end - first + 1 + FOLDS[fold]);
      if (!clear) {
        const open = make("button", { type: "button", class: "open" }, "show them");
        open.addEventListener("click", () => unfold(group, row, first, end));
        note.append(open);
      }
    }
    return row;
  }
  function unfold(group, row, first, end) {
    const rows = [];
    for (let word = first; word <= end; word++) rows.push(placed(rowFor(group, word, word)));
    row.replaceWith(...rows);
    rows.forEach((one) => fill(group, one));
    rows[0].tabIndex = -1;
    rows[0].focus();
    mark();
  }
  function placed(row) {
    rowOf.set(Number(row.dataset.word), row);
    return row;
  }
  function build() {
    data.groups.forEach((group, number) => {
      const body = make("tbody", { role: "rowgroup" }, ...group.rows.map(([first, end, fold]) => placed(rowFor(group, first, end, fold))));
      const head = make("tr", {}, ...["Word", "Name", "Value", "Meaning"].map((text) => make("th", { scope: "col" }, text)));
      const [title, ...rest] = group.heading.split(": ");
      const heading = make("h3", { id: "group-" + number }, make("b", {}, title, make("i", {}, rest.length ? ": " : "")), make("span", {}));
      const table = make("table", { role: "table", class: "words", "aria-labelledby": "group-" + number }, make("thead", {}, head), body);
      group.element = make("section", { class: "group", "aria-labelledby": "group-" + number }, heading, table);
      group.title = heading.lastChild;
      group.says = rest.join(": ");
      picture.append(group.element);
    });
    picture.append(make("section", { class: "group", id: "beyond", hidden: "", "aria-labelledby": "beyond-heading" }));
    picture.append(make("p", { class: "free", id: "free" }));
    picture.append(arrows);
  }
  function measure() {
    let addresses = 1, names = 1, values = 1, pointers = 0;
    for (const group of data.groups) {
      for (const [first, end, fold] of group.rows) {
        addresses = Math.max(addresses, fold ? (first + ".." + end).length : String(first).length);
        names = Math.max(names, nameOf(group, first).length + (fold ? 4 + nameOf(group, end).length : 0));
      }
    }
    const now = new Map();
    for (const one of data.steps) {
      for (const word of one.words) {
        now.set(word[0], word[5] > 0);
        values = Math.max(values, String(word[1]).length);
      }
      let count = 0;
      for (const isPointer of now.values()) count += isPointer;
      pointers = Math.max(pointers, count);
    }
    const style = picture.style;
    style.setProperty("--address", addresses + "ch");
    style.setProperty("--names", "calc(" + Math.min(names, 26) + "ch + 1.6rem)");
    style.setProperty("--values", "calc(" + Math.max(values, 4) + "ch + 1.1rem)");
    style.setProperty("--gutter", 20 + LANE * Math.min(pointers, LANES) + "px");
  }

  // One step.

  function fill(group, row) {
    if (row.classList.contains("fold")) return;
    const [, value, , , note, kind] = stateOf(group, Number(row.dataset.word));
    const cell = row.querySelector(".value"), text = row.querySelector(".note");
    if (kind > 0 || note.includes("bounds [")) {
      const button = cell.querySelector("button") || make("button", { type: "button" });
      button.textContent = value;
      button.setAttribute("aria-label", value + ", show its bounds");
      cell.replaceChildren(button);
    } else cell.replaceChildren(String(value));
    text.replaceChildren(note.replace("-> ", "\u2192 "));
  }
  function tag(row, kind, words) {
    row.classList.add(kind);
    const note = row.querySelector(".note"), tags = note.querySelectorAll(".tag");
    const label = make("span", { class: "tag " + kind }, words);
    if (tags.length) tags[tags.length - 1].after(" ", label);
    else note.prepend(label, " ");
  }
  function show(number, byHand) {
    number = Math.max(0, Math.min(last, number));
    if (number === step) return;
    step = number;
    memory = memoryAt(step);
    const now = data.steps[step];
    for (const group of data.groups) {
      group.element.hidden = group.start >= now.unused;
      const obtained = now.obtained.includes(group.start);
      group.element.classList.toggle("new", obtained);
      group.title.replaceChildren(...(obtained ? [make("i", { class: "tag obtained" }, "obtained"), " "] : []), group.says);
      if (group.element.hidden) continue;
      for (const row of group.element.querySelectorAll("tbody tr")) {
        row.classList.remove("read", "written", "address", "wanted");
        fill(group, row);
      }
    }
    for (const kind in TAGS) for (const word of new Set(now[kind])) if (rowOf.has(word)) tag(rowOf.get(word), kind, TAGS[kind]);
    showControls(now);
    byId("free").textContent = now.free;
    showFailure();
    showSource(now);
    held = undefined;
    mark();
    if (byHand) reveal(now);
  }
  function showControls(now) {
    slider.value = step;
    slider.setAttribute("aria-valuetext", now.says);
    byId("at").textContent = "Step " + step + " of " + last;
    byId("says").replaceChildren(...phrase(now.says));
    const bar = Math.max(byId("steps").offsetHeight, slider.parentElement.offsetHeight);
    document.documentElement.style.setProperty("--bar", bar + "px");
    byId("first").disabled = byId("back").disabled = step === 0;
    byId("next").disabled = byId("last").disabled = step === last;
    try {
      history.replaceState(null, "", "#step=" + step);
    } catch (refused) {} // some browsers allow only so many in a while
  }
  function showFailure() {
    const failure = step === last ? data.failure : null, facts = byId("facts"), beyond = byId("beyond");
    facts.hidden = !failure;
    beyond.hidden = true;
    if (!failure) return;
    facts.replaceChildren();
    for (const [name, text] of failure.facts) facts.append(make("dt", {}, name[0].toUpperCase() + name.slice(1)), make("dd", {}, text));
    if (!failure.wanted) return;
    const { place, words } = failure.wanted;
    const rows = [];
    for (let word = place; word < place + words && word < data.steps[last].unused; word++) if (rowOf.has(word)) rows.push(rowOf.get(word));
    rows.forEach((row) => tag(row, "wanted", "wanted"));
    if (!rows.length) showBeyond(beyond, place, words);
  }
  function showBeyond(beyond, place, words) {
    const row = make("tr", { role: "row", "data-word": place });
    const name = words === 1 ? String(place) : place + ".." + (place + words - 1);
    row.append(make("th", { role: "rowheader", scope: "row" }, name), make("td", { role: "cell", class: "note" }, "no word in use"));
    tag(row, "wanted", "wanted");
    const heading = make("h3", { id: "beyond-heading" }, make("b", {}, "not in use"));
    const table = make("table", { role: "table", class: "words", "aria-labelledby": "beyond-heading" }, make("tbody", {}, row));
    beyond.replaceChildren(heading, table);
    beyond.hidden = false;
  }
  function showSource(now) {
    for (const item of lines.querySelectorAll(".now")) {
      item.classList.remove("now", "ended");
      item.removeAttribute("aria-current");
    }
    for (const part of lines.querySelectorAll(".at")) part.classList.remove("at");
    if (now.command === null) return void (lines.scrollTop = 0);
    const ended = Boolean(data.failure) && step === last;
    const parts = lines.querySelectorAll('[data-command="' + now.command + '"]');
    for (const part of parts) {
      const item = part.closest("#lines > li");
      part.classList.add("at");
      item.classList.add("now");
      item.classList.toggle("ended", ended);
      item.setAttribute("aria-current", "step");
    }
    scrollSource();
  }
  function scrollSource() {
    const item = lines.querySelector(".now");
    if (!item) return;
    const seen = innerHeight - lines.getBoundingClientRect().top; // as much of the list as the window shows
    const height = seen > 120 ? Math.min(lines.clientHeight, seen) : lines.clientHeight;
    const above = item.offsetTop - 48, below = item.offsetTop + item.offsetHeight + 48 - height;
    if (lines.scrollTop > above) lines.scrollTop = above;
    else if (lines.scrollTop < below) lines.scrollTop = below;
  }
  // Brings what the command touched into sight, if the memory is in sight at all.
  function reveal(now) {
    const wanted = step === last && data.failure && data.failure.wanted;
    const word = [now.written[0], wanted ? wanted.place : undefined, now.read[0]].find((one) => rowOf.has(one));
    if (word === undefined || picture.getBoundingClientRect().top > innerHeight - 80) return;
    rowOf.get(word).scrollIntoView({ block: "nearest" });
  }

  // Bounds and arrows.

  function hold(word) {
    if (word === held) return;
    held = word;
    mark();
  }
  function mark() {
    for (const row of picture.querySelectorAll(".within")) row.classList.remove("within", "top", "end");
    const now = data.steps[step], line = byId("bounds");
    let bounds = now.bounds.map(([base, end]) => [base, end]);
    line.textContent = now.bounds.map((one) => one[2]).join(" ") || "No pointer was followed.";
    if (held !== undefined) {
      const [, , base, end, note] = memory.get(held);
      bounds = end ? [[base, end]] : [];
      line.textContent = nameOf(groupOf(held), held) + ": " + note.replace("-> ", "\u2192 ");
    }
    line.classList.toggle("shown", bounds.length > 0);
    for (const [base, end] of bounds) shade(base, end);
    draw();
  }
  function shade(base, end) {
    for (const row of groupOf(base).element.querySelectorAll("tbody tr")) {
      const first = Number(row.dataset.word), after = Number(row.dataset.last) + 1;
      if (after <= base || first >= end) continue;
      row.classList.add("within");
      row.classList.toggle("top", row.classList.contains("top") || first <= base);
      row.classList.toggle("end", row.classList.contains("end") || after >= end);
    }
  }
  function rowAt(word) {
    if (rowOf.has(word)) return rowOf.get(word);
    for (const row of rowOf.values()) if (Number(row.dataset.word) <= word && word <= Number(row.dataset.last)) return row;
    return undefined;
  }
  function draw() {
    arrows.replaceChildren();
    const origin = picture.getBoundingClientRect(), found = [];
    const used = new Set(held === undefined ? [...data.steps[step].read, ...data.steps[step].written] : [held]);
    for (const [at, value, , , , kind] of memory.values()) {
      const from = kind && rowAt(at), to = kind && rowAt(value);
      if (!from || !to || !from.offsetParent || !to.offsetParent) continue;
      const a = from.querySelector(".value").getBoundingClientRect(), b = to.querySelector(".value").getBoundingClientRect();
      const [start, end] = [a, b].map((cell) => (cell.top + cell.bottom) / 2 - origin.top);
      found.push({ word: at, value, x: a.right - origin.left, from: start + 4, to: end - 4, kind: KINDS[kind], strong: used.has(at) });
    }
    found.sort((one, other) => Math.abs(one.to - one.from) - Math.abs(other.to - other.from));
    const lanes = [];
    for (const one of found) {
      const top = Math.min(one.from, one.to) - 3, end = Math.max(one.from, one.to) + 3;
      let lane = 0;
      while (lane < LANES - 1 && (lanes[lane] || []).some(([a, b]) => a < end && top < b)) lane++;
      (lanes[lane] = lanes[lane] || []).push([top, end]);
      arrow(one, one.x + 14 + lane * LANE);
    }
  }
  function arrow({ word, value, x, from, to, kind, strong }, lane) {
    const down = to > from ? 1 : -1, bend = Math.min(4, Math.abs(to - from) / 2);
    const [path, head] = ["path", "polygon"].map((name) => document.createElementNS(arrows.namespaceURI, name));
    const corner = (sweep, dx, dy) => "a" + bend + " " + bend + " 0 0 " + sweep + " " + dx + " " + dy;
    const turn = down > 0 ? 1 : 0;
    const out = "M" + x + " " + from + "H" + (lane - bend) + corner(turn, bend, bend * down);
    const back = "V" + (to - bend * down) + corner(turn, -bend, bend * down) + "H" + (x + 5);
    path.setAttribute("d", out + back);
    head.setAttribute("points", x + "," + to + " " + (x + 7) + "," + (to - 3.5) + " " + (x + 7) + "," + (to + 3.5));
    for (const element of [path, head]) element.setAttribute("class", kind + (strong ? " strong" : ""));
    path.dataset.from = word;
    path.dataset.to = value;
    arrows.append(path, head);
  }

  // What the reader does.

  function listen() {
    slider.max = last;
    slider.addEventListener("input", () => show(Number(slider.value), true));
    const moves = { first: () => 0, back: () => step - 1, next: () => step + 1, last: () => last };
    for (const id in moves) byId(id).addEventListener("click", () => show(moves[id](), true));
    const keys = { ArrowLeft: "back", ArrowRight: "next", Home: "first", End: "last" };
    document.addEventListener("keydown", (event) => {
      if (!keys[event.key] || event.ctrlKey || event.altKey || event.metaKey || event.shiftKey) return;
      event.preventDefault();
      show(moves[keys[event.key]](), true);
    });
    lines.addEventListener("click", (event) => {
      const part = event.target.closest("[data-command]");
      if (part && getSelection().isCollapsed) show(Number(part.dataset.command) + 1, true);
    });
    const pointed = (event) => {
      const row = event.target.closest("tr");
      return row && row.querySelector(".value button") ? Number(row.dataset.word) : undefined;
    };
    for (const kind of ["mouseover", "focusin"]) picture.addEventListener(kind, (event) => hold(pointed(event)));
    for (const kind of ["mouseleave", "focusout"]) picture.addEventListener(kind, () => hold());
    addEventListener("hashchange", () => show(asked(), true));
    addEventListener("resize", () => {
      draw();
      scrollSource();
    });
    // On paper the picture has a width of its own: the arrows are drawn for it before, and left out where they would run over sheets.
    addEventListener("beforeprint", () => {
      document.documentElement.classList.add("printing");
      draw();
      arrows.classList.toggle("unprinted", picture.offsetHeight > PAGE || innerWidth < 640);
    });
    addEventListener("afterprint", () => {
      document.documentElement.classList.remove("printing");
      draw();
    });
  }
  function asked() {
    const found = /^#step=(\d+)$/.exec(location.hash);
    return found ? Number(found[1]) : last;
  }

  byId("headline").replaceChildren(...phrase(byId("headline").textContent));
  build();
  measure();
  listen();
  show(asked());
})();
