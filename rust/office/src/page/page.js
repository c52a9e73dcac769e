"use strict";
(() => {
  const find = (id) => document.getElementById(id);
  const rows = Array.from(document.querySelectorAll("#ticks tbody tr"));
  const last = rows.length - 1;
  let shown = -1;

  // the groups of the drawing that a list of identifiers names
  const groups = (ids) => ids.split(" ").filter((id) => id).map(find).filter((group) => group);

  function dim() {
    for (const kind of ["lit", "open", "now", "current"]) {
      document.querySelectorAll("svg ." + kind + ", #ticks ." + kind).forEach((one) => one.classList.remove(kind));
    }
  }

  // scrolls the drawing, and nothing else, until a node stands in it with some room around
  function bring(node) {
    const sheet = find("sheet");
    const [outer, inner] = [sheet.getBoundingClientRect(), node.getBoundingClientRect()];
    const room = Math.min(130, outer.width / 4, outer.height / 4);
    const by = (start, end, from, to) => Math.min(start - from - room, 0) || Math.max(end - to + room, 0);
    sheet.scrollLeft += by(inner.left, inner.right, outer.left, outer.right);
    sheet.scrollTop += by(inner.top, inner.bottom, outer.top, outer.bottom);
  }

  function light(row) {
    const nodes = groups(row.dataset.stack);
    const top = nodes.pop();
    nodes.forEach((node) => node.classList.add("open"));
    groups(row.dataset.lines).forEach((line) => line.classList.add("now"));
    row.classList.add("current");
    if (top) {
      top.classList.remove("open");
      top.classList.add("lit");
      bring(top);
    }
  }

  // the open schemes, the innermost first
  function stack(row) {
    const list = find("stack");
    const serving = row.dataset.serving ? row.dataset.serving.split("\n").reverse() : [];
    list.replaceChildren();
    row.dataset.stack.split(" ").reverse().forEach((id, place) => {
      const cells = find("node-" + id).cells;
      const item = document.createElement("li");
      item.dataset.node = id;
      item.className = place === 0 ? "top" : "";
      const scheme = document.createElement("b");
      scheme.textContent = serving[place] ?? cells[1].textContent;
      const where = document.createElement("span");
      where.className = "where";
      where.textContent = (place === 0 ? "at " : "waits at ") + cells[0].textContent;
      item.append(scheme, where);
      list.append(item);
    });
  }

  function show(wanted) {
    const tick = Math.min(Math.max(wanted, 0), last);
    if (tick === shown || !rows[tick]) return;
    shown = tick;
    const row = rows[tick];
    dim();
    light(row);
    stack(row);
    document.querySelectorAll("[data-cell]").forEach((place) => {
      place.innerHTML = row.cells[Number(place.dataset.cell)].innerHTML;
    });
    document.body.dataset.tick = String(tick);
    document.body.dataset.node = row.dataset.stack.split(" ").pop();
    find("slider").value = String(tick);
    find("at").value = String(tick);
    find("sought").textContent = unsought;
    find("why").textContent = row.dataset.why || "\u2013";
    document.querySelectorAll("#graph rect").forEach((mark) => mark.setAttribute("x", String(tick)));
    const [depth, places] = [row.dataset.stack.split(" ").length, find("depth").dataset.places];
    find("depth").textContent = depth + " of " + places + (places === "1" ? " place" : " places");
    find("counter").textContent = "tick " + tick + " of " + last;
    find("back").disabled = tick === 0;
    find("forward").disabled = tick === last;
    const pane = find("pane");
    pane.scrollTop = row.offsetTop - pane.clientHeight / 2;
    try {
      history.replaceState(null, "", "#tick=" + tick);
    } catch (error) {
      // a page that may not change its address is stepped all the same
    }
  }

  function fit(whole) {
    find("fit").checked = whole;
    find("sheet").classList.toggle("fit", whole);
  }

  // whether the whole drawing can be shown without getting too small to read
  function fits() {
    const [sheet, drawing] = [find("sheet"), document.querySelector("#sheet svg").getBoundingClientRect()];
    return Math.min(sheet.clientWidth / drawing.width, sheet.clientHeight / drawing.height) > 0.6;
  }

  // the tick that the address asks for
  function asked() {
    const match = /^#tick=(\d+)$/.exec(location.hash);
    return match ? Number(match[1]) : 0;
  }

  // the next tick at a node after the one shown, or the first one
  function nextAt(id) {
    const here = rows.map((row, tick) => (row.dataset.stack.split(" ").pop() === id ? tick : -1)).filter((t) => t >= 0);
    return here.find((tick) => tick > shown) ?? here[0];
  }

  // what can be looked for: each call, a drop, each output, and the refusal
  const events = rows.map((row) => {
    const happens = row.cells[5].textContent.split("; ").pop();
    const outputs = Array.from(row.cells[6].querySelectorAll(".chip")).map((chip) => "tick with " + chip.textContent);
    const call = /^(call of [^,]+|drop|refused)/.exec(happens);
    return new Set(call ? [call[1], ...outputs] : outputs);
  });
  find("wanted").replaceChildren(...Array.from(new Set(events.flatMap((some) => Array.from(some)))).sort().map((name) => new Option(name)));
  // each output over time, high in the ticks in which it is on
  const drawn = (kind, attributes) => {
    const one = document.createElementNS(document.querySelector("#sheet svg").namespaceURI, kind);
    Object.entries(attributes).forEach(([name, value]) => one.setAttribute(name, value));
    return one;
  };
  const named = Array.from(find("wanted").options, (option) => option.value).filter((value) => value.startsWith("tick with "));
  named.forEach((event) => {
    const output = event.slice("tick with ".length);
    const levels = events.map((some) => (some.has(event) ? 1 : 9));
    const path = levels.map((level, tick) => (tick ? "V" + level : "M0 " + level) + "H" + (tick + 1)).join("");
    const line = drawn("svg", { viewBox: "0 0 " + rows.length + " 10", preserveAspectRatio: "none", role: "img" });
    line.setAttribute("aria-label", output + " over time");
    line.append(drawn("rect", { x: "0", y: "0", width: "1", height: "10" }), drawn("path", { d: path }));
    line.addEventListener("click", (click) => show(Math.floor((click.offsetX / line.clientWidth) * rows.length)));
    const [name, row] = [document.createElement("span"), document.createElement("div")];
    name.textContent = output;
    row.append(name, line);
    find("graph").append(row);
  });
  if (!named.length) find("graph").textContent = "no output is on in any tick";

  // the next such tick, or the first one again, which is told
  function seek() {
    const here = events.map((some, tick) => (some.has(find("wanted").value) ? tick : -1)).filter((tick) => tick >= 0);
    const next = here.find((tick) => tick > shown);
    const again = here[0] === shown ? "nowhere else" : "none further on: this is the first";
    show(next ?? here[0]);
    find("sought").textContent = next === undefined ? again : "";
  }
  find("find").addEventListener("click", seek);
  const unsought = find("wanted").length ? "" : "no tick calls or puts anything out";
  find("wanted").disabled = find("find").disabled = unsought !== "";
  find("at").addEventListener("change", (event) => {
    show(Math.trunc(Number(event.target.value)) || 0);
    event.target.value = String(shown);
  });

  // left and right step; all other keys are the document's, and all keys are a field's that is typed in
  const keys = { ArrowLeft: -1, ArrowRight: 1 };
  const isTyped = (one) => one.isContentEditable || (one.matches("input, textarea, select") && one !== find("slider"));
  document.addEventListener("keydown", (event) => {
    if (!(event.key in keys) || event.ctrlKey || event.altKey || event.metaKey || isTyped(event.target)) return;
    event.preventDefault();
    show(shown + keys[event.key]);
  });

  // a node or a row that is reached by the Tab key does by Enter or Space what a click does
  function reachable(one, name) {
    one.setAttribute("tabindex", "0");
    if (name) {
      one.setAttribute("role", "button");
      one.setAttribute("aria-label", name);
    }
    one.addEventListener("keydown", (event) => {
      if (event.key !== "Enter" && event.key !== " ") return;
      event.preventDefault();
      one.dispatchEvent(new MouseEvent("click", { bubbles: true }));
    });
  }
  find("slider").addEventListener("input", (event) => show(Number(event.target.value)));
  find("back").addEventListener("click", () => show(shown - 1));
  find("forward").addEventListener("click", () => show(shown + 1));
  find("fit").addEventListener("change", (event) => fit(event.target.checked));
  rows.forEach((row, tick) => {
    row.addEventListener("click", () => show(tick));
    reachable(row);
  });
  document.querySelectorAll("svg g.node").forEach((node) => {
    node.addEventListener("click", () => {
      const tick = nextAt(node.id);
      if (tick !== undefined) show(tick);
    });
    reachable(node, node.querySelector("title").textContent + ": its next tick");
  });
  window.addEventListener("hashchange", () => show(asked()));
  fit(fits());
  show(asked());
})();
