// What stands below: the table, the outputs over time, the price, the comparison and what was never taken.
(() => {
  // the most rows of the table, and the most ticks of the outputs over time, around the tick that is shown
  const rowsShown = 200;
  const ticksShown = 200;
  const rowsPrinted = 1500;
  let part = "";
  let from = 0;
  let to = 0;

  // the window around the tick that is shown, which stays while that is well within it
  function moved(size) {
    const [all, at] = [run.rows(), Math.max(run.shown(), 0)];
    const [first, last] = [Math.max(0, Math.min(at - size / 2, all - size)), Math.min(all, Math.max(at + size / 2, size))];
    return [Math.trunc(first), Math.trunc(last)];
  }

  function table(size = rowsShown) {
    const body = find("ticks").tBodies[0];
    find("place-heading").textContent = run.place();
    const [all, at] = [run.rows(), run.shown()];
    const near = at >= from && at < to && (from === 0 || at - from > 20) && (to === all || to - at > 20);
    const now = [all, run.changes(), size].join();
    if (now !== part || !near) {
      [from, to] = moved(size);
      part = now;
      const rows = all ? bench.ask("rows", from, to) : [];
      body.replaceChildren(...(rows.problem === undefined ? rows : []).map((cells, place) => {
        const row = made("tr", undefined, { "data-tick": String(from + place), tabindex: "-1" });
        if (cells[5].includes("refused (")) row.className = "refused";
        row.append(...cells.map((cell) => made("td", cell)));
        return row;
      }));
      find("list-part").textContent = all > to - from ? from + " to " + (to - 1) + " of " + all : "";
    }
    const before = body.querySelector(".current");
    before?.classList.remove("current");
    before?.removeAttribute("aria-current");
    const row = body.querySelector("[data-tick='" + at + "']");
    reached(find("ticks"), "tbody tr", row);
    if (!row) return;
    row.classList.add("current");
    row.setAttribute("aria-current", "true");
    find("pane").scrollTop = row.offsetTop - find("pane").clientHeight / 2;
  }

  function graph() {
    const outputs = chart.accepted() ? chart.accepted().outputs : [];
    const bytes = run.exists() ? bench.told("masks") : new Uint8Array();
    const masks = new Uint32Array(bytes.buffer, 0, bytes.length / 4);
    const [first, last] = moved(ticksShown).map((tick) => Math.min(tick, masks.length));
    const some = masks.subarray(first, last);
    find("lines-part").textContent = some.length < masks.length ? "ticks " + first + " to " + (last - 1) + " of " + masks.length : "";
    const drawn = (kind, attributes) => {
      const one = document.createElementNS("http://www.w3.org/2000/svg", kind);
      Object.entries(attributes).forEach(([name, value]) => one.setAttribute(name, value));
      return one;
    };
    find("graph").replaceChildren(...(some.length ? outputs : []).map(({ number, name }) => {
      const levels = Array.from(some, (mask) => ((mask >>> number) & 1 ? 1 : 9));
      const path = levels.map((level, tick) => (tick ? "V" + level : "M0 " + level) + "H" + (tick + 1)).join("");
      const on = levels.filter((level) => level === 1).length;
      const line = drawn("svg", { viewBox: "0 0 " + some.length + " 10", preserveAspectRatio: "none", role: "img" });
      line.setAttribute("aria-label", name + " is on at " + on + " of these " + some.length + " ticks");
      if (run.shown() >= first && run.shown() < last) line.append(drawn("rect", { x: String(run.shown() - first), y: "0", width: "1", height: "10" }));
      line.append(drawn("path", { d: path }));
      line.addEventListener("click", (click) => run.show(first + Math.floor((click.offsetX / line.clientWidth) * some.length)));
      const row = made("div");
      row.append(made("span", name, { title: name }), line);
      return row;
    }));
    if (!outputs.length || !some.length) find("graph").textContent = "–";
  }

  function price() {
    if (!find("prices").value.trim()) {
      find("bill").textContent = "";
      return;
    }
    bench.give(find("prices").value);
    const told = bench.ask("bill");
    if (!told.done) {
      tell(find("bill"), told);
      return;
    }
    // the lines of the table stay whole, the sentences below it are wrapped
    const below = told.text.indexOf("\n\n");
    find("bill").replaceChildren(made("span", told.text.slice(0, below), { class: "columns" }), told.text.slice(below));
  }

  function compare() {
    const told = run.exists() ? bench.ask("compare") : null;
    if (told !== null && told.problem === undefined) find("compared").textContent = told;
  }

  function never() {
    const told = run.exists() ? bench.ask("never") : null;
    const left = told && told.problem === undefined ? told : { words: [], left: [] };
    find("never").textContent = left.words.join("\n");
    const svg = find("sheet").querySelector("svg");
    if (!svg) return;
    svg.classList.toggle("left", find("left").checked);
    if (!find("left").checked) return;
    svg.querySelectorAll(".never").forEach((one) => one.classList.remove("never"));
    left.left.forEach((id) => svg.querySelector("#" + id)?.classList.add("never"));
  }

  // each can be taken back by itself
  function swaps() {
    const all = run.exists() ? run.state().swapped : [];
    find("swaps").replaceChildren(...all.map((words, at) => {
      const item = made("li", words + " ");
      const button = made("button", "take back", { "aria-label": "take back: " + words });
      button.addEventListener("click", () => {
        run.unswap(at);
        (find("swaps").querySelectorAll("button")[at] ?? find("swap")).focus();
      });
      item.append(button);
      return item;
    }));
  }

  // what depends on the run alone is made again only where that has changed
  let seen = -1;
  run.onChange(() => {
    table();
    graph();
    if (seen === run.changes()) return;
    seen = run.changes();
    find("played").classList.toggle("stale", find("played").dataset.of !== String(seen));
    price();
    compare();
    never();
    swaps();
  });
  find("prices").addEventListener("input", price);
  find("left").addEventListener("change", never);
  find("ticks").addEventListener("click", (event) => {
    const row = event.target.closest("[data-tick]");
    if (row) run.show(Number(row.dataset.tick));
  });
  reaches(find("ticks"), "tbody tr");
  find("ticks").addEventListener("keydown", (event) => {
    const row = event.target.closest("[data-tick]");
    if (!row || (event.key !== "Enter" && event.key !== " ")) return;
    event.preventDefault();
    const tick = row.dataset.tick;
    run.show(Number(tick));
    find("ticks").querySelector("[data-tick='" + tick + "']")?.focus();
  });
  // on paper all rows, as long as they are not too many
  window.addEventListener("beforeprint", () => table(rowsPrinted));
  window.addEventListener("afterprint", () => table());
})();

// the run that later ones are compared with, as it can be made again
const comparison = (() => {
  let kept = null;

  function keep() {
    if (!run.exists() || !run.rows()) return say("There is no run to keep.");
    const told = bench.ask("keep");
    find("compared").textContent = told.problem ?? told;
    kept = { text: chart.acceptedText(), names: find("names").value, ...run.script() };
    store.soon();
    return say("This run is kept: later ones are compared with it.");
  }

  // made again before all else that lies on the page is
  function restore({ text, names, words, swaps, places }) {
    find("names").value = names;
    chart.name();
    chart.field.value = text;
    if (!chart.check()) return;
    run.restore({ words, swaps, places });
    if (run.exists() && run.rows()) keep();
  }

  find("keep").addEventListener("click", keep);
  return { keep, restore, kept: () => kept };
})();
