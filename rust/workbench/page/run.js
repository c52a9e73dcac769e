// The run: its conditions, its ticks, and the tick that is shown.
const run = (() => {
  let state = null;
  let shown = -1;
  let held = 0;
  let once = 0;
  let restored = "";
  const none = 0xffffffff;
  let changes = 0;
  const [before, after] = [[], []];
  const changed = [];

  // a condition that is held stays so for a chart that tests it; in the word is what has a button
  const tested = () => (chart.accepted()?.conditions ?? []).reduce((all, { number }) => all | (1 << number), 0);
  const word = () => (held | once) & tested();
  const exists = () => state !== null && state.problem === undefined;
  const rows = () => (exists() ? state.rows : 0);
  // what a tick stands for: a node of a chart, a label of an image
  const place = () => chart.accepted()?.place ?? "node";
  const sheet = find("sheet");
  const group = (id) => sheet.querySelector("#" + id);

  // the run as it can be made again
  const script = () => ({ words: bench.text("words"), swaps: exists() ? state.swaps : restored, places: Number(find("places").value) });

  // what the module says of the run after a change; a problem alone leaves the run as it is
  function take(answer) {
    changes += 1;
    if (answer.problem !== undefined) {
      say(answer.problem);
      state = bench.ask("state");
    } else {
      state = answer;
    }
    if (!exists()) say(state.problem);
  }

  // the run that a change leaves can be had again, and so can the one that is left for it then
  function remember(left = script()) {
    before.push(left);
    if (before.length > 50) before.shift();
    after.length = 0;
    offer();
  }

  function offer() {
    find("undo").disabled = before.length === 0;
    find("redo").disabled = after.length === 0;
  }

  function buttons() {
    const one = (name, kind, number, at) => {
      const bit = 1 << number;
      const button = made("button", kind === "held" ? name : "once", { "aria-pressed": String(((kind === "held" ? held : once) & bit) !== 0) });
      button.dataset.condition = String(number);
      button.dataset.kind = kind;
      const key = at < 10 ? (kind === "held" ? "" : "Alt+") + ((at + 1) % 10) : "";
      button.setAttribute("aria-label", kind === "held" ? name + ", held" : name + ", for the next tick");
      button.title = (kind === "held" ? "held at 1 until it is let go" : "at 1 for the next tick alone") + (key ? " (" + key + ")" : "");
      button.addEventListener("click", () => press(kind, number));
      return button;
    };
    const conditions = chart.accepted() ? chart.accepted().conditions : [];
    const groups = conditions.map(({ number, name }, at) => {
      const both = made("span", undefined, { class: "condition", role: "group", "aria-label": name });
      both.append(one(name, "held", number, at), one(name, "once", number, at));
      return both;
    });
    const all = find("conditions");
    const focus = document.activeElement;
    const [kind, number] = all.contains(focus) ? [focus.dataset.kind, focus.dataset.condition] : [];
    all.replaceChildren(...groups);
    if (!groups.length) all.textContent = chart.accepted() ? "No condition is tested." : "";
    if (number !== undefined) all.querySelector("[data-kind='" + kind + "'][data-condition='" + number + "']")?.focus();
    find("word").textContent = groups.length ? "the next word: 0x" + word().toString(16).toUpperCase().padStart(4, "0") : "";
  }

  function press(kind, number) {
    if (kind === "held") held ^= 1 << number;
    else once ^= 1 << number;
    buttons();
    changed.forEach((tell) => tell());
  }

  // after a refused tick none is made
  function ended() {
    if (state.refusal !== null) say("The run has ended: " + state.refusal.split("\n")[0]);
    return state.refusal !== null;
  }

  // a new tick by the conditions, at the end of the run, or many
  function tick(times = 1) {
    if (!exists() || ended()) return;
    if (times > 1) remember();
    take(bench.ask("tick", word(), times));
    once = 0;
    buttons();
    show(rows() - 1, true);
  }

  function step() {
    if (shown < rows() - 1) show(shown + 1);
    else tick();
  }

  // scrolls the drawing, and nothing else, until a node stands in it with some room around
  function bring(node) {
    const [outer, inner] = [sheet.getBoundingClientRect(), node.getBoundingClientRect()];
    const room = Math.min(130, outer.width / 4, outer.height / 4);
    const by = (start, end, from, to) => Math.min(start - from - room, 0) || Math.max(end - to + room, 0);
    sheet.scrollLeft += by(inner.left, inner.right, outer.left, outer.right);
    sheet.scrollTop += by(inner.top, inner.bottom, outer.top, outer.bottom);
  }

  // a call that another scheme serves: the drawing has the line to the scheme called alone
  function lead({ from, to, title }) {
    const drawn = (kind, content, attributes) => {
      const one = document.createElementNS("http://www.w3.org/2000/svg", kind);
      one.textContent = content;
      Object.entries(attributes).forEach(([name, value]) => one.setAttribute(name, value));
      return one;
    };
    const [one, other] = [from, to].map((id) => group(id).getBBox());
    const right = other.x > one.x + one.width;
    const [sx, ex] = [one.x + (other.x + other.width < one.x ? 0 : one.width), other.x + (right ? 0 : other.width)];
    const [sy, ey] = [one.y + one.height / 2, other.y + other.height / 2];
    const bow = Math.min(120, Math.max(30, Math.abs(ex - sx) / 2));
    const [out, back] = [sx === one.x ? -bow : bow, right ? -bow : bow];
    const line = drawn("g", "", { class: "edge call now served" });
    line.append(drawn("title", title, {}), drawn("path", "", { d: ["M", sx, sy, "C", sx + out, sy, ex + back, ey, ex, ey].join(" ") }));
    group(from).before(line);
  }

  function light(told) {
    sheet.querySelector(".served")?.remove();
    sheet.querySelectorAll(".lit, .open, .now, .next").forEach((one) => one.classList.remove("lit", "open", "now", "next"));
    const mark = (id, kind) => {
      const one = group(id);
      if (one) one.classList.add(kind);
      return one;
    };
    if (exists() && shown === rows() - 1 && state.node) mark(state.node, "next");
    if (!told) return reached(sheet, ".node");
    told.waiting.forEach((id) => mark(id, "open"));
    told.taken.forEach((id) => mark(id, "now"));
    if (told.served && group(told.served.from) && group(told.served.to)) lead(told.served);
    const node = mark(told.node, "lit");
    reached(sheet, ".node", node);
    if (node) {
      node.classList.remove("open", "next");
      bring(node);
    }
  }

  function lamps(mask) {
    const outputs = chart.accepted() ? chart.accepted().outputs : [];
    find("lamps").replaceChildren(...outputs.map(({ number, name }) => {
      const on = ((mask >>> number) & 1) === 1;
      return made("li", name + (on ? " on" : " off"), { class: on ? "on" : "off", "data-output": String(number) });
    }));
    if (!outputs.length) find("lamps").append(made("li", "there are none"));
  }

  // the tick itself is told above; of one that takes no row its sentence is enough
  function reason({ done, text, problem }) {
    const [first, ...others] = (text ?? problem).split("\n");
    return done ? others.join("\n") : first.replace(/^tick [^:]*: /, "");
  }

  // shows a row of the run, -1 for none yet
  function show(wanted, speak = true) {
    // where there is no run for a while the place is kept
    if (exists()) shown = Math.max(-1, Math.min(wanted, rows() - 1));
    const told = shown >= 0 && exists() ? bench.ask("row", shown) : null;
    const cells = told ? told.cells : Array(9).fill("–");
    find("happens").textContent = cells[5];
    find("at-place").textContent = "at " + place();
    find("node").textContent = told ? cells[4] + " of " + cells[3] : "–";
    find("ones").textContent = cells[2];
    find("results").textContent = cells[8];
    find("stands").textContent = exists() ? state.at : "–";
    lamps(told ? told.mask : 0);
    find("stack").replaceChildren(...(told ? told.open : []).map(({ scheme, at: place }, at) => {
      const item = made("li");
      item.append(made("b", scheme), made("span", (at === 0 ? "at " : "waits at ") + place));
      return item;
    }));
    const refused = told && told.refusal !== null;
    find("refusal").hidden = !refused;
    find("refusal").textContent = refused ? told.refusal : "";
    const why = told ? bench.ask("why", shown) : null;
    find("why").textContent = why ? reason(why) : "–";
    light(told);
    document.body.dataset.tick = String(shown);
    document.body.dataset.node = told ? told.node : "";
    const last = rows() - 1;
    find("slider").max = String(Math.max(last, 0));
    find("slider").value = String(Math.max(shown, 0));
    find("slider").disabled = last < 1;
    find("slider").setAttribute("aria-valuetext", shown < 0 ? "no tick yet" : "tick " + shown + ": " + cells[5] + " at " + cells[4]);
    find("counter").textContent = shown < 0 ? "no tick yet" : "tick " + shown + " of " + last;
    find("back").disabled = find("first").disabled = shown <= 0;
    find("last").disabled = shown >= last;
    find("step").disabled = !exists() || (shown >= last && state.refusal !== null);
    find("anew").disabled = shown < 0 || shown >= last;
    find("clear").disabled = last < 0;
    if (speak) {
      const outputs = cells[6] === "-" ? "no output" : cells[6];
      say(shown < 0 ? "The run stands at its beginning: set conditions, and make a step." : "tick " + shown + ": " + cells[5] + " at " + (place() === "label" ? "label " : "") + cells[4] + ", " + outputs + (shown === last && !refused ? "; the run now stands at " + state.at : ""));
    }
    changed.forEach((tell) => tell());
  }

  // after the chart has changed: all ticks are made again on it
  function remade() {
    const before = shown;
    changes += 1;
    state = bench.ask("state");
    if (!exists()) say(state.problem);
    buttons();
    schemes();
    show(before, false);
  }

  function schemes() {
    const { swapped, servers } = chart.accepted() ?? { swapped: [], servers: [] };
    const option = ({ number, name }) => new Option(name, String(number));
    for (const [id, offered] of [["number", swapped], ["server", servers]]) {
      const kept = find(id).value;
      find(id).replaceChildren(...offered.map(option));
      if (offered.some(({ number }) => String(number) === kept)) find(id).value = kept;
    }
    const wanted = find("wanted").value;
    const outputs = (chart.accepted()?.outputs ?? []).map(({ number, name }) => new Option("change of " + name, String(number + 4)));
    find("wanted").replaceChildren(...Array.from(find("wanted").options).slice(0, 4), ...outputs);
    const stays = Array.from(find("wanted").options).some(({ value }) => value === wanted);
    find("wanted").value = stays ? wanted : "0";
    find("swap").disabled = find("number").options.length < 1 || find("server").options.length < 2;
  }

  function cut(ticks) {
    remember();
    take(bench.ask("cut", ticks));
    show(ticks - 1);
  }

  function turn(from, to) {
    const wanted = from.pop();
    if (!wanted) return;
    to.push(script());
    offer();
    restore(wanted);
  }
  const undo = () => turn(before, after);
  const redo = () => turn(after, before);

  // a change that the module may turn back: the run before it is remembered where it does not
  function change(name, ...values) {
    const left = script();
    const answer = bench.ask(name, ...values);
    take(answer);
    if (answer.problem === undefined) remember(left);
    return answer.problem === undefined;
  }

  function restore(script, wanted = Infinity) {
    restored = script.swaps;
    find("places").value = String(script.places);
    bench.give(script.words + "\n" + script.swaps);
    changes += 1;
    state = bench.ask("restore", script.places);
    show(wanted);
    if (!exists()) say(state.problem);
  }

  // a run without ticks on so many places
  function fresh(places) {
    remember();
    restore({ words: "", swaps: "", places }, -1);
  }

  // words after those that were run, by numbers or names; what is wrong with them is returned
  function feed(words, times = 0) {
    const [left, count] = [script(), rows()];
    bench.give(words);
    const answer = bench.ask("feed", times);
    take(answer);
    if (rows() > count) remember(left);
    show(rows() - 1, answer.problem === undefined);
    if (exists() && answer.problem === undefined && rows() === count) ended();
    return answer.problem;
  }

  // a run by a scenario; one that is at fault leaves the run as it is
  function play() {
    const left = script();
    bench.give(find("scenario").value);
    const answer = bench.ask("play");
    const words = answer.problem ?? answer.told;
    tell(find("played"), answer.problem === undefined ? words : answer);
    find("played").className = answer.passed ? "passed" : "refused";
    if (answer.problem === undefined) {
      remember(left);
      changes += 1;
    }
    find("played").dataset.of = String(changes);
    if (answer.problem === undefined) {
      state = bench.ask("state");
      find("places").value = String(state.places);
      show(rows() - 1);
    }
    say("The scenario: " + words.split("\n")[0]);
  }

  function seek(event, forward) {
    if (!rows()) return;
    const found = bench.ask("seek", event, shown < 0 ? none : shown, forward ? 1 : 0);
    const name = ["call", "drop", "refusal", "change of outputs"][event] ?? find("wanted").selectedOptions[0].textContent;
    if (found === null) say("There is no " + name + (forward ? " after" : " before") + " this tick.");
    else show(found);
  }

  // a click on a node or a label leads to its next tick, or the first one
  function nextAt(id) {
    bench.give(id);
    const found = rows() ? bench.ask("visit", shown < 0 ? none : shown) : null;
    if (found === null) say("No tick of the run is at this " + place() + ".");
    else show(found);
  }

  find("step").addEventListener("click", step);
  find("back").addEventListener("click", () => show(shown - 1));
  find("first").addEventListener("click", () => show(0));
  find("last").addEventListener("click", () => show(rows() - 1));
  find("slider").addEventListener("input", (event) => show(Number(event.target.value)));
  find("find").addEventListener("click", () => seek(Number(find("wanted").value), true));
  find("anew").addEventListener("click", () => cut(shown + 1));
  find("clear").addEventListener("click", () => cut(0));
  find("undo").addEventListener("click", undo);
  find("redo").addEventListener("click", redo);
  find("many").addEventListener("click", () => tick(Math.max(1, Math.trunc(Number(find("times").value)) || 1)));
  find("fed").addEventListener("click", () => feed(find("feed").value.trim(), Math.max(0, Math.trunc(Number(find("feed-times").value)) || 0)));
  find("play").addEventListener("click", play);
  find("places").addEventListener("change", (event) => {
    changes += 1;
    state = bench.ask("begin", Math.max(0, Math.trunc(Number(event.target.value)) || 0));
    show(shown);
    if (!exists()) say(state.problem);
  });
  find("swap").addEventListener("click", () => {
    if (change("swap", Number(find("number").value), Number(find("server").value))) show(rows() - 1);
  });
  // by its place in the list of swaps; the tick that is shown stays
  function unswap(at) {
    if (change("unswap", at)) show(shown);
  }
  reaches(sheet, ".node");
  const isNode = (event) => event.target.closest("#sheet g.node");
  find("sheet").addEventListener("click", (event) => isNode(event) && nextAt(isNode(event).id));
  find("sheet").addEventListener("keydown", (event) => {
    if ((event.key !== "Enter" && event.key !== " ") || !isNode(event)) return;
    event.preventDefault();
    nextAt(isNode(event).id);
  });
  return {
    remade, show, step, tick, cut, undo, redo, unswap, restore, fresh, feed, play, seek, press, script, rows, changes: () => changes,
    place, state: () => state, shown: () => shown, exists, held: () => held, hold: (word) => { held = word; }, onChange: (tell) => changed.push(tell),
  };
})();
