// The text of a chart or an image: checked at each key, with its lines numbered, and drawn where it is accepted.
const chart = (() => {
  const field = find("text");
  const names = find("names");
  const sheet = find("sheet");
  let accepted = null;
  let acceptedText = "";
  let problem = null;
  let drawn = "";
  let chosen = false;

  function number() {
    const count = field.value.split("\n").length;
    const wrong = problem && problem.line;
    const lines = Array.from({ length: count }, (_, at) => String(at + 1));
    const numbers = find("numbers");
    if (numbers.dataset.shown === count + " " + wrong) return;
    numbers.dataset.shown = count + " " + wrong;
    numbers.replaceChildren();
    if (!wrong || wrong > count) {
      numbers.textContent = lines.join("\n");
      return;
    }
    numbers.append(lines.slice(0, wrong - 1).map((line) => line + "\n").join(""), made("b", "!" + wrong));
    numbers.append("\n" + lines.slice(wrong).join("\n"));
  }

  function draw(svg) {
    if (svg === drawn) return;
    sheet.querySelector(".served")?.remove();
    const before = drawn.split("\n");
    drawn = svg;
    if (patched(before, svg.split("\n"))) return;
    // asked before, so that nothing is laid out twice
    const [wide, high] = [sheet.clientWidth, sheet.clientHeight];
    sheet.innerHTML = svg;
    const drawing = sheet.firstElementChild;
    drawing.setAttribute("role", "group");
    // whole as long as it can be read so, until somebody chooses
    const [width, height] = ["width", "height"].map((name) => Number(drawing.getAttribute(name)));
    if (!chosen) fit(Math.min(wide / width, high / height) > 0.5);
  }

  // a letter moves few things: each stands on a line, and where their number is that of before those that differ alone are made anew,
  // as most of a key's time is the browser's for texts that it has not laid out yet
  function patched(before, now) {
    const drawing = sheet.firstElementChild;
    const ends = 2;
    if (!drawing || before.length !== now.length || drawing.children.length !== now.length - 1 - ends) return false;
    const places = Array.from(drawing.children, (_, at) => at).filter((at) => before[at + 1] !== now[at + 1]);
    const fresh = made("div");
    fresh.innerHTML = now[0] + places.map((at) => now[at + 1]).join("") + "</svg>";
    const others = Array.from(fresh.firstElementChild.children);
    if (others.length !== places.length) return false;
    const left = places.map((at) => drawing.children[at]);
    left.forEach((one, at) => one.replaceWith(others[at]));
    for (const { name, value } of fresh.firstElementChild.attributes) {
      if (drawing.getAttribute(name) !== value) drawing.setAttribute(name, value);
    }
    return true;
  }

  function fit(whole) {
    find("fit").checked = whole;
    sheet.classList.toggle("fit", whole);
  }

  // takes the text as it stands; returns whether it is accepted
  function check() {
    bench.give(field.value);
    const answer = bench.ask("check");
    const refused = answer.problem !== undefined;
    problem = refused ? answer : null;
    tell(find("checked"), refused ? answer : answer.words);
    find("checked").className = refused ? "refused" : "";
    field.setAttribute("aria-invalid", String(refused));
    find("go").hidden = !(refused && answer.line);
    number();
    if (!refused) {
      accepted = answer.piece;
      acceptedText = field.value;
      draw(accepted.drawing);
      tellNames(answer.named);
    }
    const stale = accepted !== null && refused;
    find("stale").hidden = !stale;
    find("before").hidden = !stale || field.value === acceptedText;
    sheet.classList.toggle("stale", stale);
    return !refused;
  }

  // an image takes the names of a chart, where one is given whose labels it has
  function tellNames(named) {
    find("naming").hidden = accepted.place !== "label";
    const wrong = typeof named === "object";
    tell(find("named"), wrong ? named : named ? "The image has this chart's names." : "");
    find("named").className = wrong ? "refused" : "";
  }

  // hands the chart over that gives names, for the checks from now on
  function name() {
    bench.give(names.value);
    bench.told("name");
  }

  // the place that the problem names is selected; a column counts characters
  function go() {
    if (!problem || !problem.line) return;
    const lines = field.value.split("\n");
    const line = Math.min(problem.line, lines.length) - 1;
    const start = lines.slice(0, line).join("\n").length + (line ? 1 : 0);
    const column = Array.from(lines[line]).slice(0, (problem.column ?? 1) - 1).join("").length;
    field.focus();
    field.setSelectionRange(start + column, start + Math.max(lines[line].length, column));
    field.scrollTop = Math.max(0, (line - 4) * (field.scrollHeight / lines.length));
  }

  field.addEventListener("scroll", () => {
    find("numbers").scrollTop = field.scrollTop;
  });
  find("go").addEventListener("click", go);
  find("fit").addEventListener("change", (event) => {
    chosen = true;
    fit(event.target.checked);
  });
  return { check, name, field, accepted: () => accepted, acceptedText: () => acceptedText };
})();
