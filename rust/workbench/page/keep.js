// What is kept of this tab's work, and what was left and can be had again.
const store = (() => {
  const mostEarlier = 30;
  const mostPlaces = 32;
  const typed = ["names", "prices", "scenario", "feed"];
  const examples = JSON.parse(find("example-texts").textContent);
  let earlier = [];
  let closed = [];
  let name = "";
  let shownRun = "";
  let left = [];
  let begun = false;

  function named(wanted) {
    name = wanted;
    find("name").textContent = wanted;
    document.title = (wanted ? wanted + " – " : "") + "Fairleadow workbench";
  }

  // whether all of it can be had again by an example's name or by an address
  function isPassing(script) {
    const untyped = ["names", "prices", "scenario"].every((id) => !find(id).value.trim()) && earlier.length === 0 && !comparison.kept();
    const isGiven = !(script.words || script.swaps) || JSON.stringify(script) === shownRun;
    return untyped && isGiven && Object.values(examples).includes(chart.field.value);
  }

  function keep() {
    if (!begun) return;
    const script = run.script();
    const fields = Object.fromEntries(typed.map((id) => [id, find(id).value]));
    const text = chart.field.value;
    // the chart before a slip, where there is one
    const accepted = chart.acceptedText() === text ? "" : chart.acceptedText();
    const work = { name, text, accepted, ...fields, held: run.held(), shown: run.shown(), earlier, comparison: comparison.kept(), ...script, passing: isPassing(script) };
    const before = left;
    left = works.keep(work);
    tellKept();
    if (String(left) !== String(before) && !isKept()) say(find("kept-where").textContent);
  }

  const isKept = () => left !== null && left.length === 0;

  // what is true of it now
  function tellKept() {
    const clock = (time) => time.toLocaleTimeString();
    const [rest, ask] = ["is kept in this browser and found here again", "save what is needed of it before the page is closed"];
    let words = "The text and the run are kept in this browser as they are changed, those of each tab by themselves, and found here again";
    if (left === null && works.since()) words = "This browser has no more room: what was changed after " + clock(works.since()) + " is not kept; " + ask;
    else if (left === null) words = "What is done here is not kept in this browser: save the chart before the page is closed";
    else if (left.length) words = "Not kept, as this browser has no room for it: " + left.join(", and ") + "; " + ask + ". The rest " + rest;
    find("kept-where").textContent = words + ". Nothing leaves this machine.";
    find("kept-where").className = isKept() ? "soft" : "alarm";
  }

  let waiting = 0;
  function soon() {
    clearTimeout(waiting);
    waiting = setTimeout(keep, 250);
  }

  // a text that is left for another can be had again; an example can be had by its name
  function leave(id, before, text) {
    const isExample = id === "text" && Object.values(examples).includes(before);
    if (before.trim() && before !== text && !isExample) {
      const title = id === "text" ? name : id;
      earlier = [{ name: title, text: before, field: id }, ...earlier.filter((one) => one.text !== before)].slice(0, mostEarlier);
    }
    list();
  }

  // so can one of which more than half went at once, as it does where all is marked and a letter typed
  function most(before, text) {
    const common = Math.min(before.length, text.length);
    let [start, end] = [0, 0];
    while (start < common && before[start] === text[start]) start += 1;
    while (end < common - start && before.at(-1 - end) === text.at(-1 - end)) end += 1;
    return before.trim().length > 20 && 2 * (start + end) < before.length;
  }
  ["text", "names", "prices", "scenario"].forEach((id) => {
    let before = "";
    find(id).addEventListener("beforeinput", () => {
      before = find(id).value;
    });
    find(id).addEventListener("input", () => {
      if (most(before, find(id).value)) leave(id, before, find(id).value);
      before = "";
    });
  });

  function replace(wanted, text) {
    leave("text", chart.field.value, text);
    named(wanted);
    chart.field.value = text;
    if (chart.check()) run.remade();
    keep();
  }

  // texts that this tab left, and works that no open tab has
  function list() {
    const title = ({ name, text }) => (name || "untitled") + ": " + text.slice(0, 40).replace(/\s+/g, " ");
    const group = (label, some, value) => {
      const one = made("optgroup", undefined, { label });
      one.append(...some.map((each, at) => new Option(title(each), value(each, at))));
      return some.length ? [one] : [];
    };
    find("earlier").replaceChildren(new Option("texts", ""), ...group("left in this tab", earlier, (_, at) => String(at)), ...group("works of closed tabs", closed, ({ from }) => from));
  }
  function listClosed() {
    return works.closed().then((some) => {
      closed = some;
      list();
    });
  }

  function again(which) {
    alarm.close();
    const one = earlier[Number(which)];
    if (one) return take(one.field ?? "text", one.name, one.text);
    keep();
    if (!isKept()) return say("This work is not kept whole: save it, or what is not kept of it is lost.");
    return works.turn(which);
  }

  // a text goes where it belongs: a scenario is run on the chart that is there, a chart gives an image names, and prices make a bill
  function take(id, title, text) {
    if (id === "text") return replace(title, text);
    leave(id, find(id).value, text);
    find(id).value = text;
    if (id === "prices") {
      find(id).dispatchEvent(new Event("input", { bubbles: true }));
    } else if (id === "names") {
      chart.name();
      if (chart.check()) run.remade();
      find("named").scrollIntoView({ block: "nearest" });
    } else {
      run.play();
      find("played").scrollIntoView({ block: "nearest" });
    }
    return keep();
  }

  // the text before a slip is had back, and the slip can be had again
  find("before").addEventListener("click", () => {
    replace(name, chart.acceptedText());
    chart.field.focus();
  });

  function example(wanted) {
    replace(wanted, examples[wanted]);
    run.fresh(mostPlaces);
  }

  // the page as this tab left it, or as a closed one did, or the first example; what an address shows waits for nothing that was kept
  async function begin() {
    const [came] = performance.getEntriesByType("navigation");
    // a page that is loaded again, or come back to, goes on as it was left, whatever its address
    const addressed = (!came || came.type === "navigate") && asked().get("example") !== null;
    if (addressed) lay(null);
    const found = await works.begin(addressed);
    if (!addressed) lay(found);
    begun = true;
    chart.field.readOnly = false;
    keep();
    await listClosed();
  }
  function lay(found) {
    const kept = found?.readable ? found : null;
    const first = Object.keys(examples)[0];
    earlier = kept ? kept.earlier : [];
    list();
    named(kept ? kept.name : first);
    if (kept?.comparison) comparison.restore(kept.comparison);
    if (kept) {
      typed.forEach((id) => {
        find(id).value = kept[id];
      });
      run.hold(kept.held);
    }
    chart.name();
    // of a text that is not accepted the chart before the slip comes first
    for (const text of kept ? [kept.accepted, kept.text].slice(kept.accepted ? 0 : 1) : [examples[first]]) {
      chart.field.value = text;
      chart.check();
    }
    run.remade();
    if (kept) run.restore({ words: kept.words, swaps: kept.swaps, places: kept.places }, kept.shown);
    run.show(run.shown());
    if (found?.damaged) alarm.show("What this browser kept of the page is damaged: what cannot be read of it is passed over.");
    else if (found?.left.length) alarm.show("When this page was closed this browser had no room for all of it. Not kept: " + found.left.join(", and ") + ".");
    if (!kept) follow();
  }

  // an address that ends with #example=bore.txt&words=bore*3,-&places=2&tick=2 shows that; in it a + joins names, and is no space
  const asked = () => new URLSearchParams(location.hash.slice(1).replaceAll("+", "%2B"));
  function follow() {
    const wanted = asked().get("example");
    if (wanted === null) return;
    if (!Object.hasOwn(examples, wanted)) return alarm.show("The address: there is no example " + wanted);
    replace(wanted, examples[wanted]);
    run.fresh(Math.trunc(Number(asked().get("places") ?? mostPlaces)) || 0);
    const words = asked().get("words");
    const wrong = words ? run.feed(words) : undefined;
    if (wrong !== undefined) alarm.show("The words of the address: " + wrong);
    const tick = parseInt(asked().get("tick"), 10);
    if (!Number.isNaN(tick)) run.show(tick);
    shownRun = JSON.stringify(run.script());
  }
  window.addEventListener("hashchange", () => {
    alarm.close();
    follow();
  });

  // a tab that was closed just now may have its lock a moment longer
  window.addEventListener("focus", () => setTimeout(listClosed, 300));
  find("earlier").addEventListener("pointerenter", listClosed);
  window.addEventListener("pagehide", keep);
  window.addEventListener("beforeunload", (event) => {
    keep();
    if (!isKept() && chart.field.value.trim()) event.preventDefault();
  });
  run.onChange(soon);
  typed.forEach((id) => find(id).addEventListener("input", soon));
  return { begin, soon, take, again, example, examples, name: () => name };
})();
