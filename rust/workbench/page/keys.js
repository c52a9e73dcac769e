// Keys, and the beginning.
(() => {
  const isTyped = (one) => one.isContentEditable || one.matches("input:not([type=checkbox], #slider), textarea, select");
  const events = { c: 0, d: 1, r: 2, o: 3 };
  const plain = {
    ArrowRight: run.step,
    ArrowLeft: () => run.shown() > 0 && run.show(run.shown() - 1),
    Home: () => run.show(0),
    End: () => run.show(run.rows() - 1),
    x: () => find("anew").click(),
    n: () => find("clear").click(),
    u: (event) => find(event.shiftKey ? "redo" : "undo").click(),
    k: comparison.keep,
    e: () => chart.field.focus(),
    "?": () => find("help").showModal(),
  };

  function control(event) {
    const act = { o: () => find("file").click(), s: () => files.save("text"), Enter: event.target.id === "scenario" ? run.play : run.step }[event.key];
    if (!act) return;
    event.preventDefault();
    act();
  }

  // the condition of a digit: 1 is the first
  function digit(event) {
    const match = /^(?:Digit|Numpad)([0-9])$/.exec(event.code);
    const conditions = chart.accepted() ? chart.accepted().conditions : [];
    const condition = match && conditions[(Number(match[1]) + 9) % 10];
    if (condition) run.press(event.altKey ? "once" : "held", condition.number);
    return Boolean(condition);
  }

  document.addEventListener("keydown", (event) => {
    if (find("help").open) return;
    if (event.ctrlKey || event.metaKey) return control(event);
    if (event.key === "Escape" && alarm.close()) return undefined;
    if (event.key === "Escape" && event.target === chart.field) return find("sheet").focus();
    if (isTyped(event.target)) return undefined;
    if (!event.shiftKey && digit(event)) return event.preventDefault();
    if (event.altKey) return undefined;
    const key = event.key.length === 1 ? event.key.toLowerCase() : event.key;
    if (!(key in plain) && !(key in events)) return undefined;
    event.preventDefault();
    return key in events ? run.seek(events[key], !event.shiftKey) : plain[key](event);
  });
  find("help-button").addEventListener("click", () => find("help").showModal());

  // a run of so many words is made again only when the typing rests
  const manyWords = 2000;
  let resting = 0;
  function typed() {
    clearTimeout(resting);
    const accepted = guarded(chart.check);
    if (accepted && run.rows() > manyWords) resting = setTimeout(run.remade, 400);
    else if (accepted) run.remade();
    store.soon();
  }
  chart.field.addEventListener("input", typed);
  find("names").addEventListener("input", () => {
    guarded(chart.name);
    typed();
  });

  // a call that fails within the module: a new module takes its place, and nothing typed is lost
  function guarded(act) {
    try {
      return act();
    } catch (error) {
      if (!(error instanceof WebAssembly.RuntimeError)) throw error;
      failed(error);
      return false;
    }
  }
  function failed(error) {
    bench.again();
    chart.name();
    internal(error, "The text is kept; the run was begun anew.");
  }
  function internal(error, left) {
    alarm.show("internal error: " + error.message + "\n  look for: nothing in the chart: tell the makers of this program. " + left);
  }
  window.addEventListener("error", (event) => {
    if (!(event.error instanceof WebAssembly.RuntimeError)) return;
    failed(event.error);
    if (chart.check()) run.remade();
  });

  try {
    if (typeof WebAssembly !== "object") throw new Error("there is none");
    bench.begin(() => store.begin().catch(cannot), cannot);
  } catch (error) {
    cannot(error);
  }

  // a fault of the page's own is not told as one of the browser
  function cannot(error) {
    const lacks = typeof WebAssembly !== "object" || [WebAssembly.CompileError, WebAssembly.LinkError, RangeError].some((kind) => error instanceof kind);
    if (!lacks) return internal(error, "The text is kept.");
    return alarm.forever("This page needs a browser with WebAssembly, which this one does not run (" + error.message + "). Chromium, Firefox and Safari of the last years do.");
  }
})();
