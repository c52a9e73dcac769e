// Files that are opened and saved, and the lists of the head.
const files = (() => {
  // the text of a file; of one that is no text it is told why, and nothing else happens
  async function read(file) {
    let bytes;
    try {
      // one that is too long is told by its first bytes
      bytes = new Uint8Array(await file.slice(0, bench.ask("longest") + 1).arrayBuffer());
    } catch (error) {
      alarm.show(file.name + ": the file cannot be read");
      return null;
    }
    bench.give(bytes);
    const readable = bench.ask("readable");
    if (!readable.done) {
      alarm.show(readable, file.name + ": ");
      return null;
    }
    alarm.close();
    return bytes;
  }
  const decoded = (bytes) => new TextDecoder("utf-8", { ignoreBOM: true }).decode(bytes);

  async function open(file) {
    const bytes = await read(file);
    if (bytes === null) return;
    bench.give(bytes);
    if (bench.ask("holds_scenario")) {
      store.take("scenario", file.name, new TextDecoder().decode(bytes));
      return;
    }
    store.take("text", file.name, decoded(bytes));
    // an editor changes what cannot be seen, ends of lines above all: what is to be said of the file itself is said
    bench.give(bytes);
    const told = bench.ask("words_of");
    const words = told.done ? told.text : told.problem;
    if (words !== find("checked").textContent) alarm.show(told.done ? words : told, "As it stands in the file, " + file.name + ": ");
    say(file.name + " is open: " + find("checked").textContent.split("\n")[0]);
  }

  // a chart that gives the image names
  async function openNames(file) {
    const bytes = await read(file);
    if (bytes === null) return;
    store.take("names", file.name, decoded(bytes));
    say(file.name + ": " + find("named").textContent.split("\n")[0]);
  }

  function download(file, content, type) {
    const link = made("a", undefined, { download: file, href: URL.createObjectURL(new Blob([content], { type })) });
    link.click();
    setTimeout(() => URL.revokeObjectURL(link.href), 10000);
    say(file + " is saved where the browser puts what is saved.");
  }

  // the drawing by itself, with the style that it has here
  function picture() {
    const rules = Array.from(document.styleSheets[0].cssRules, (rule) => rule.cssText).filter((rule) => rule.startsWith("svg"));
    const svg = find("sheet").querySelector("svg").cloneNode(true);
    svg.querySelectorAll("[tabindex]").forEach((one) => ["tabindex", "role", "aria-label"].forEach((attribute) => one.removeAttribute(attribute)));
    const style = document.createElementNS(svg.namespaceURI, "style");
    style.textContent = rules.join("\n");
    svg.prepend(style);
    return new XMLSerializer().serializeToString(svg);
  }

  function save(what) {
    const name = store.name() || "chart";
    const stem = name.replace(/\.[^.]*$/, "");
    if (what === "text") return download(store.name() || "chart.txt", chart.field.value, "text/plain");
    if (chart.accepted() === null) return say("There is no accepted chart or image to save.");
    if (what === "picture") return download(stem + ".svg", picture(), "image/svg+xml");
    if (what === "words") return download(stem + ".words", bench.text("words").split(",").join("\n") + "\n", "text/plain");
    const scenario = { scenario: 0, expecting: 1 }[what];
    bench.give(name);
    const told = scenario === undefined ? bench.ask(what) : bench.ask("scenario", scenario);
    const laid_out = chart.accepted().place === "label" ? ".list.txt" : ".notation.txt";
    const ending = { lines: ".chart", image: ".image", laid_out, report: ".trace.txt", vcd: ".vcd" }[what] ?? ".scenario";
    return told.done ? download(stem + ending, told.text, "text/plain") : say(told.problem);
  }

  // an arrow key opens the list, where it would choose the first of it at once
  const opens = (event) => {
    if (event.key !== "ArrowDown" && event.key !== "ArrowUp") return;
    try {
      event.target.showPicker();
      event.preventDefault();
    } catch (error) {
      // a browser that cannot open it does what it does
    }
  };
  const picked = (id, act) => {
    find(id).addEventListener("keydown", opens);
    find(id).addEventListener("change", (event) => {
      const value = event.target.value;
      event.target.value = "";
      if (value !== "") act(value);
    });
  };
  find("examples").append(...Object.keys(store.examples).map((one) => new Option(one, one)));
  picked("examples", (one) => {
    alarm.close();
    store.example(one);
  });
  picked("earlier", store.again);
  picked("save", save);
  const chooses = (button, input, act) => {
    find(button).addEventListener("click", () => find(input).click());
    find(input).addEventListener("change", (event) => {
      if (event.target.files[0]) act(event.target.files[0]);
      event.target.value = "";
    });
  };
  chooses("open", "file", open);
  chooses("names-open", "names-file", openNames);
  find("print").addEventListener("click", () => window.print());
  // a file is opened wherever it is dropped, one that is dropped on the names gives these; a text that is dragged goes where it is dropped
  const isFile = (event) => event.dataTransfer.types.includes("Files");
  document.addEventListener("dragover", (event) => isFile(event) && event.preventDefault());
  document.addEventListener("drop", (event) => {
    if (!isFile(event)) return;
    event.preventDefault();
    const [first, ...others] = event.dataTransfer.files;
    const act = find("naming").contains(event.target) ? openNames : open;
    if (first) act(first).then(() => others.length && say(find("said").textContent + " One file is opened at a time: the others were left."));
  });
  return { open, openNames, save };
})();
