// The module that stands in this page, and its calls.
const find = (id) => document.getElementById(id);
const bench = (() => {
  let code = null;
  let calls = null;

  const packed = () => Uint8Array.from(atob(JSON.parse(find("module").textContent)), (one) => one.charCodeAt(0));

  // at once where the browser lets it be, else when it is ready; then goes on, or tells why it cannot
  function begin(then, cannot) {
    const bytes = packed();
    const ready = () => {
      again();
      then();
    };
    try {
      code = new WebAssembly.Module(bytes);
    } catch (error) {
      if (!(error instanceof RangeError)) throw error;
      WebAssembly.compile(bytes).then((compiled) => {
        code = compiled;
        ready();
      }).catch(cannot);
      return;
    }
    ready();
  }

  // one that failed within a call may hold anything: a new one takes its place, and the page hands it over all anew
  function again() {
    calls = new WebAssembly.Instance(code, {}).exports;
  }

  // bytes, or a text, are handed over before a call
  function give(given) {
    const bytes = typeof given === "string" ? new TextEncoder().encode(given) : given;
    const place = calls.room(bytes.length);
    new Uint8Array(calls.memory.buffer, place, bytes.length).set(bytes);
  }

  function told(name, ...values) {
    const length = calls[name](...values);
    return new Uint8Array(calls.memory.buffer, calls.told(), length).slice();
  }

  const text = (name, ...values) => new TextDecoder().decode(told(name, ...values));
  const ask = (name, ...values) => JSON.parse(text(name, ...values));
  return { begin, again, give, told, text, ask };
})();

// a new element with a text and attributes
function made(kind, content, attributes = {}) {
  const one = document.createElement(kind);
  if (content !== undefined) one.textContent = content;
  Object.entries(attributes).forEach(([name, value]) => one.setAttribute(name, value));
  return one;
}

function say(words) {
  find("said").textContent = words;
}

// words, or what the module says of a fault. In the line that this quotes the place is marked: the mark below it, which is there for who copies
// the words, would stand elsewhere where the line is wrapped
function tell(one, told, before = "") {
  const words = before + (told.problem ?? told);
  if (!told.excerpt || !told.column) {
    one.textContent = words;
    return;
  }
  const start = before + told.sentence + "\n    ";
  const line = Array.from(told.excerpt);
  const rest = words.slice(start.length + told.excerpt.length);
  const [below] = rest.match(/^\n *\^/);
  one.replaceChildren(start + line.slice(0, told.column - 1).join(""), made("mark", line[told.column - 1] ?? ""));
  one.append(line.slice(told.column).join(""), made("span", below, { class: "below" }), rest.slice(below.length));
}

// what went wrong, until it is put away or somebody types on; without a browser that can do it, it stays
const alarm = (() => {
  let stays = false;

  function show(told, before = "") {
    find("unable").hidden = false;
    find("unable-close").hidden = stays;
    tell(find("fault"), told, before);
    // wherever the page was scrolled to
    find("unable").scrollIntoView({ block: "nearest" });
  }

  function forever(words) {
    stays = true;
    show(words);
  }

  // whether there was one that could be put away
  function close() {
    const box = find("unable");
    if (box.hidden || stays) return false;
    const within = box.contains(document.activeElement);
    box.hidden = true;
    find("fault").textContent = "";
    if (within) find("sheet").focus();
    return true;
  }

  find("unable-close").addEventListener("click", close);
  document.addEventListener("input", (event) => event.target.matches("textarea") && close(), true);
  return { show, forever, close };
})();

// of the many things of a part one is in the order of the tab key, and from it arrows lead up and down to the others
function reached(part, things, one) {
  part.querySelectorAll(things + "[tabindex='0']").forEach((other) => other.setAttribute("tabindex", "-1"));
  (one ?? part.querySelector(things))?.setAttribute("tabindex", "0");
}
function reaches(part, things) {
  part.addEventListener("keydown", (event) => {
    const by = { ArrowDown: 1, ArrowUp: -1 }[event.key];
    const from = event.target.closest(things);
    if (!by || !from) return;
    event.preventDefault();
    const all = Array.from(part.querySelectorAll(things));
    const to = all[all.indexOf(from) + by];
    if (!to) return;
    reached(part, things, to);
    to.focus();
  });
}
