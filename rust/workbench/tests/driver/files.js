// Files of all sorts: what is said of each, and that those that are no text leave the text as it is.
parts.files = async () => {
  const markup = "<img src=x onerror=broken()>";
  window.broken = () => note("broken", "a name was markup");
  for (const { name, bytes, checked } of asked.files) {
    const before = find("text").value;
    await files.open(new File([decode(bytes)], name + markup));
    const unable = find("unable").hidden ? "" : find("fault").textContent;
    const said = unable ? unable.split(name + markup + ": ")[1] : find("checked").textContent;
    note("file", name + "|" + (said === checked) + "|" + (find("text").value === before));
  }
  // two files at once: the first is opened, and it is said that the other was not
  const both = new DataTransfer();
  ["home.txt", "bore.txt"].forEach((name) => both.items.add(new File(["scheme 1\nbegin -> end\nend\n"], name)));
  document.body.dispatchEvent(new DragEvent("drop", { dataTransfer: both, bubbles: true, cancelable: true }));
  await new Promise((then) => setTimeout(then, 200));
  note("two dropped", find("name").textContent + "|" + find("said").textContent);
  choose("examples", "bore.txt");
  type(find("text"), find("text").value.replace("lower:", markup));
  type(find("prices"), markup);
  note("repeated", [find("checked").textContent.includes("<img"), find("bill").textContent.includes("<img"), document.title.includes("img"), document.images.length].join("|"));
};

// All that can be saved, and whether the page's policy lets it be.
parts.saves = async () => {
  const violations = [];
  document.addEventListener("securitypolicyviolation", (event) => violations.push(event.violatedDirective));
  const saved = saving();
  choose("examples", "bore.txt");
  rest();
  for (let tick = 0; tick < 3; tick += 1) press("ArrowRight", "ArrowRight");
  for (const what of ["text", "lines", "image", "report", "vcd", "words", "picture"]) {
    choose("save", what);
    note("saved " + what, await saved.pop().text());
  }
  find("places").value = "2";
  find("places").dispatchEvent(new Event("change"));
  choose("examples", "bore.txt");
  note("places of an example", find("places").value + "|" + find("counter").textContent);
  // a drawing that was patched is the one that is made at once
  type(find("text"), find("text").value.replaceAll("hole", "a_longer_name"));
  const patch = find("sheet").firstElementChild.innerHTML;
  bench.give(find("text").value);
  const whole = made("div");
  whole.innerHTML = bench.ask("check").piece.drawing;
  const bare = (one) => one.replace(/ (lit|open|now|next|never)(?=[ "])/g, "").replace(/tabindex="0"/g, 'tabindex="-1"').replace(/\s+/g, " ");
  note("patched", String(bare(patch) === bare(whole.firstElementChild.innerHTML)) + "|" + patch.includes("a_longer_name"));
  for (const end of ["example=roughing.txt&words=wood*3,-&places=2&tick=2", "example=bore.txt&words=bore*2,bor", "example=none.txt"]) {
    const changed = new Promise((then) => window.addEventListener("hashchange", then, { once: true }));
    location.hash = "#" + end;
    await changed;
    note("address", [find("counter").textContent, find("places").value, bench.text("words"), find("fault").textContent.split("\n")[0]].join("|"));
  }
  await new Promise((then) => setTimeout(then, 500));
  note("violations", violations.join(" "));
};
