// A slip while typing: the chart before it stays drawn, its run stays, and the text can be had again.
parts.slips = () => {
  const field = find("text");
  choose("examples", "bore.txt");
  rest();
  for (let tick = 0; tick < 6; tick += 1) press("ArrowRight", "ArrowRight");
  const [text, counter, drawing] = [field.value, find("counter").textContent, find("sheet").innerHTML.length];
  type(field, text.replace("-> look", "-> loook"));
  note("slip", find("checked").textContent.split("\n")[0]);
  note("stays", [find("counter").textContent === counter, find("sheet").innerHTML.length === drawing, find("stale").hidden, find("numbers").querySelector("b").textContent].join("|"));
  find("go").click();
  note("place", field.value.slice(field.selectionStart, field.selectionEnd).trim().slice(0, 30));
  type(field, text);
  note("mended", [find("counter").textContent === counter, find("stale").hidden, find("checked").className].join("|"));
  // back to the text before the slip, which is left as any other
  type(field, text.replace("-> look", "-> loook"));
  find("before").click();
  note("before the slip", [field.value === text, find("before").hidden, find("earlier").options[1].textContent.slice(0, 20), document.activeElement.id].join("|"));
  const own = "# of one's own\n" + text;
  type(field, own);
  choose("examples", "home.txt");
  choose("earlier", "0");
  note("earlier", String(find("text").value === own));
  type(field, "");
  note("empty", find("checked").textContent.split("\n")[0]);
  // the examples that are looked at take no place of what was typed, which can be had again
  type(field, own);
  Object.keys(store.examples).forEach((name) => choose("examples", name));
  note("earlier of all", find("earlier").options.length + "|" + find("earlier").options[1].textContent.slice(0, 24));
};

// The place of a fault is marked in the line that is quoted, however narrow: in what is said of the text, of a scenario, of prices and of a file.
parts.marks = async () => {
  choose("examples", "bore.txt");
  const marked = (id) => {
    const mark = find(id).querySelector("mark");
    const [before, after] = [mark.previousSibling.textContent, mark.nextSibling.textContent];
    const below = find(id).querySelector(".below");
    return [before.split("\n").at(-1) + "[" + mark.textContent + "]" + after.split("\n")[0], getComputedStyle(below).display, below.textContent.trim()].join("|");
  };
  find("checked").style.width = "6rem";
  type(find("text"), find("text").value.replace("-> look", "-> loook"));
  note("marked", marked("checked"));
  find("checked").style.width = "";
  // a letter beyond 16 bits is one character, and a line that ends too early is marked behind its end
  type(find("text"), "scheme 1 𝔸\nbegin -> 𝔸 end\nend\n");
  note("marked", marked("checked"));
  find("go").click();
  note("selected", find("text").value.slice(find("text").selectionStart, find("text").selectionEnd));
  type(find("text"), "scheme 1\nbegin ->\nend\n");
  note("marked", marked("checked") + "|" + find("checked").querySelector("mark").getBoundingClientRect().width.toFixed(0).replace(/[0-9]+/, (wide) => String(wide > 3)));
  choose("examples", "bore.txt");
  type(find("scenario"), "- * 2; expect dril\n");
  find("play").click();
  note("marked", marked("played"));
  type(find("prices"), "dril 150\n");
  note("marked", marked("bill"));
  type(find("prices"), "");
  await files.open(new File([decode(asked.latin)], "fraesen.txt"));
  note("marked", marked("fault"));
};

// A red box goes by its button, by Escape, by typing on and with the next file; the key that put it away does nothing else.
parts.boxes = async () => {
  const refuse = () => files.open(new File([new Uint8Array(40)], "zeros"));
  const box = () => find("unable").hidden + "|" + find("fault").textContent.split(":")[0];
  await refuse();
  note("box", box());
  find("unable-close").focus();
  find("unable-close").click();
  note("box", box() + "|" + document.activeElement.id);
  await refuse();
  find("text").focus();
  press("Escape", "Escape");
  note("box", box() + "|" + document.activeElement.id);
  press("Escape", "Escape");
  note("out of the text", document.activeElement.id);
  for (const id of ["text", "scenario", "prices"]) {
    await refuse();
    type(find(id), find(id).value);
    note("box", box());
  }
  await refuse();
  await files.open(new File(["scheme 1\nbegin -> end\nend\n"], "home.txt"));
  note("box", box());
};
