// An image is stepped by its labels: the same ticks as of its chart.
parts.images = async () => {
  const words = "0,0,4,0,4,0,4,0,0,0,0,0,0,0,0,0,0";
  const ran = (example) => {
    choose("examples", example);
    rest();
    run.feed(words);
    return [bench.told("masks").join(), find("bill").textContent.split("\n").slice(-1)[0]].join();
  };
  note("same ticks", String(ran("roughing.txt") === ran("roughing.image")));
  note("drawn", ["node", "asked", "entry", "arc", "call"].map((kind) => document.querySelectorAll("#sheet svg ." + kind).length).join(" "));
  note("image checked", find("checked").textContent.split(":")[0] + "|" + find("checked").className + "|" + find("stale").hidden);
  press("Home", "Home");
  for (let tick = 0; tick < 4; tick += 1) {
    note("label", [shown(), lit("open"), find("node").textContent, find("stack").textContent].join("|"));
    press("ArrowRight", "ArrowRight");
  }
  note("label why", find("why").textContent.split("\n")[0]);
  note("label table", find("at-place").textContent + "|" + find("place-heading").textContent);
  note("label never", find("never").textContent.split("\n")[0]);
  press("Home", "Home");
  document.querySelector("#sheet #l3").dispatchEvent(new MouseEvent("click", { bubbles: true }));
  note("label visited", document.body.dataset.tick + "|" + document.body.dataset.node);
  type(find("prices"), "y0 150\ny1 35\n");
  note("label price", find("bill").textContent.trimEnd().split("\n").slice(-1)[0]);
  const saved = saving();
  for (const what of ["image", "vcd", "expecting", "laid_out"]) {
    choose("save", what);
    note("image saved " + what, await saved.pop().text());
  }
  choose("save", "lines");
  note("image saved lines", saved.length + "|" + find("said").textContent);
  type(find("scenario"), "- * 2\nx2 until output y2; expect at last only y0, y1, y2\n");
  find("play").click();
  note("image played", find("played").textContent.split("\n")[0] + "|" + find("counter").textContent);
  choose("places", "2");
  run.feed("4,4,4,4,4");
  press("End", "End");
  note("image refused", find("refusal").textContent.split("\n")[0]);
  find("left").click();
  note("label left", Array.from(document.querySelectorAll("#sheet .never"), (one) => one.id).join(" "));
  find("left").click();
  // a slip in a row: the drawing of the image before stays
  type(find("text"), find("text").value.replace("\n12", "\n13"));
  note("image slip", find("checked").textContent.split("\n")[0] + "|" + find("stale").hidden + "|" + document.querySelectorAll("#sheet #l3").length);
  choose("examples", "bore.txt");
  type(find("prices"), "");
  type(find("scenario"), "");
};

// An image takes the names of a chart: in buttons, lamps, table, words, scenarios and what is saved; of a chart that has other labels none, and
// that is told. Nothing of it is asked for while a chart lies there.
parts.names = async () => {
  choose("examples", "bore.txt");
  note("no names for a chart", String(find("naming").hidden));
  const chart = find("text").value;
  const patched = asked.patched;
  await files.open(new File([patched.image], "patched.image"));
  rest();
  note("asked for names", find("naming").hidden + "|" + find("conditions").textContent.includes("x2"));
  type(find("names"), chart);
  note("other labels", find("named").className + "|" + find("named").textContent.split("\n")[0] + "|" + find("conditions").textContent.includes("x2"));
  type(find("names"), "condition 3");
  note("no chart", find("named").className + "|" + find("named").textContent);
  await files.openNames(new File([patched.chart], "roughing.txt"));
  note("named", find("named").textContent + "|" + find("named").className + "|" + find("checked").className);
  note("named buttons", Array.from(document.querySelectorAll("#conditions [data-kind=held]"), (one) => one.textContent).join(" "));
  run.feed(patched.words);
  note("named lamps", Array.from(document.querySelectorAll("#lamps li"), (one) => one.textContent).join(" "));
  note("named drawing", [find("sheet").textContent.includes("4 begin"), find("sheet").textContent.includes("cutter_back")].join("|"));
  type(find("prices"), "spindle 150\n");
  note("named price", find("bill").textContent.trimEnd().split("\n").slice(-1)[0]);
  type(find("prices"), "");
  const saved = saving();
  for (const what of ["report", "expecting", "laid_out", "vcd"]) {
    choose("save", what);
    note("named " + what, await saved.pop().text());
  }
  type(find("scenario"), "- * 2\nwood until output feed; expect at last node cut\n");
  find("play").click();
  note("named scenario", find("played").textContent.split("\n")[0]);
  // what was given before is had again, and a chart of other labels leaves the image as it is
  await files.openNames(new File([chart], "bore.txt"));
  note("names of another", find("named").className + "|" + find("checked").className);
  choose("earlier", "0");
  note("names again", find("named").className + "|" + document.querySelector("#conditions [data-kind=held]").textContent);
  type(find("scenario"), "");
  choose("examples", "roughing.txt");
  note("hidden again", String(find("naming").hidden));
};
