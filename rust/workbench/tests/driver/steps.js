// The steps of a person: ticks, conditions, and back and forth.
parts.steps = () => {
  choose("examples", "bore.txt");
  note("example", find("checked").textContent.split("\n")[0]);
  rest();
  for (let tick = 0; tick < 4; tick += 1) {
    press("ArrowRight", "ArrowRight");
    note("step", shown());
  }
  // condition 3 by its key, for one tick alone, and held
  press("1", "Digit1", { altKey: true });
  note("once", find("word").textContent);
  press("ArrowRight", "ArrowRight");
  note("step", shown());
  note("spent", find("word").textContent);
  press("1", "Digit1");
  note("held", find("word").textContent);
  for (let tick = 0; tick < 5; tick += 1) press("ArrowRight", "ArrowRight");
  note("far", shown());
  press("ArrowLeft", "ArrowLeft");
  note("back", shown());
  press("Home", "Home");
  note("home", shown());
  for (const key of ["c", "o", "o", "d"]) {
    press(key, "Key" + key.toUpperCase());
    note("sought", document.body.dataset.tick + "|" + find("said").textContent);
  }
  press("c", "KeyC", { shiftKey: true });
  note("sought", document.body.dataset.tick);
  press("Home", "Home");
  find("wanted").selectedIndex = 4;
  find("find").click();
  note("sought output", [find("wanted").selectedOptions[0].textContent, document.body.dataset.tick].join("|"));
  find("wanted").selectedIndex = 0;
  document.querySelector("#sheet #n2").dispatchEvent(new MouseEvent("click", { bubbles: true }));
  note("node", shown());
  note("why", find("why").textContent.split("\n")[0]);
  press("k", "KeyK");
  note("kept", find("compared").textContent);
  press("Home", "Home");
  press("x", "KeyX");
  note("cut", find("counter").textContent + "|" + find("compared").textContent.split("\n")[0]);
  press("1", "Digit1");
  for (let tick = 0; tick < 8; tick += 1) press("ArrowRight", "ArrowRight");
  note("compared", find("compared").textContent);
  press("u", "KeyU");
  note("undone", find("counter").textContent);
  press("u", "KeyU", { shiftKey: true });
  note("done again", find("counter").textContent);
  press("u", "KeyU");
  note("undone again", find("counter").textContent);
  type(find("prices"), "drill 150\nprobe_down 50\n");
  note("price", find("bill").textContent);
  type(find("prices"), "dril 150\n");
  note("no price", find("bill").textContent.split("\n")[0]);
  choose("places", "1");
  note("refused", find("counter").textContent);
  note("compared refusal", find("compared").textContent);
  press("r", "KeyR");
  note("refusal", document.body.dataset.tick + "|" + find("refusal").textContent);
  choose("places", "0");
  note("no places", find("said").textContent.split("\n")[0]);
  choose("places", "2");
  note("places", find("counter").textContent);
  note("table", Array.from(find("ticks").tBodies[0].rows, (row) => row.cells[4].textContent).join(" "));
  note("lines", Array.from(document.querySelectorAll("#graph svg"), (one) => one.getAttribute("aria-label")).join("; "));
  type(find("feed"), "12x");
  find("fed").click();
  note("no words", find("said").textContent);
  type(find("feed"), "0,0,8");
  find("fed").click();
  note("fed", find("counter").textContent);
  find("undo").click();
  find("many").click();
  note("many", find("counter").textContent);
  find("undo").click();
  note("not fed", find("counter").textContent);
  // after a refused tick no more are made, and it is said
  choose("places", "1");
  find("fed").click();
  note("ended", find("said").textContent);
  // a tick box takes no letters: the keys go on
  find("left").click();
  find("left").focus();
  press("ArrowLeft", "ArrowLeft");
  note("at a tick box", document.activeElement.id + "|" + find("counter").textContent);
  // a condition that is held is no part of the word of a chart that does not test it, and stays for one that does
  rest();
  const words = ["bore.txt", "roughing.txt", "bore.txt"].map((example, at) => {
    choose("examples", example);
    if (at === 0) press("1", "Digit1");
    return find("word").textContent;
  });
  note("held elsewhere", words.join("|"));
};

parts.swaps = () => {
  choose("examples", "swapped.txt");
  rest();
  press("ArrowRight", "ArrowRight");
  note("served", Array.from(find("number").options, (one) => one.textContent).join(" "));
  find("number").selectedIndex = 0;
  find("server").selectedIndex = 1;
  find("swap").click();
  const swapped = () => Array.from(find("swaps").children, (one) => one.firstChild.textContent.trim()).join(";");
  note("swaps", swapped());
  for (let tick = 0; tick < 6; tick += 1) press("ArrowRight", "ArrowRight");
  note("swapped", Array.from(find("ticks").tBodies[0].rows, (row) => row.cells[5].textContent).join("|"));
  type(find("prices"), "spindle 100\n");
  // a line of the table is a line, however narrow
  find("bill").style.width = "10rem";
  note("bill lines", find("bill").scrollWidth > find("bill").clientWidth);
  find("bill").style.width = "";
  note("parts", find("bill").textContent.split("\n").slice(-3).join("|"));
  // the call that another scheme serves has a line of its own while its tick is shown
  const line = () => document.querySelector("#sheet .served");
  run.show(1);
  note("served line", line().querySelector("title").textContent + "|" + line().querySelector("path").getTotalLength().toFixed(0).replace(/[0-9]+/, (long) => String(long > 10)));
  type(find("text"), find("text").value + "# more\n");
  run.show(2);
  note("no served line", String(line() === null));
  // a swap is undone, and done again; of two each is taken back by itself, and the ticks stay
  rest();
  const happens = () => Array.from(find("ticks").tBodies[0].rows, (row) => row.cells[5].textContent).join("|");
  press("u", "KeyU");
  note("swap undone", [swapped(), find("counter").textContent].join("|"));
  press("u", "KeyU", { shiftKey: true });
  find("number").selectedIndex = 0;
  find("server").selectedIndex = 0;
  find("swap").click();
  note("two swaps", swapped());
  run.show(2);
  find("swaps").querySelector("button").focus();
  find("swaps").querySelector("button").click();
  note("taken back", [swapped(), find("counter").textContent, happens().includes("finer"), document.activeElement.getAttribute("aria-label")].join("|"));
  find("undo").click();
  note("had back", [swapped(), happens().includes("finer")].join("|"));
  find("swaps").querySelectorAll("button")[1].click();
  find("swaps").querySelector("button").click();
  note("all taken back", [swapped(), find("swaps").children.length, document.activeElement.id].join("|"));
};

// what can be swapped is what the library lets be swapped
parts.offered = () => {
  choose("examples", "full_stack.txt");
  type(find("text"), find("text").value + "\nscheme 4 slow\nbegin -> wait\nwait: do y9 -> end\nend\n");
  note("offered", ["number", "server"].map((id) => Array.from(find(id).options, (one) => one.textContent).join(" ")).join("|"));
};
