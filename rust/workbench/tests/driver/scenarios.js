// Scenarios that are typed, and that are opened as files: what is said of each, and the scenario of its run; one at fault leaves the run as
// it is.
parts.scenarios = async () => {
  for (const { chart: example, bytes, verdict, saved } of asked.scenarios) {
    choose("examples", example);
    rest();
    press("ArrowRight", "ArrowRight");
    const [text, counter] = [find("text").value, find("counter").textContent];
    if (verdict.startsWith("passed")) {
      await files.open(new File([decode(bytes)], "a.scenario"));
    } else {
      type(find("scenario"), new TextDecoder().decode(decode(bytes)));
      find("play").click();
    }
    const said = find("played").textContent.trimEnd() === verdict;
    bench.give("x");
    const written = bench.ask("scenario", 1).text.split("\n").slice(1).join("\n");
    const run = saved === null ? find("counter").textContent === counter : written === saved;
    note("scenario", [said, run, find("text").value === text].join("|") + (said && run ? "" : " " + find("played").textContent + " instead of " + verdict + written));
  }
  choose("examples", "bore.txt");
  choose("places", "32");
  type(find("scenario"), "places 2\n- * 4\nbore * 3; expect at last node hole\n");
  find("play").click();
  note("played", [find("played").textContent, find("counter").textContent, find("places").value, find("played").className].join("|"));
  find("undo").click();
  note("left", [find("counter").textContent, find("places").value, find("played").className].join("|"));
  await files.open(new File(["- * 2; expect nothing\n"], "b.scenario"));
  note("replaced", find("scenario").value + find("counter").textContent);
  choose("earlier", "0");
  note("had again", find("scenario").value.split("\n")[0] + "|" + find("counter").textContent);
};
