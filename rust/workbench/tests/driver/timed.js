// How long a key takes on the largest chart, from the letter to a page that is laid out.
parts.timed = () => {
  type(find("text"), asked.large);
  rest();
  press("ArrowRight", "ArrowRight");
  const time = (act) => {
    const begun = performance.now();
    act();
    document.body.getBoundingClientRect();
    find("sheet").querySelector("svg").getBBox();
    return performance.now() - begun;
  };
  // work of a known size beside each key: what that takes longer than on a quiet machine, so does the key; in short calls, as one long
  // loop may be left as it was compiled first, five times as slow, whatever else the machine does
  let sum = 1;
  const call = 10000;
  const summed = (from) => {
    let own = from;
    for (let at = 0; at < call; at += 1) own = (Math.imul(own, 31) + at) | 0;
    return own;
  };
  const known = () => {
    for (let at = 0; at < asked.known; at += call) sum = summed(sum);
  };
  for (let warm = 0; warm < 5; warm += 1) known();
  // of some keys the middle one and the quickest, as a machine that has other work is slow at times, and the middle of the known work
  const sorted = (times) => times.sort((a, b) => a - b);
  const middle = (times) => sorted(times)[Math.trunc(times.length / 2)];
  const timed = (name, act) => {
    const rounds = Array.from({ length: 15 }, (_, round) => [time(known), time(() => act("x".repeat(round + 1)))]);
    const [works, keys] = [0, 1].map((at) => rounds.map((both) => both[at]));
    note(name, [middle(keys), sorted(keys)[0], middle(works)].map((one) => one.toFixed(1)).join("|"));
  };
  timed("letter", (more) => type(find("text"), asked.large.replaceAll("box_1_1", "box" + more)));
  timed("comment", (more) => type(find("text"), asked.large + "# " + more));
  timed("step", () => press("ArrowRight", "ArrowRight"));
  note("sum", sum);
  note("nodes", document.querySelectorAll("#sheet g.node").length);
  choose("examples", "roughing.txt");
  type(find("feed"), "random:3");
  find("feed-times").value = "65536";
  const begun = performance.now();
  find("fed").click();
  note("long", find("counter").textContent + "|" + (performance.now() - begun).toFixed(0));
};
