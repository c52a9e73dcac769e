// Every text of the list by its bytes: what is said of it, and its report. An image has the names of a chart where one is given, or it is
// told why not.
parts.answers = () => {
  const differing = [];
  for (const { name, bytes, names, checked, words, places, traced, reason, paid } of asked.texts) {
    const wrong = (what, said, wanted) => differing.push(name + ": " + what + ": " + JSON.stringify(said) + " instead of " + JSON.stringify(wanted));
    bench.give(names ?? "");
    bench.told("name");
    bench.give(decode(bytes));
    const told = bench.ask("check");
    const said = told.problem ?? told.named.problem ?? told.words;
    if (said !== checked) wrong("check", said, checked);
    if (traced === null) continue;
    bench.give(words + "\n");
    bench.ask("restore", places);
    const report = bench.ask("report");
    if (report.text.trimEnd() !== traced) wrong("trace", report.text, traced);
    const why = bench.ask("why", Number(asked.tick));
    if ((why.text ?? why.problem).trimEnd() !== reason) wrong("why", why.text, reason);
    bench.give(asked.prices);
    const bill = bench.ask("bill");
    if (((bill.text ?? bill.problem).split("\n").find((line) => line.includes("to pay")) ?? "") !== paid) wrong("bill", bill.text, paid);
  }
  note("answers", asked.texts.length);
  differing.slice(0, 5).forEach((one) => note("different", one));
  note("differing", differing.length);
};
