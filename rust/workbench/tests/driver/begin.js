// The parts that are asked for, as soon as the page has begun.
const report = () => document.body.append(made("pre", found.join("\n@"), { id: "found" }));
const begin = async () => {
  while (find("text").readOnly) await new Promise((then) => setTimeout(then, 5));
  for (const part of asked.parts) await parts[part]();
  report();
};
begin().catch((error) => {
  note("failed", error.stack);
  report();
});
