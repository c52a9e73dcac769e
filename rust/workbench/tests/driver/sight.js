// Each text of the page on its ground, in all that the page comes to; what has no name, or one that another has; what is wider than the page.
parts.sight = async () => {
  const parts = (color) => (color.match(/[\d.]+/g) || []).map(Number);
  const light = (color) => {
    const [r, g, b] = color.map((part) => part / 255).map((p) => (p <= 0.04045 ? p / 12.92 : ((p + 0.055) / 1.055) ** 2.4));
    return 0.2126 * r + 0.7152 * g + 0.0722 * b;
  };
  const ground = (one) => {
    const shape = one.closest("svg") && one.closest("g.node")?.querySelector("polygon, path");
    if (shape) return getComputedStyle(shape).fill;
    if (one.closest("svg")) return "rgb(243, 245, 248)";
    for (let at = one; at; at = at.parentElement) {
      const color = getComputedStyle(at).backgroundColor;
      if (parts(color)[3] !== 0) return color;
    }
    return "rgb(255, 255, 255)";
  };
  // what shines through is white
  const through = (one) => {
    let opacity = 1;
    for (let at = one; at; at = at.parentElement) opacity *= Number(getComputedStyle(at).opacity);
    return (color) => parts(color).slice(0, 3).map((part) => opacity * part + (1 - opacity) * 255);
  };
  let faintest = [21, ""];
  let [texts, wide, unnamed, twice] = [0, [], [], []];
  const name = (one) => one.getAttribute("aria-label") || one.getAttribute("aria-labelledby") || one.textContent.trim() || one.closest("label") || document.querySelector("label[for='" + one.id + "']");
  const look = (state) => {
    const walker = document.createTreeWalker(document.body, NodeFilter.SHOW_TEXT);
    while (walker.nextNode()) {
      const one = walker.currentNode.parentElement;
      if (!walker.currentNode.textContent.trim() || one.closest("script, title, noscript, option")) continue;
      const style = getComputedStyle(one);
      const seen = through(one);
      const pair = [light(seen(one.closest("svg") ? style.fill : style.color)), light(seen(ground(one)))].sort((a, b) => b - a);
      const ratio = (pair[0] + 0.05) / (pair[1] + 0.05);
      texts += 1;
      if (ratio < faintest[0]) faintest = [ratio, state + ": " + walker.currentNode.textContent.trim()];
    }
    const controls = Array.from(document.querySelectorAll("[tabindex], button, input, select, textarea"));
    unnamed.push(...controls.filter((one) => !name(one)).map((one) => one.outerHTML));
    const ids = Array.from(document.querySelectorAll("[id]"), (one) => one.id);
    twice.push(...ids.filter((id, at) => ids.indexOf(id) !== at));
    if (document.documentElement.scrollWidth > document.documentElement.clientWidth) wide.push(state);
  };
  look("new");
  choose("examples", "swapped.txt");
  find("left").click();
  find("swap").click();
  run.feed("count");
  press("k", "KeyK");
  type(find("prices"), "spindle 100\n");
  type(find("scenario"), "- * 3\n");
  find("play").click();
  look("a run");
  choose("places", "1");
  press("End", "End");
  look("a refused tick");
  await files.open(new File([new Uint8Array(40)], "zeros"));
  look("a refused file");
  type(find("text"), find("text").value.replace("->", "-> no_such_node"));
  type(find("scenario"), "no such\n");
  find("play").click();
  type(find("prices"), "no such\n");
  look("slips");
  choose("examples", "roughing.image");
  type(find("names"), "no such\n");
  look("an image");
  find("help").showModal();
  look("the keys");
  find("help").close();
  note("contrast", faintest[0].toFixed(2) + " " + faintest[1]);
  note("texts", texts);
  note("unnamed", unnamed.join(" "));
  note("twice", twice.join(" "));
  note("wider", wide.join());
  note("loaded", String(performance.getEntriesByType("resource").length));
};
