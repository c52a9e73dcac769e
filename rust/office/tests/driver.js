"use strict";
(() => {
  const find = (id) => document.getElementById(id);
  const ids = (selector) => Array.from(document.querySelectorAll(selector)).map((one) => one.id);
  const text = (id) => find(id).textContent.trim().replace(/\s+/g, " ");
  const log = [];

  // what is lit and shown now
  function note() {
    log.push([
      document.body.dataset.tick,
      ids("svg .lit").join(" "),
      ids("svg .open").sort().join(" "),
      ids("svg .now").sort().join(" "),
      Array.from(find("stack").children).map((item) => item.dataset.node).join(" "),
      Array.from(find("stack").children).map((item) => item.querySelector("b").textContent).join(", "),
      text("outputs"),
      text("results"),
      ids("#ticks .current").join(" "),
      find("slider").value,
      location.hash,
      find("at").value,
      text("depth"),
    ].join("|"));
  }

  function key(name, target) {
    target.dispatchEvent(new KeyboardEvent("keydown", { key: name, bubbles: true, cancelable: true }));
    note();
  }

  function click(one) {
    one.dispatchEvent(new MouseEvent("click", { bubbles: true }));
    note();
  }

  const last = Number(find("slider").max);
  note();
  // half of the keys go to the slider, as they do when it has the focus
  for (let step = 0; step <= last; step += 1) key("ArrowRight", step % 2 ? document.body : find("slider"));
  key("Home", document.body);
  key("End", document.body);
  key("ArrowLeft", find("slider"));
  key("PageUp", document.body);
  find("slider").value = String(Math.floor(last / 2));
  find("slider").dispatchEvent(new Event("input", { bubbles: true }));
  note();
  click(find("tick-2"));
  click(find("forward"));
  click(find("back"));
  click(document.querySelector("svg .lit"));

  // keys that the page does not take, and one in a field
  const left = (name, target) => {
    const event = new KeyboardEvent("keydown", { key: name, bubbles: true, cancelable: true });
    target.dispatchEvent(event);
    return event.defaultPrevented;
  };
  const found = [];
  const prevented = ["Home", "End", "PageUp", "PageDown", "ArrowUp"].filter((name) => left(name, document.body));
  found.push("prevented=" + prevented.join(" "));
  find("tick-2").click();
  const field = document.createElement("input");
  document.body.append(field);
  left("ArrowRight", field);
  field.remove();
  found.push("typed=" + document.body.dataset.tick);
  left("Enter", find("tick-3"));
  found.push("entered=" + document.body.dataset.tick);
  find("at").value = "4";
  find("at").dispatchEvent(new Event("change", { bubbles: true }));
  found.push("field=" + document.body.dataset.tick);
  // a number past the end, at the end
  find("tick-" + last).click();
  find("at").value = "99999";
  find("at").dispatchEvent(new Event("change", { bubbles: true }));
  found.push("past=" + document.body.dataset.tick + " " + find("at").value);
  found.push("spaces=" + getComputedStyle(find("why")).whiteSpace);
  // the ticks in which an output's line is high
  document.querySelectorAll("#graph div").forEach((row) => {
    const levels = row.querySelector("path").getAttribute("d").match(/(?<=[MV](?:0 )?)[19](?=H)/g);
    const high = levels.map((level, tick) => (level === "1" ? tick : -1)).filter((tick) => tick >= 0);
    found.push("line=" + row.textContent + " " + high.join(","));
  });
  found.push("graph=" + (document.querySelector("#graph div") ? "" : text("graph")));
  find("tick-2").click();
  found.push("why=" + find("why").textContent.split("\n")[0]);
  // each search, begun at the last tick, until it has come round twice; what is told stands behind the tick
  Array.from(find("wanted").options).forEach((option) => {
    find("tick-" + last).click();
    find("wanted").value = option.value;
    const ticks = [];
    for (let rounds = 0; rounds < 2; ) {
      const before = Number(document.body.dataset.tick);
      find("find").click();
      const tick = Number(document.body.dataset.tick);
      if (tick <= before) rounds += 1;
      ticks.push(tick + text("sought"));
    }
    find("tick-" + (last - 1)).click();
    found.push("sought=" + option.value + "|" + ticks.join("|") + "|" + text("sought"));
  });
  find("find").click();
  found.push("lost=" + [find("wanted").disabled, find("find").disabled, text("sought"), document.body.dataset.tick].join("|"));
  const reached = Array.from(document.querySelectorAll("#ticks tbody tr[tabindex], svg g.node[tabindex]"));
  found.push("reached=" + reached.length);
  const controls = Array.from(document.querySelectorAll("[tabindex], button, input"));
  const name = (one) => one.getAttribute("aria-label") || one.textContent.trim() || one.closest("label");
  found.push("unnamed=" + controls.filter((one) => !name(one)).length);
  found.push("fixed=" + document.querySelectorAll("header #refusal").length);

  // the contrast of every text with what it stands on
  const parts = (color) => (color.match(/[\d.]+/g) || []).map(Number);
  const light = (color) => {
    const [r, g, b] = parts(color).map((part) => part / 255).map((p) => (p <= 0.04045 ? p / 12.92 : ((p + 0.055) / 1.055) ** 2.4));
    return 0.2126 * r + 0.7152 * g + 0.0722 * b;
  };
  const ground = (one) => {
    if (one.closest("svg")) {
      const shape = one.closest("g.node")?.querySelector("polygon, path, ellipse");
      return shape ? getComputedStyle(shape).fill : "rgb(243, 245, 248)";
    }
    for (let at = one; at; at = at.parentElement) {
      const color = getComputedStyle(at).backgroundColor;
      if (parts(color)[3] !== 0) return color;
    }
    return "rgb(255, 255, 255)";
  };
  let faintest = [21, ""];
  for (const tick of [0, 1, 2, Math.floor(last / 2), last]) {
    find("tick-" + tick).click();
    const walker = document.createTreeWalker(document.body, NodeFilter.SHOW_TEXT);
    while (walker.nextNode()) {
      const one = walker.currentNode.parentElement;
      if (!walker.currentNode.textContent.trim() || one.closest("script, title, noscript")) continue;
      const style = getComputedStyle(one);
      const pair = [light(one.closest("svg") ? style.fill : style.color), light(ground(one))].sort((a, b) => b - a);
      const ratio = (pair[0] + 0.05) / (pair[1] + 0.05);
      if (ratio < faintest[0]) faintest = [ratio, walker.currentNode.textContent.trim() + " at tick " + tick];
    }
  }
  found.push("contrast=" + faintest[0].toFixed(2) + " " + faintest[1]);
  const told = document.createElement("pre");
  told.id = "found";
  told.textContent = found.join("\n");
  document.body.append(told);

  const shown = document.createElement("pre");
  shown.id = "log";
  shown.textContent = log.join("\n");
  document.body.append(shown);
})();
