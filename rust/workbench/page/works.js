// Where works are kept. A work is what a tab holds: its text, its run, and what was left. Each has a place of its own in this browser, and no
// two tabs have the same: a lock says which places open tabs have. Where a browser has no locks a new tab takes up the latest work, and who
// had that finds the other's sign there, and goes on in a new place. So nothing that one tab keeps is written over by another.
const works = (() => {
  const all = "fairleadow-workbench";
  const patience = 500;
  const unlike = () => Date.now().toString(36) + Math.random().toString(36).slice(2);
  // this page, as long as it is loaded
  const sign = '{"sign":"' + unlike() + '",';
  const fresh = () => all + " " + unlike();
  let place = null;
  let release = () => {};
  let since = null;

  // what a work has, with what it has where nothing was kept of it
  const kinds = { name: "", text: "", accepted: "", names: "", prices: "", scenario: "", feed: "random:1", words: "", swaps: "", held: 0, shown: -1, places: 32, at: 0, passing: false };
  const compared = ["text", "names", "words", "swaps", "places"];

  // what is kept at a place, or null; parts of it that are damaged are passed over
  function read(from) {
    const text = localStorage.getItem(from);
    if (text === null) return null;
    let kept = null;
    try {
      kept = JSON.parse(text);
    } catch (error) {
      // of what is cut off nothing can be read
    }
    const parts = Object.entries(kept ?? {}).filter(([part]) => part in kinds);
    const sound = parts.filter(([part, value]) => typeof value === typeof kinds[part]);
    const items = Array.isArray(kept?.earlier) ? kept.earlier : [];
    const earlier = items.filter((one) => typeof one?.text === "string" && typeof one.name === "string");
    const left = Array.isArray(kept?.left) ? kept.left.filter((one) => typeof one === "string") : [];
    const other = kept?.comparison ?? null;
    const comparison = other !== null && compared.every((part) => typeof other[part] === typeof kinds[part]) ? other : null;
    const readable = typeof kept?.text === "string";
    const damaged = !readable || sound.length < parts.length || earlier.length < items.length || comparison !== other;
    return { ...kinds, ...Object.fromEntries(sound), earlier, left, comparison, readable, damaged, from };
  }

  // all works, the latest first; behind them what an address or an example gives again
  function list() {
    const kept = Object.keys(localStorage).filter((one) => one.startsWith(all)).map(read);
    return kept.sort((one, other) => one.passing - other.passing || other.at - one.at);
  }

  // whether a place is now this page's alone, for all that is known; with patience, as a page that is loaded again may have its lock still
  function lock(wanted, waited) {
    if (!navigator.locks) return Promise.resolve(true);
    return new Promise((then) => {
      const held = (got) => {
        then(got !== null);
        return got && new Promise((goes) => {
          release = goes;
        });
      };
      const over = new AbortController();
      if (waited) setTimeout(() => over.abort(), waited);
      const asked = waited ? { signal: over.signal } : { ifAvailable: true };
      // where locks are refused there are none
      navigator.locks.request(wanted, asked, held).catch((error) => then(error.name !== "AbortError"));
    });
  }

  async function take(wanted, waited = 0) {
    const before = release;
    if (!(await lock(wanted, waited))) return false;
    before();
    moved(wanted);
    return true;
  }

  function moved(to) {
    place = to;
    named(to);
  }

  // the place of this tab, for when it is loaded again
  function named(own) {
    try {
      sessionStorage.setItem(all, own);
    } catch (error) {
      // it is as a new tab then
    }
  }

  // whether the browser lets this page keep anything
  function usable() {
    try {
      return localStorage.length + sessionStorage.length >= 0;
    } catch (error) {
      return false;
    }
  }

  // the work of this tab, or the latest that no open tab has, or null: then a new one begins. One that an address begins takes the place of
  // another such, and of no other
  async function begin(addressed) {
    if (!usable()) return null;
    const own = addressed ? null : sessionStorage.getItem(all);
    const kept = own === null ? null : read(own);
    if (kept !== null) {
      // a tab that was made of another has the same work, and goes on with it by itself
      if (!(await take(own, patience))) await take(fresh());
      return kept;
    }
    for (const { from } of list().filter(({ passing }) => passing || !addressed)) {
      if (await take(from)) return read(from);
    }
    await take(fresh());
    return null;
  }

  // what can be left out, in this order; the text comes before all else
  const [compares, runs, texts] = ["the run that others are compared with", "the run", "the texts that were left earlier"];
  const stages = [[], [compares], [compares, runs], [compares, texts], [compares, runs, texts]];
  const without = { [compares]: { comparison: null }, [runs]: { words: "", swaps: "", shown: -1 }, [texts]: { earlier: [] } };
  const has = (work) => ({ [compares]: work.comparison !== null, [runs]: work.words + work.swaps !== "", [texts]: work.earlier.length > 0 });

  // keeps a work. A part for which there is no room is left out whole, and named; where not even the text has room, null is told, and what was
  // kept before stays as it was
  function keep(work) {
    if (place === null) return null;
    const there = localStorage.getItem(place);
    if (there !== null && !there.startsWith(sign) && since !== null) moved(fresh());
    for (const stage of stages) {
      const left = stage.filter((part) => has(work)[part]);
      const less = Object.assign({}, work, ...left.map((part) => without[part]));
      try {
        localStorage.setItem(place, sign + JSON.stringify({ at: Date.now(), left, ...less }).slice(1));
        since = new Date();
        return left;
      } catch (error) {
        // the next has less
      }
    }
    return null;
  }

  // works that no open tab has, as far as that is known
  async function closed() {
    if (place === null) return [];
    const { held } = navigator.locks ? await navigator.locks.query().catch(() => ({ held: [] })) : { held: [] };
    const open = [place, ...held.map(({ name }) => name)];
    return list().filter(({ from, text, passing }) => !open.includes(from) && !passing && text.trim());
  }

  // this tab goes on with another work; its own stays where it is
  function turn(to) {
    named(to);
    location.reload();
  }

  return { begin, keep, closed, turn, since: () => since };
})();
