// Works on the page as a person does, and answers what the test asks; stands at the end of the page's own script.
const found = [];
const note = (name, value) => found.push(name + "=" + value);
const press = (key, code, more = {}) => document.activeElement.dispatchEvent(new KeyboardEvent("keydown", { key, code, bubbles: true, cancelable: true, ...more }));
const type = (field, text) => {
  field.value = text;
  field.dispatchEvent(new Event("input", { bubbles: true }));
};
const choose = (id, value) => {
  find(id).value = value;
  find(id).dispatchEvent(new Event("change", { bubbles: true }));
};
const lit = (kind) => Array.from(document.querySelectorAll("#sheet ." + kind), (one) => one.id).sort().join(" ");
const lamps = () => Array.from(document.querySelectorAll("#lamps .on"), (one) => one.textContent.replace(/ on$/, "")).join(" ");
const shown = () => [document.body.dataset.tick, lit("lit"), lit("now"), find("happens").textContent, lamps()].join("|");
const rest = () => document.activeElement.blur();
const decode = (text) => Uint8Array.from(atob(text), (one) => one.charCodeAt(0));
// what is saved from here on, the last at the end
const saving = () => {
  const saved = [];
  const create = URL.createObjectURL;
  URL.createObjectURL = (blob) => {
    saved.push(blob);
    return create(blob);
  };
  return saved;
};
const parts = {};
