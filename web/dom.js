// Elements by their ids, and made of texts: no text ever becomes markup.

import { TEXTS } from "./strings.js";

export const byId = (id) => document.getElementById(id);

/** An element with these properties and children, which are elements or texts. */
export function element(name, properties = {}, ...children) {
  const made = Object.assign(document.createElement(name), properties);
  made.append(...children);
  return made;
}

/** Writes the texts of strings.js where index.html names them. */
export function writeTexts() {
  for (const it of document.querySelectorAll("[data-text]")) it.textContent = TEXTS[it.dataset.text];
  for (const it of document.querySelectorAll("[data-label]")) {
    it.setAttribute("aria-label", TEXTS[it.dataset.label]);
    if (it.matches("button")) it.title = TEXTS[it.dataset.label];
  }
}

/** Hands a text or bytes to the user as a file. */
export function download(name, type, content) {
  const url = URL.createObjectURL(new Blob([content], { type }));
  element("a", { href: url, download: name }).click();
  setTimeout(() => URL.revokeObjectURL(url), 10_000);
}
