/* Small helps that all pages share. */
"use strict";

/** An element with attributes and children; texts are texts, never markup. */
function element(name, attributes, ...children) {
  const made = document.createElement(name);
  for (const [key, value] of Object.entries(attributes || {})) made.setAttribute(key, value);
  made.append(...children);
  return made;
}

/** The JSON that stands in a script element of the page. */
const contentOf = id => JSON.parse(document.getElementById(id).textContent);

/** A number with its thousands set apart. */
const counted = number => number.toLocaleString("en");

/** A count and its noun. */
const several = (number, noun) => `${counted(number)} ${noun}${number === 1 ? "" : "s"}`;

/** Does something once for all calls until the next picture of the screen. */
function onceAFrame(action) {
  let asked = false;
  return () => {
    if (asked) return;
    asked = true;
    requestAnimationFrame(() => { asked = false; action(); });
  };
}

/** The colours of the design by name, as they are now (`--pdo` is `pdo`). */
function colours() {
  const style = getComputedStyle(document.documentElement);
  return new Proxy({}, { get: (known, name) => known[name] || (known[name] = style.getPropertyValue("--" + name).trim()) });
}
