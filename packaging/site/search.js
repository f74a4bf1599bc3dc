"use strict";
// The search: each section in which all words stand, those that have them in their heading first.
(() => {
  const asked = document.getElementById("asked");
  const found = document.getElementById("found");
  const MOST = 12;

  // On a narrow screen the list of pages is closed at first.
  const pages = document.querySelector("nav details");
  if (window.matchMedia("(max-width: 48rem)").matches) pages.open = false;

  const known = SECTIONS.map((section) => ({
    ...section,
    head: section.name.toLowerCase(),
    all: `${section.page} ${section.name} ${section.text}`.toLowerCase(),
  }));

  function score(section, words) {
    if (!words.every((word) => section.all.includes(word))) return 0;
    return 1 + words.filter((word) => section.head.includes(word)).length;
  }

  function excerpt(text, word) {
    const at = Math.max(0, text.toLowerCase().indexOf(word) - 40);
    return (at > 0 ? "… " : "") + text.slice(at, at + 120) + (at + 120 < text.length ? " …" : "");
  }

  function line(section, words) {
    const item = document.createElement("li");
    const link = document.createElement("a");
    link.href = section.at;
    link.textContent = section.name === section.page ? section.name : `${section.page}: ${section.name}`;
    const more = document.createElement("small");
    more.textContent = excerpt(section.text, words[0]);
    item.append(link, more);
    return item;
  }

  function search() {
    const words = asked.value.toLowerCase().split(/\s+/).filter((word) => word !== "");
    const hits = words.length === 0 ? [] : known
      .map((section) => ({ section, score: score(section, words) }))
      .filter((hit) => hit.score > 0)
      .sort((one, other) => other.score - one.score)
      .slice(0, MOST);
    found.replaceChildren(...hits.map((hit) => line(hit.section, words)));
    if (words.length > 0 && hits.length === 0) found.textContent = "Nothing has all these words.";
  }

  asked.addEventListener("input", search);
  document.addEventListener("keydown", (event) => {
    if (event.key === "/" && document.activeElement !== asked) {
      event.preventDefault();
      asked.focus();
    }
  });
})();
