// Light and dark. Loaded before the page is drawn, so that a page that is dark is never light for a moment.

(() => {
  const system = matchMedia("(prefers-color-scheme: dark)");
  const own = () => (system.matches ? "dark" : "light");

  // The kept choice; nothing is kept where the browser allows none.
  let chosen = null;
  try {
    chosen = localStorage.getItem("colours");
  } catch {}

  function show() {
    const now = chosen ?? own();
    document.documentElement.style.colorScheme = now;
    const button = document.getElementById("theme");
    if (button) button.textContent = `Colours: ${now}`;
  }

  /** The choice of what the system has is none, so that the page follows the system again. */
  function turn() {
    const next = (chosen ?? own()) === "dark" ? "light" : "dark";
    chosen = next === own() ? null : next;
    try {
      if (chosen) localStorage.setItem("colours", chosen);
      else localStorage.removeItem("colours");
    } catch {}
    show();
  }

  system.addEventListener("change", show);
  // A choice in another window.
  addEventListener("storage", ({ key, newValue }) => {
    if (key !== "colours") return;
    chosen = newValue;
    show();
  });
  addEventListener("DOMContentLoaded", () => {
    document.getElementById("theme").addEventListener("click", turn);
    show();
  });
  show();
})();
