// A menu below a button: Enter, Space or Down open it, the arrow keys move in it, and Escape or a press elsewhere
// closes it.

export class Menu {
  constructor(button, menu) {
    Object.assign(this, { button, menu });
    this.entries = [...menu.querySelectorAll("[role=menuitem]")];
    button.addEventListener("click", () => this.show(menu.hidden));
    button.addEventListener("keydown", (event) =>
      event.key === "ArrowDown" && (event.preventDefault(), this.show(true)),
    );
    menu.addEventListener("click", () => this.show(false));
    menu.addEventListener("keydown", (event) => this.key(event));
    document.addEventListener("pointerdown", (event) =>
      menu.contains(event.target) || button.contains(event.target) || this.hide(),
    );
  }

  hide() {
    this.menu.hidden = true;
    this.button.setAttribute("aria-expanded", "false");
  }

  show(isShown) {
    this.menu.hidden = !isShown;
    this.button.setAttribute("aria-expanded", String(isShown));
    if (isShown) this.entries.find((entry) => !entry.disabled)?.focus();
    else if (document.activeElement === document.body) this.button.focus();
  }

  key(event) {
    const step = { ArrowDown: 1, ArrowUp: -1 }[event.key];
    if (event.key === "Escape") {
      event.stopPropagation();
      this.hide();
      this.button.focus();
    }
    if (!step) return;
    event.preventDefault();
    event.stopPropagation();
    const place = this.entries.indexOf(document.activeElement);
    this.entries[(place + step + this.entries.length) % this.entries.length].focus();
  }
}
