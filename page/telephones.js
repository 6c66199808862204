// ---- Telephones

const KEYS = ["1", "2", "3", "A", "4", "5", "6", "B", "7", "8", "9", "C", "*", "0", "#", "D"];
const HEARD = {
  "L/dl": "dial tone",
  "L/bz": "busy",
  "L/ro": "reorder tone",
  "L/rg": "rings",
  "L/rs": "ring splash",
  "L/vmwi": "message lamp",
  "G/rt": "ringback",
  "G/cg": "congestion",
  "G/cf": "confirm tone",
};
const RINGING = new Set(["L/rg", "L/rs"]);

class Telephone {
  constructor(line) {
    this.line = line;
    this.hook = "on";
    this.signals = [];
    this.isBusy = false;
    this.name = make("button", { type: "button", class: "phone-name", "aria-expanded": "false" }, nameOf(line));
    this.hookButton = make("button", { type: "button", class: "phone-hook" }, "Lift");
    this.hears = make("p", { class: "hears silent" }, "silent");
    this.carries = make("div", { class: "carries" });
    this.lost = make("p", { class: "lost" });
    this.lost.hidden = true;
    this.refusal = make("p", { class: "refusal" });
    this.refusal.hidden = true;
    this.keys = make("div", { class: "keys", role: "group", "aria-label": `Keys of ${nameOf(line)}` });
    this.keyButtons = KEYS.map((key) => {
      const button = make("button", { type: "button" }, key);
      button.addEventListener("click", () => act(line, key));
      return button;
    });
    this.flash = make("button", { type: "button", class: "flash" }, "Flash");
    this.keys.append(...this.keyButtons, this.flash);
    this.card = make("div", { class: "phone", role: "group", "aria-label": nameOf(line) },
      make("div", { class: "phone-head" }, this.name, this.hookButton),
      this.refusal, this.hears, this.carries, this.lost, this.keys);
    this.card.dataset.line = String(line);
    this.listen();
    this.reach(false);
    this.enable();
  }

  listen() {
    this.name.addEventListener("click", () => this.toggle());
    this.hookButton.addEventListener("click", () => this.pressHook());
    this.flash.addEventListener("click", () => act(this.line, "flash"));
    this.card.addEventListener("focusin", () => telephones.choose(this, false));
    this.card.addEventListener("focusout", () => setTimeout(() => telephones.settle(), 0));
  }

  toggle(open = !this.card.classList.contains("open")) {
    this.card.classList.toggle("open", open);
    this.name.setAttribute("aria-expanded", String(open));
  }

  pressHook() {
    act(this.line, this.hook === "off" ? "on" : "off");
  }

  // Its endpoint's name.
  tellName(domain) {
    const name = domain === "" ? nameOf(this.line) : `${nameOf(this.line)}@${domain}`;
    if (this.name.title !== name) {
      this.name.title = name;
      this.card.setAttribute("aria-label", name);
    }
  }

  // Whether the tabulator key comes to it.
  reach(isReached) {
    const index = isReached ? "0" : "-1";
    for (const button of [this.name, this.hookButton, ...this.keyButtons, this.flash]) {
      button.setAttribute("tabindex", index);
    }
  }

  enable() {
    const isOn = this.hook !== "off";
    for (const button of [...this.keyButtons, this.flash]) {
      button.disabled = isOn;
    }
  }

  // Tells at the telephone itself what was refused there.
  refuse(text) {
    this.refusal.hidden = text === "";
    setText(this.refusal, text);
  }

  show(state) {
    if (this.hook !== state.hook) {
      this.hook = state.hook;
      this.enable();
    }
    const isOff = state.hook === "off";
    this.card.classList.toggle("off", isOff);
    setText(this.hookButton, isOff ? "Hang up" : "Lift");
    this.signals = state.signals.map((signal) => signal.name);
    this.isBusy = isOff || state.signals.length > 0 || state.connections.length > 0;
    const names = this.signals.map((name) => HEARD[name] ?? name);
    this.card.classList.toggle("rings", this.signals.some((name) => RINGING.has(name)));
    this.hears.classList.toggle("silent", names.length === 0);
    setText(this.hears, names.length > 0 ? names.join(", ") : isOff ? "off hook, silent" : "on hook");
    this.showConnections(state.connections.map(connectionText));
    this.lost.hidden = state.lost === 0;
    setText(this.lost, `lost events: ${state.lost}`);
  }

  // Each connection in a line of its own.
  showConnections(texts) {
    const shown = [...this.carries.children].map((line) => line.textContent);
    if (shown.join("\n") !== texts.join("\n")) {
      this.carries.replaceChildren(...texts.map((text) => make("p", {}, text)));
    }
  }

  // It is shown if its line is searched for, and does something where only such lines are wanted; never taken from under a hand.
  settle(isBusyOnly) {
    const isSearched = view.lines === null || view.lines.has(this.line);
    const isHeld = this.card.contains(document.activeElement);
    this.card.hidden = !isHeld && !(isSearched && (!isBusyOnly || this.isBusy));
  }
}

const telephones = {
  list: [],
  chosen: null,

  // There are telephones for so many lines.
  resize(count) {
    if (this.list.length === count) {
      return;
    }
    this.list = Array.from({ length: count }, (_, place) => new Telephone(place + 1));
    byId("phones").replaceChildren(...this.list.map((telephone) => telephone.card));
    this.list.forEach((telephone) => telephone.toggle(count <= 4));
    this.chosen = null;
    if (count > 0) {
      this.choose(this.list[0], false);
    }
  },

  show(states) {
    this.resize(states.length);
    states.forEach((state, place) => this.list[place].show(state));
    this.settle();
    this.sound();
  },

  get shown() {
    return this.list.filter((telephone) => !telephone.card.hidden);
  },

  // Shows the telephones that are wanted, and says how many of all they are.
  settle() {
    const isBusyOnly = byId("busy-only").checked;
    this.list.forEach((telephone) => telephone.settle(isBusyOnly));
    const shown = this.shown;
    setText(byId("phones-told"), shown.length === this.list.length ? "" : `shown: ${shown.length} of ${this.list.length} lines`);
    if (shown.length > 0 && this.chosen?.card.hidden) {
      this.choose(shown[0], false);
    }
  },

  // Plays what is heard at the chosen one, if it is lifted.
  sound() {
    speaker.hear(this.chosen?.hook === "off" ? this.chosen.signals : []);
  },

  choose(telephone, focus) {
    if (this.chosen !== telephone) {
      this.chosen?.reach(false);
      this.chosen?.card.classList.remove("chosen");
      this.chosen = telephone;
      telephone.reach(true);
      telephone.card.classList.add("chosen");
      this.sound();
    }
    if (focus) {
      telephone.name.focus();
    }
  },

  // How many stand side by side.
  columns() {
    const shown = this.shown;
    const top = shown[0]?.card.offsetTop;
    const below = shown.findIndex((telephone) => telephone.card.offsetTop !== top);
    return below < 0 ? shown.length : below;
  },

  go(steps) {
    const shown = this.shown;
    const place = shown.indexOf(this.chosen) + steps;
    if (place >= 0 && place < shown.length) {
      this.choose(shown[place], true);
    }
  },

  // What was refused is told at its telephone, and above all of them.
  refuse(line, text) {
    this.list[line - 1]?.refuse(text);
    setText(byId("refused"), text === "" ? "" : `${nameOf(line)}: ${text}`);
  },
};

// What the keyboard does on a telephone.
function keyDown(event) {
  if (event.ctrlKey || event.altKey || event.metaKey || !telephones.chosen) {
    return;
  }
  const telephone = telephones.chosen;
  const key = event.key.length === 1 ? event.key.toUpperCase() : event.key;
  const steps = { ArrowLeft: -1, ArrowRight: 1, ArrowUp: -telephones.columns(), ArrowDown: telephones.columns() };
  if (key in steps) {
    telephones.go(steps[key]);
  } else if (KEYS.includes(key)) {
    act(telephone.line, key);
  } else if (key === "H") {
    telephone.pressHook();
  } else if (key === "F") {
    act(telephone.line, "flash");
  } else {
    return;
  }
  event.preventDefault();
}

// Does something at a telephone. What comes of it is told by the events.
async function act(line, word) {
  telephones.refuse(line, "");
  try {
    const answer = await fetch("/phone", {
      method: "POST",
      headers: { "content-type": "application/json" },
      body: JSON.stringify({ line, act: word }),
    });
    if (!answer.ok) {
      telephones.refuse(line, `${word}: refused, ${answer.status} ${answer.statusText}`);
    }
  } catch {
    telephones.refuse(line, `${word}: the gateway doesn't answer`);
  }
}
