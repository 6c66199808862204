// ---- What was heard

// So many ends of a call have a bar of their own beside the ladder.
const MOST_BARS = 2;

// What a report of voice/voice tells of connections: from when to when something was heard there.
const heard = {
  name: "",
  connections: [],
  // The ends of the chosen call.
  ends: [],

  // Takes a report, or none where the text isn't one.
  take(name, text) {
    this.name = name;
    try {
      this.connections = JSON.parse(text).connections.filter((it) => Array.isArray(it.heard) && Array.isArray(it.stood));
    } catch {
      this.connections = [];
    }
    this.show();
  },

  // The connections of a call here, by its messages: a line's, whose media come in where the gateway said.
  ofCall(call) {
    return this.connections.filter((it) => {
      const end = ladder.calls.ends.get(`${it.line} ${it.connection}`);
      return end?.call === call && end.local === it.local;
    });
  },

  // The connection to which this one's media go and from which its own come, at the same time.
  otherOf(one) {
    return this.connections.find((it) => it !== one && isAtOnce(it, one)
      && it.stood.some((stood) => stood.remote === one.local) && one.stood.some((stood) => stood.remote === it.local));
  },

  // The ends of a call: what each is called, and what it heard, by the clock of this gateway.
  endsOf(call) {
    const own = this.ofCall(call);
    const ends = [];
    for (const one of own) {
      const other = this.otherOf(one);
      const names = [`line ${one.line}`, other ? `${own.includes(other) ? "line " : `${other.gateway}:`}${other.line}` : "anybody"];
      ends.push({ text: `${names[0]} heard ${names[1]}`, spans: one.heard });
      if (other && !own.includes(other)) {
        const shift = other.zero - one.zero;
        const spans = other.heard.map((it) => ({ from: it.from + shift, to: it.to + shift }));
        ends.push({ text: `${names[1]} heard ${names[0]}`, spans });
      }
    }
    return ends;
  },

  // Shows what the ends of the chosen call heard, above the ladder with its moments, and beside it.
  show() {
    const box = byId("heard");
    const ends = view.call ? this.endsOf(view.call) : [];
    this.ends = ends;
    box.hidden = this.name === "";
    const told = `${this.name}: ${counted(this.connections.length, "connection")}`;
    const hint = view.call ? `${this.name} tells nothing of this call` : `${told}; choose a call`;
    box.replaceChildren(...(ends.length > 0 ? ends.map(drawEnd) : [make("p", { class: "hint" }, hint)]));
    ladder.pane.drawn.forEach((row) => markRow(row, ends));
  },
};

// Whether two connections of a report were there at one time.
function isAtOnce(one, other) {
  const end = (it) => (it.ended === null ? Infinity : it.zero + it.ended);
  return one.zero + one.begun <= end(other) && other.zero + other.begun <= end(one);
}

// A line of what an end heard, from when to when.
function drawEnd(end, place) {
  const times = end.spans.map((it) => `${clockText(it.from)} to ${clockText(it.to)}`).join(", ");
  return make("p", { class: `end bar-${place + 1}` }, make("span", { class: "bar" }), `${end.text}: ${times || "nothing"}`);
}

// A row has a bar beside it for each end that heard something then.
function markRow(row, ends) {
  for (let place = 0; place < MOST_BARS; place += 1) {
    const spans = Number.isFinite(row.at) ? ends[place]?.spans ?? [] : [];
    row.button?.classList.toggle(`heard-${place + 1}`, spans.some((it) => it.from <= row.at && row.at <= it.to));
  }
}

async function openReport(file) {
  heard.take(file.name, await file.text());
}
