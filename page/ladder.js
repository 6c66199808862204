// ---- The ladder

// What a message is stands in its label: the gateway's (`said` of /events), or where a file is drawn that of `FileLabels`. Its text says
// what it is called, its return code, and which call it is of; nothing else is read off it here.
const COMMANDS = ["new", "repeat", "confirmed", "lost", "command", "resent"];
const RESPONSES = ["response", "answer", "again", "acknowledgement"];
// Of a response that comes the gateway doesn't know whether it came before.
const SAID_BEFORE = ["repeat", "confirmed", "again", "resent"];
// Nothing is told of a message without a label: its datagram is too long, 64 stand before it there, or memory was refused for that.
const UNTOLD = { what: "", line: null, id: null, code: null, send: null };
// So many rows are remembered of a gateway, and of a file.
const MOST_HEARD = 20000;
const MOST_READ = 1000000;

// Draws what happened, and marks what is said again and what is given up.
class Ladder {
  constructor() {
    this.pane = new Pane(byId("ladder"));
    this.clear();
  }

  // Nothing has happened yet; so many rows are remembered.
  clear(most = MOST_HEARD) {
    this.pane.show([]);
    this.peers = [];
    this.most = most;
    this.rows = [];
    // Whether rows that were passed over are wanted now.
    this.isStale = false;
    // The gateway's, once a command of its own names it, or one that it has executed.
    this.domain = "";
    this.calls = new Calls();
    this.periods = new BusyPeriods(this.calls);
    // Commands that nobody has answered yet, by direction and id: their rows.
    this.open = new Map();
    // Those that were answered, with their first rows.
    this.answered = new Map();
    this.chosen = null;
    this.lastAct = null;
    view.call = null;
    listCalls(this.calls);
    this.setLanes();
    hideMessage();
  }

  setLanes() {
    const names = make("div", { class: "lane-names" }, make("span", {}, "telephones"), make("span", {}, "gateway"));
    const peers = this.peers.length > 0 ? this.peers : ["call agent"];
    for (const peer of peers) {
      names.append(make("span", { title: peer }, peer));
    }
    byId("lanes").replaceChildren(names);
    this.pane.list.style.setProperty("--lanes", String(2 + peers.length));
  }

  // The lane of an address: the first has number 3.
  laneOf(peer) {
    let place = this.peers.indexOf(peer);
    if (place < 0) {
      this.peers.push(peer);
      place = this.peers.length - 1;
      this.setLanes();
    }
    return 3 + place;
  }

  // ---- Rows

  // Remembers a row with an arrow between two lanes.
  addRow(told) {
    const row = { call: null, period: null, marks: [], item: null, ...told };
    this.rows.push(row);
    return row;
  }

  // A row is as it stays: it is drawn with the next ones if it is wanted, and the oldest of too many isn't remembered any more.
  keep(row) {
    if (isWanted(row)) {
      this.pane.wanted.push(row);
    }
    if (this.rows.length > this.most) {
      this.pane.forget(this.rows.shift());
    }
  }

  choose(row) {
    this.chosen?.button?.setAttribute("aria-pressed", "false");
    this.chosen = row;
    row.button.setAttribute("aria-pressed", "true");
    this.pane.look(row);
    showMessage(row);
    this.pane.keepEnd();
  }

  // What stands in a row is true of this line, of this call, and of this busy period.
  settle(row, line, call, period) {
    Object.assign(row, { line, call, period });
    if (call && line > 0) {
      call.lines.add(line);
    }
    if (call && period && !call.periods.has(period)) {
      call.periods.add(period);
      this.isStale ||= call === view.call;
    }
  }

  // Shows the rows that are wanted now, and no others.
  settleAll() {
    this.isStale = false;
    this.pane.show(this.rows.filter(isWanted));
  }

  // Draws what has come.
  draw() {
    if (this.isStale) {
      this.settleAll();
    }
    this.pane.extend();
  }

  mark(row, name, text) {
    if (row.marks.some((mark) => mark.name === name)) {
      return;
    }
    row.marks.push({ name, text });
    if (row.item) {
      drawMark(row, { name, text });
    }
  }

  // ---- What belongs together

  // Commands were given up.
  addGivenUp(happened) {
    for (const label of happened.said ?? []) {
      const key = `out ${label.id}`;
      this.open.get(key)?.forEach((row) => this.mark(row, "given-up", "given up"));
      this.open.delete(key);
    }
  }

  addCommand(row, message, direction, label) {
    const line = label.line ?? message.line;
    const call = this.calls.callOf(message);
    row.domain = message.domain;
    if (label.what === "lost") {
      this.mark(row, "given-up", "lost");
    }
    const key = `${direction} ${label.id}`;
    if (SAID_BEFORE.includes(label.what)) {
      this.mark(row, "again", label.send ? `send ${label.send}` : "repeat");
      const open = this.open.get(key);
      open?.push(row);
      // A page that came later hears the repeat first.
      const first = open?.[0] ?? this.answered.get(key);
      if (first) {
        this.settle(row, line, call, first.period);
        return;
      }
    }
    if (direction === "in") {
      this.calls.ask(message);
      this.settle(row, line, call, this.periods.ask(message, row.at));
    } else {
      this.domain ||= row.domain;
      this.settle(row, line, call, this.periods.tell(message, row.at));
    }
    this.open.set(key, [row]);
    forget(this.open, 1000);
  }

  addResponse(row, message, direction, label) {
    if (direction === "out") {
      this.calls.answer(message);
    }
    const key = `${direction === "out" ? "in" : "out"} ${label.id}`;
    if (SAID_BEFORE.includes(label.what)) {
      this.mark(row, "again", "repeat");
    }
    const asked = this.open.get(key)?.[0] ?? this.answered.get(key);
    if (!asked) {
      const line = label.line ?? row.line;
      this.settle(row, line, null, this.periods.at(line, row.at));
      return;
    }
    if (message.code >= 200 && this.open.delete(key)) {
      this.answered.set(key, asked);
      forget(this.answered, 5000);
    }
    if (direction === "out" && message.code >= 200 && message.code < 300) {
      this.domain ||= asked.domain;
    }
    const line = message.named || asked.line;
    this.settle(row, line, asked.call, asked.period ?? this.periods.at(line, row.at));
  }

  // ---- What happened

  // A datagram that came to the gateway or went out.
  addDatagram(happened) {
    const direction = happened.kind;
    const lane = this.laneOf(happened.peer);
    const texts = messagesOf(happened.text);
    const way = direction === "in" ? `from ${happened.peer}` : `to ${happened.peer}`;
    texts.forEach((text, place) => {
      const label = happened.said?.[place] ?? UNTOLD;
      const kind = kindOf(label);
      const message = readAs(kind, text);
      const part = texts.length > 1 ? `, ${place + 1} of ${texts.length} in its datagram` : "";
      const row = this.addRow({
        happened, at: happened.at, wall: happened.wall, peer: happened.peer, text,
        kind: kind === "response" && message.code >= 400 ? "fault" : kind,
        from: direction === "in" ? lane : 2,
        to: direction === "in" ? 2 : lane,
        line: message.line,
        look: () => lookOf(text, kind, `${way}${whenText(happened)}${part}`),
      });
      if (kind === "command") {
        this.addCommand(row, message, direction, label);
      } else if (kind === "response") {
        this.addResponse(row, message, direction, label);
      } else {
        this.settle(row, message.line, this.calls.callOf(message), this.periods.at(message.line, row.at));
      }
      this.keep(row);
    });
  }

  // Something was done at a telephone.
  addAct(happened) {
    const found = /^\s*phone\s+(\d+)\s+(\S+)/.exec(happened.text);
    const line = found ? Number(found[1]) : 0;
    const words = { off: "lifted", on: "hung up", flash: "flash" };
    const text = happened.text.trim();
    const label = found ? `${nameOf(line)}: ${words[found[2]] ?? `key ${found[2]}`}` : text;
    this.lastAct = this.addRow({
      happened, at: happened.at, wall: happened.wall, peer: "", kind: "act", from: 1, to: 2, line, text,
      period: this.periods.act(line, found?.[2], happened.at),
      look: () => ({ head: [label, "", ""], title: `at a telephone${whenText(happened)}` }),
    });
    this.keep(this.lastAct);
  }

  // What was told to a telephone, or of a line.
  addTold(happened) {
    const text = happened.text.trim();
    if (text === "done" || text === "") {
      return;
    }
    const of = /^line (\d+) /.exec(text);
    const line = of ? Number(of[1]) : this.lastAct?.line ?? 0;
    this.keep(this.addRow({
      happened, at: happened.at, wall: happened.wall, peer: "", kind: text.startsWith("!") ? "fault" : "act", from: 2, to: 1,
      line, text, period: this.periods.at(line, happened.at),
      look: () => ({ head: [text.slice(0, 80), "", ""], title: `told to the telephones${whenText(happened)}` }),
    }));
  }

  // Events that this page has missed.
  addGap(count) {
    const hint = `${counted(count, "event")} ${count === 1 ? "is" : "are"} no longer known`;
    this.keep(this.addRow({ hint, line: 0 }));
  }

  add(happened) {
    if (happened.kind === "in" || happened.kind === "out") {
      this.addDatagram(happened);
    } else if (happened.kind === "act") {
      this.addAct(happened);
    } else if (happened.kind === "given up") {
      this.addGivenUp(happened);
    } else {
      this.addTold(happened);
    }
  }

  // Adds these, each by what takes it, and goes to the end if the reader follows.
  addAll(list, take) {
    if (list.length === 0) {
      return;
    }
    list.forEach(take);
    listCalls(this.calls);
    this.pane.isLeft = false;
    this.draw();
  }
}

// What a message is, by its label.
function kindOf(label) {
  if (COMMANDS.includes(label.what)) {
    return "command";
  }
  if (RESPONSES.includes(label.what)) {
    return "response";
  }
  return label.what === "unreadable" ? "fault" : "untold";
}

// A text as what its label says that it is.
function readAs(kind, text) {
  return kind === "fault" ? readLine(text, "not MGCP: ") : readMessage(text);
}

// How a message looks: its head, what stands below it, and what is said of it where its whole text is shown.
function lookOf(text, kind, way) {
  const { head, reason, more } = readAs(kind, text);
  return { head, reason, more, title: `${way}${reason ? `: ${reason}` : ""}` };
}

// When something happened, by the gateway's clock and by the time of day.
function whenText(happened) {
  const wall = happened.wall === null ? "" : `, ${wallText(happened.wall)}`;
  return happened.at === null ? "" : ` at ${clockText(happened.at)}${wall}`;
}
