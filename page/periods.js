// ---- Busy periods of lines

// So long after a line was busy last the request that ends its period may come, in ms: for as long a command is sent again (RFC 3435, 3.5.1).
const REQUEST_TIME = 30000;

// A line is busy from when it is lifted, rung or asked for a connection until it is on hook without a connection and its next lifting is
// requested. What happens at it meanwhile is of one period.
class BusyPeriods {
  constructor(calls) {
    this.calls = calls;
    this.lines = new Map();
  }

  of(line) {
    let state = this.lines.get(line);
    if (!state) {
      state = { line, hook: null, isWatched: false, isRung: false, isRequested: false, busyAt: null, period: null, last: null };
      this.lines.set(line, state);
    }
    return state;
  }

  isAtRest(state) {
    return state.hook !== "off" && !state.isRung && !this.calls.isAt(state.line);
  }

  // The period in which something happens at a line, or null.
  at(line, at) {
    if (line === 0) {
      return null;
    }
    const state = this.of(line);
    if (!this.isAtRest(state)) {
      state.busyAt = at;
      state.period ??= { line };
    } else if (state.isRequested || at - state.busyAt > REQUEST_TIME) {
      state.period = null;
    }
    state.last = state.period ?? state.last;
    return state.period;
  }

  // A line leaves rest; one that is busy is in its period already.
  begin(line, at) {
    const state = this.of(line);
    if (this.isAtRest(state)) {
      Object.assign(state, { period: { line }, busyAt: at, isRequested: false });
    }
    return state;
  }

  // A handset is lifted or hung up, where the word says so.
  move(line, word, at) {
    if (word === "off") {
      Object.assign(this.begin(line, at), { hook: "off", isRung: false });
    }
    const period = this.at(line, at);
    if (word === "on") {
      Object.assign(this.of(line), { hook: "on", isRequested: false });
    }
    return period;
  }

  // Something was done at a telephone.
  act(line, word, at) {
    if (line === 0) {
      return null;
    }
    this.of(line).isWatched = true;
    return this.move(line, word, at);
  }

  // The call agent asks for something.
  ask(message, at) {
    const { line } = message;
    if (line === 0) {
      return null;
    }
    if (message.verb === "CRCX" || (message.isRequest && message.rings)) {
      this.begin(line, at);
    }
    const state = this.of(line);
    const period = this.at(line, at);
    if (message.isRequest) {
      Object.assign(state, { isRung: message.rings && state.hook !== "off", isRequested: message.asksForLifting });
    }
    return period;
  }

  // The gateway tells what it observed, at once or when that is requested. A page that came later may have seen no act.
  tell(message, at) {
    const { line, observed } = message;
    const hook = /\bhu\b/i.test(observed) ? "on" : /\bh[df]\b|\bD\//i.test(observed) ? "off" : "";
    const period = line === 0 || this.of(line).isWatched ? this.at(line, at) : this.move(line, hook, at);
    return hook === "on" ? period ?? this.of(line).last : period;
  }
}
