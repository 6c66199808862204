// ---- Calls and connections

// So many calls are remembered.
const MOST_CALLS = 200;

// What the conversation tells of calls and their connections. A page that came later knows of those alone that it has heard of.
class Calls {
  constructor() {
    // By the call's identifier in upper case.
    this.calls = new Map();
    // By the line and the connection's identifier.
    this.connections = new Map();
    // The same, also of those that are no more: of which call each is, and where its media come in.
    this.ends = new Map();
    // By the id of their command: what connection commands ask for.
    this.asked = new Map();
  }

  // The call that a command is of: it names it, or a connection of it.
  callOf(message) {
    const named = message.call || this.connections.get(`${message.line} ${message.connection}`)?.call.name || "";
    return named === "" ? null : this.named(named);
  }

  named(name) {
    const key = name.toUpperCase();
    let call = this.calls.get(key);
    if (!call) {
      call = { key, name, lines: new Set(), periods: new Set() };
      this.calls.set(key, call);
      forget(this.calls, MOST_CALLS);
    }
    return call;
  }

  // Whether a line has a connection.
  isAt(line) {
    for (const held of this.connections.values()) {
      if (held.line === line) {
        return true;
      }
    }
    return false;
  }

  // The call agent asks for something.
  ask(message) {
    if (["CRCX", "MDCX", "DLCX"].includes(message.verb)) {
      this.asked.set(message.id, message);
      forget(this.asked, 1000);
    }
  }

  // The gateway has answered: what was asked for has become so, or hasn't.
  answer(message) {
    const asked = this.asked.get(message.id);
    if (!asked || message.code < 200) {
      return;
    }
    this.asked.delete(message.id);
    if (message.code >= 300) {
      return;
    }
    if (asked.verb === "DLCX") {
      this.end(asked);
    } else {
      this.take(asked, message);
    }
  }

  // A connection was made or changed.
  take(asked, answer) {
    const line = answer.named || asked.line;
    const key = `${line} ${answer.connection || asked.connection}`;
    const held = this.connections.get(key) ?? { line, call: this.callOf(asked) };
    if (!held.call) {
      return;
    }
    held.call.lines.add(line);
    this.connections.set(key, held);
    forget(this.connections, 1000);
    this.ends.set(key, { call: held.call, local: answer.description?.address || this.ends.get(key)?.local || "" });
    forget(this.ends, 1000);
  }

  // Connections were deleted: one, those of a call on a line, or all of a line or of the gateway.
  end(asked) {
    for (const [key, held] of this.connections) {
      const isThere = asked.line === 0 || asked.line === held.line;
      const isMeant = asked.connection === "" || key === `${held.line} ${asked.connection}`;
      const isCalled = asked.call === "" || asked.call.toUpperCase() === held.call.key;
      if (isThere && isMeant && isCalled) {
        this.connections.delete(key);
      }
    }
  }
}

// A connection in words, as the gateway has it.
function connectionText(held) {
  const connection = held.number.toString(16).toUpperCase();
  const remote = held.remote === "" ? ", no remote address yet" : ` to ${held.remote}`;
  return `connection ${connection} ${held.mode}, call ${held.call}, ${held.codec} ${held.ptime} ms${remote}`;
}

// Whether a row belongs to a call: it is of the call, or of none and in a busy period of a line that the call has.
function isOfCall(row, call) {
  return row.call ? row.call === call : call.periods.has(row.period);
}
