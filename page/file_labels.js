// ---- What a file's messages are

// What is said again under an id within this time is a repeat, in ms (RFC 3435, 3.5.1).
const REPEAT_TIME = 30000;

// A trace, a script, and what `rgw simulate` printed don't tell what their messages are, as a gateway does. Of files alone that is read off
// the messages, in the gateway's words, and also whether a response comes again.
class FileLabels {
  constructor() {
    // By direction, peer and head: when it was first said.
    this.first = new Map();
    // The gateway's own commands that nobody has answered yet: the endpoint of each, by its id.
    this.open = new Map();
    // Those of them that it has given up since that was taken.
    this.givenUp = [];
  }

  // Whether this was said before, less than half a minute ago.
  isAgain(key, at) {
    const first = this.first.get(key);
    if (first !== undefined && (at === null || at - first < REPEAT_TIME)) {
      return true;
    }
    this.first.set(key, at ?? 0);
    forget(this.first, 5000);
    return false;
  }

  // A line that has lost its agent, or a gateway that announces itself anew, has given up what it asked before.
  giveUp(announcement) {
    for (const [id, endpoint] of this.open) {
      if (endpoint === announcement.endpoint && id !== announcement.id) {
        this.givenUp.push(labelOf("given up", id));
        this.open.delete(id);
      }
    }
  }

  // A command of the gateway's own.
  ofOwn(message, at) {
    // It may send a repeat to another address of its agent.
    if (this.isAgain(`out ${message.verb} ${message.id}`, at)) {
      return labelOf("resent", message.id);
    }
    if (message.verb === "RSIP") {
      this.giveUp(message);
    }
    this.open.set(message.id, message.endpoint);
    forget(this.open, 1000);
    return labelOf("command", message.id);
  }

  ofCommand(direction, peer, message, at) {
    if (direction === "out") {
      return this.ofOwn(message, at);
    }
    return labelOf(this.isAgain(`in ${peer} ${message.verb} ${message.id}`, at) ? "repeat" : "new", message.id);
  }

  ofResponse(direction, peer, message, at) {
    if (this.isAgain(`${direction} ${peer} ${message.code} ${message.id}`, at)) {
      return labelOf("again", message.id);
    }
    if (direction === "out") {
      return labelOf(message.code === 0 ? "acknowledgement" : "answer", message.id);
    }
    if (message.code >= 200) {
      this.open.delete(message.id);
    }
    return labelOf("response", message.id);
  }

  ofText(direction, peer, text, at) {
    const message = readMessage(text);
    if (message.is === "command") {
      return this.ofCommand(direction, peer, message, at);
    }
    return message.is === "response" ? this.ofResponse(direction, peer, message, at) : labelOf("unreadable", null);
  }

  // What the messages of a datagram are that came or was sent.
  ofDatagram(direction, peer, text, at) {
    return messagesOf(text).map((message) => this.ofText(direction, peer, message, at));
  }

  // What was given up since this was called last.
  takeGivenUp() {
    return this.givenUp.splice(0);
  }
}

// A label in the gateway's form: a file tells no more of a message.
function labelOf(what, id) {
  return { what, line: null, id, code: null, send: null };
}
