// ---- The gateway

const POLL = 100;
const POLL_HIDDEN = 1000;
const POLL_LOST = 1000;
// The time of day at which the gateway's clock was 0 is taken anew where it is off by more, in ms.
const CLOCK_PLAY = 100;
// What was refused longer ago, in ms, is no news any more.
const NEWS = 5000;

const ladder = new Ladder();
const gateway = { after: 0, version: null, isFile: false, agent: null, zero: null, timer: 0, turn: 0 };

function stand(is, text) {
  const standing = byId("standing");
  standing.dataset.is = is;
  setText(standing, text);
}

async function ask(path) {
  const answer = await fetch(path, { cache: "no-store" });
  if (!answer.ok) {
    throw new Error(`${path}: ${answer.status}`);
  }
  return answer.json();
}

// Says whether the call agent answers, as the gateway has it.
function tellAgent(clock) {
  const agent = byId("agent");
  const { answers, hasAnswered, waitsSince } = gateway.agent;
  agent.dataset.is = answers ? "live" : "lost";
  if (answers) {
    setText(agent, "the agent answers");
  } else if (hasAnswered) {
    setText(agent, `the agent hasn't answered for ${Math.floor((clock - waitsSince) / 1000)} s`);
  } else {
    setText(agent, "no agent has answered yet");
  }
}

// The gateway's clock, and the time of day beside it.
function tellClock(clock) {
  const zero = Date.now() - clock;
  if (gateway.zero === null || Math.abs(zero - gateway.zero) > CLOCK_PLAY) {
    gateway.zero = zero;
  }
  setText(byId("clock"), clockText(clock));
  setText(byId("wall"), wallText(gateway.zero + clock));
}

// A refusal of what was done last is told at its telephone.
function tellRefusal(text) {
  telephones.refuse(ladder.lastAct?.line ?? 0, `refused: ${text.trim().replace(/^! \d+ /, "")}`);
}

function takeEvent(event, clock) {
  const text = textOfHex(event.hex);
  const { kind, peer, at, hex, said } = event;
  ladder.add({ kind, peer, at, wall: gateway.zero + at, hex, text, said });
  if (event.kind === "told" && text.startsWith("!") && clock - event.at < NEWS) {
    tellRefusal(text);
  }
}

function takeEvents(answer) {
  if (answer.next < gateway.after) {
    // Another run of the program: it is read from its beginning at the next turn.
    gateway.after = 0;
    gateway.version = null;
    gateway.zero = null;
    ladder.clear();
    return;
  }
  if (answer.first > gateway.after + 1 && answer.events.length > 0 && gateway.after > 0) {
    ladder.addGap(answer.first - gateway.after - 1);
  }
  ladder.addAll(answer.events, (event) => takeEvent(event, answer.clock));
  gateway.after = answer.next;
}

function takeState(state) {
  gateway.version = state.version;
  gateway.agent = { answers: state.agent_answers, hasAnswered: state.serving, waitsSince: state.unanswered_since };
  telephones.show(state.lines);
  const off = state.lines.filter((line) => line.hook === "off").length;
  const held = state.lines.reduce((sum, line) => sum + line.connections.length, 0);
  const counts = state.counts;
  setText(byId("numbers"), `${counted(state.lines.length, "line")}, ${off} off hook, ${counted(held, "connection")}, `
    + `datagrams ${counts.datagrams_in} in ${counts.datagrams_out} out, ids from ${state.first}`);
}

// Title, heading and telephones carry the gateway's domain, once it is known, and the names of its lines.
function tellName() {
  const { domain } = ladder;
  const { length } = gateway.isFile ? [] : telephones.list;
  const names = [length > 0 ? nameOf(1) : "", length > 1 ? nameOf(length) : ""].filter((name) => name !== "").join(" to ");
  setText(byId("domain"), domain || "rgwd");
  setText(byId("names"), names);
  const title = [domain, names].filter((part) => part !== "").join(" ");
  setText(document.querySelector("title"), title === "" ? "rgwd" : `${title} - rgwd`);
  setText(byId("telephones-title"), domain === "" ? "Telephones" : `Telephones of ${domain}`);
  telephones.list.forEach((telephone) => telephone.tellName(domain));
}

// Asks what happened, and goes on asking while this is the latest turn.
async function follow(turn) {
  let pause = document.hidden ? POLL_HIDDEN : POLL;
  try {
    const answer = await ask(`/events?after=${gateway.after}`);
    if (turn !== gateway.turn) {
      return;
    }
    tellClock(answer.clock);
    takeEvents(answer);
    // While an answer is waited for, time alone may change the state.
    if (answer.version !== gateway.version || answer.events.length > 0 || gateway.agent.waitsSince !== null) {
      const state = await ask("/state");
      if (turn !== gateway.turn) {
        return;
      }
      takeState(state);
    }
    tellAgent(answer.clock);
    tellName();
    stand("live", "page connected");
    if (answer.more) {
      pause = 0;
    }
  } catch {
    stand("lost", "the gateway doesn't answer");
    setText(byId("agent"), "");
    speaker.hear([]);
    pause = POLL_LOST;
  }
  if (turn === gateway.turn) {
    gateway.timer = setTimeout(() => follow(turn), pause);
  }
}

// Begins to follow the gateway, now.
function start() {
  stop();
  follow(gateway.turn);
}

function stop() {
  clearTimeout(gateway.timer);
  gateway.turn += 1;
}

// ---- A file

// A file stands in the place of the gateway.
function showFile(file) {
  gateway.isFile = true;
  stop();
  speaker.hear([]);
  document.querySelector("main").classList.add("is-file");
  byId("live").hidden = false;
  ["numbers", "clock", "wall", "agent"].forEach((id) => setText(byId(id), ""));
  ladder.clear(MOST_READ);
  // It is read from its beginning on.
  ladder.pane.isLeft = true;
  heard.show();
  stand("file", `${file.name} is read ..`);
}

// Reads a file into the ladder, unless another is opened meanwhile; gives how many events it has.
async function readFile(file, isCurrent) {
  const domain = await configuredDomain(file);
  const recording = new Recording(domain !== null);
  let count = 0;
  for await (const lines of linesOfFile(file)) {
    if (!isCurrent()) {
      break;
    }
    lines.forEach((line) => recording.read(line));
    for (const happened of recording.take()) {
      ladder.add(happened);
      count += happened.kind === "given up" ? 0 : 1;
    }
    ladder.draw();
  }
  if (isCurrent() && domain) {
    ladder.domain = domain;
  }
  return count;
}

async function openFile(file) {
  showFile(file);
  const { turn } = gateway;
  const isCurrent = () => turn === gateway.turn;
  try {
    const count = await readFile(file, isCurrent);
    if (isCurrent()) {
      listCalls(ladder.calls);
      tellName();
      stand("file", `${file.name}: ${counted(count, "event")}`);
    }
  } catch {
    if (isCurrent()) {
      stand("lost", `${file.name} can't be read`);
    }
  }
}

function backToGateway() {
  gateway.isFile = false;
  gateway.after = 0;
  gateway.version = null;
  document.querySelector("main").classList.remove("is-file");
  byId("live").hidden = true;
  byId("file").value = "";
  ladder.clear();
  heard.show();
  start();
}

// ---- What is listened to

byId("phones").addEventListener("keydown", keyDown);
byId("wanted-lines").addEventListener("input", showLines);
byId("busy-only").addEventListener("change", () => telephones.settle());
byId("shown-call").addEventListener("change", (event) => showCall(ladder.calls.calls.get(event.target.value) ?? null));
byId("following").addEventListener("change", () => ladder.pane.toEnd());
byId("tones").addEventListener("change", (event) => speaker.turn(event.target.checked));
byId("save").addEventListener("click", saveShown);
byId("message-call").addEventListener("click", () => showCall(ladder.chosen.call));
byId("message-close").addEventListener("click", hideMessage);
byId("live").addEventListener("click", backToGateway);
byId("report").addEventListener("change", (event) => {
  if (event.target.files.length > 0) {
    openReport(event.target.files[0]);
  }
});
byId("file").addEventListener("change", (event) => {
  if (event.target.files.length > 0) {
    openFile(event.target.files[0]);
  }
});
document.addEventListener("keydown", (event) => {
  if (event.key === "Escape") {
    hideMessage();
  }
});
document.addEventListener("visibilitychange", () => {
  if (!document.hidden && !gateway.isFile) {
    start();
  }
});
showLines();
start();
