// ---- Traces and outputs of scripts

// So many lines of a file are read between two looks at the clock.
const MOST_LINES_READ = 200;

// The lines of a file, some at a time, in steps.
async function* linesOfFile(file) {
  const reader = file.stream().pipeThrough(new TextDecoderStream()).getReader();
  let last = "";
  for (let read = await reader.read(); !read.done; read = await reader.read()) {
    const lines = (last + read.value).split(/\r\n|\n/);
    last = lines.pop();
    for (let place = 0; place < lines.length; place += MOST_LINES_READ) {
      yield lines.slice(place, place + MOST_LINES_READ);
      await rest();
    }
  }
  yield [last];
}

// The domain that a file's configuration has, which is before a line `%%`; null where it has none.
async function configuredDomain(file) {
  let domain = "";
  for await (const lines of linesOfFile(file)) {
    for (const line of lines) {
      if (line.trim() === "%%") {
        return domain;
      }
      domain ||= /^\s*domain\s*=\s*"([^"]+)"/.exec(line)?.[1] ?? "";
    }
  }
  return null;
}

// Reads a trace of rgwd, a script, or what rgw simulate printed, into what happened.
class Recording {
  constructor(hasConfiguration) {
    this.happened = [];
    this.labels = new FileLabels();
    this.isScript = hasConfiguration;
    // Whether what happened begins behind a line that hasn't come yet.
    this.isHead = hasConfiguration;
    this.at = hasConfiguration ? 0 : null;
    this.inside = null;
  }

  // What happened since this was called last.
  take() {
    return this.happened.splice(0);
  }

  put(kind, peer, text, at = this.at, hex = null) {
    const isDatagram = kind === "in" || kind === "out";
    const said = isDatagram ? this.labels.ofDatagram(kind, peer, text, at) : [];
    this.happened.push({ kind, peer, text, at, hex, said, wall: null });
    const givenUp = this.labels.takeGivenUp();
    if (givenUp.length > 0) {
      this.happened.push({ kind: "given up", peer: "", text: "", at, hex: null, said: givenUp, wall: null });
    }
  }

  // A line, of a script or of what was printed.
  read(line) {
    const isPrinted = line.startsWith("| ");
    const said = isPrinted ? line.slice(2) : line;
    if (this.isHead) {
      this.isHead = line.trim() !== "%%";
    } else if (this.inside) {
      this.readInside(said);
    } else if (isPrinted || !this.isScript) {
      this.readPrinted(said);
    } else {
      this.readStep(said.trim());
    }
  }

  // A line of a datagram, or its end.
  readInside(line) {
    if (line.trim() === "--") {
      this.put(this.inside.kind, this.inside.peer, this.inside.lines.join("\n"), this.inside.at);
      this.inside = null;
    } else {
      this.inside.lines.push(line);
    }
  }

  begin(kind, peer, at) {
    this.inside = { kind, peer, at, lines: [] };
  }

  readPrinted(line) {
    const sent = /^> (?:(\d+) )?(\S+)$/.exec(line.trim());
    if (sent) {
      this.begin("out", sent[2], sent[1] === undefined ? this.at : Number(sent[1]));
    } else if (/^(! \d|line )/.test(line)) {
      // (`! not sent 1` and `! lost on its way 1` are marks of the trace's own)
      this.put("told", "", line);
    }
  }

  readStep(line) {
    const [word, first, second] = line.split(/\s+/);
    if (word === "from") {
      this.begin("in", first ?? "", this.at);
    } else if (word === "raw") {
      this.put("in", first ?? "", textOfHex(second ?? ""), this.at, second ?? "");
    } else if (word === "phone") {
      this.put("act", "", line);
    } else if (word === "at") {
      this.at = Number(first);
    } else if (word === "tick" || word === "wait") {
      this.at += Number(first);
    }
  }
}

// ---- What is shown, as a trace

// The lines that tell of something that happened.
function traceLines(happened) {
  const lines = happened.text.split(/\r\n|\n/).map((line) => line.trim());
  while (lines.length > 1 && lines[lines.length - 1] === "") {
    lines.pop();
  }
  if (happened.kind === "in") {
    const hex = happened.hex ?? hexOfText(lines.map((line) => `${line}\r\n`).join(""));
    return hex === "" ? [`from ${happened.peer}`, "--"] : [`raw ${happened.peer} ${hex}`];
  }
  if (happened.kind === "out") {
    return [`| > ${happened.peer}`, ...lines.map((line) => `| ${line}`), "| --"];
  }
  return lines.map((line) => (happened.kind === "act" ? line : `| ${line}`));
}

// The trace of what happened, made in steps. It has no configuration, so it can be drawn, but not replayed.
async function traceOf(list, told) {
  const lines = [`# ${told}`, "%%"];
  let at = 0;
  for (const happened of list) {
    if (happened.at !== null && happened.at !== at) {
      at = happened.at;
      lines.push(`at ${at}`);
    }
    lines.push(...traceLines(happened));
    await rest();
  }
  return `${lines.join("\n")}\n`;
}

// Saves what the ladder shows as a file: whole datagrams, of which a message is shown.
async function saveShown() {
  const shown = new Set(ladder.pane.wanted.filter((row) => row.happened).map((row) => row.happened));
  const time = new Date().toISOString().slice(0, 19);
  const parts = [view.call ? `call ${view.call.name}` : "", view.lines ? `lines ${[...view.lines].join(", ")}` : ""];
  const text = await traceOf(shown, `${["shown by the page of rgwd", ...parts.filter((part) => part !== "")].join(", ")}, ${time}Z`);
  const address = URL.createObjectURL(new Blob([text], { type: "text/plain" }));
  const link = make("a", { href: address, download: `rgwd_${time.replaceAll(":", "-")}Z.trace` });
  link.click();
  setTimeout(() => URL.revokeObjectURL(address), 10000);
}
