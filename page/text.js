// What the page of rgwd does.
//
// It shows the telephones, does what is done at them, and draws the conversation as a ladder.
//
// It asks the program what happened since the last answer, ten times a second while it can be seen: the program's answers are
// whole as they are given, so none can wait for something to happen. All that comes from outside becomes text nodes alone.
//
// This file has what all others use: elements, clocks, and messages as text.
"use strict";

// The parameters that a row shows behind its head.
const TOLD = /^(S|R|O|M|RM|ES|I|C|D|N|X|K|Z|Z2|F|E|T|Q):/i;
// A gateway has so many lines at most.
const MOST_LINES = 96;
// The codecs of a gateway, by their payload types (RFC 3551, 6).
const CODECS = { 0: "PCMU", 8: "PCMA" };

const byId = (id) => document.getElementById(id);

// An element with these attributes and children; a text child becomes a text node.
function make(name, attributes, ...children) {
  const made = document.createElement(name);
  for (const [key, value] of Object.entries(attributes ?? {})) {
    made.setAttribute(key, value);
  }
  made.append(...children);
  return made;
}

function setText(element, text) {
  if (element.textContent !== text) {
    element.textContent = text;
  }
}

// So many of what a word names, in words: "1 connection", "2 connections".
function counted(count, word) {
  return `${count} ${word}${count === 1 ? "" : "s"}`;
}

// Forgets the oldest of a map that has grown past this by a quarter: many at once, since a map looks for its oldest past those that went.
function forget(map, most) {
  if (map.size > 1.25 * most) {
    [...map.keys()].slice(0, map.size - most).forEach((key) => map.delete(key));
  }
}

// ---- Steps

// So long, in ms, something is done at once.
const STEP = 25;
const step = { end: 0 };

// The browser gets its turn where a step has taken its time: it draws, and takes what the reader does.
async function rest() {
  if (performance.now() > step.end) {
    await new Promise((done) => setTimeout(done, 0));
    step.end = performance.now() + STEP;
  }
}

// ---- Clocks

// A moment in ms, as minutes, seconds and thousandths.
function clockText(moment) {
  if (moment === null) {
    return "";
  }
  const seconds = Math.floor(moment / 1000);
  const two = (number) => String(number).padStart(2, "0");
  const hours = Math.floor(seconds / 3600);
  const rest = `${two(Math.floor(seconds / 60) % 60)}:${two(seconds % 60)}.${String(moment % 1000).padStart(3, "0")}`;
  return hours > 0 ? `${hours}:${rest}` : rest;
}

// A time of day in ms, as its second, in UTC as the log has it.
function wallText(time) {
  return time === null ? "" : `${new Date(time).toISOString().slice(11, 19)}Z`;
}

// ---- Lines

// The lines that a text names, as `3, 7-12`; null where it names none.
function linesOf(text) {
  const lines = new Set();
  for (const [, first, last] of text.matchAll(/(\d{1,5})(?:\s*-\s*(\d{1,5}))?/g)) {
    const end = Math.min(Number(last ?? first), MOST_LINES);
    for (let line = Number(first); line <= end; line += 1) {
      lines.add(line);
    }
  }
  return lines.size > 0 || /\d/.test(text) ? lines : null;
}

// The local name of a line's endpoint.
function nameOf(line) {
  return `aaln/${line}`;
}

// The number of the line that an endpoint's name is of, or 0.
function lineOfName(name) {
  const found = /^aaln\/(\d+)(@|$)/i.exec(name);
  return found ? Number(found[1]) : 0;
}

// ---- Messages as text

const decoder = new TextDecoder("utf-8");

// What a hexadecimal digit is, by its code.
function digitOf(code) {
  return code < 58 ? code - 48 : (code & 95) - 55;
}

// The text that pairs of hexadecimal digits spell.
function textOfHex(hex) {
  const bytes = new Uint8Array(hex.length >> 1);
  for (let place = 0; place < bytes.length; place += 1) {
    bytes[place] = 16 * digitOf(hex.charCodeAt(2 * place)) + digitOf(hex.charCodeAt(2 * place + 1));
  }
  return decoder.decode(bytes);
}

// The pairs of hexadecimal digits that spell a text.
function hexOfText(text) {
  return [...new TextEncoder().encode(text)].map((byte) => byte.toString(16).padStart(2, "0")).join("");
}

// The messages of a datagram, which lines of a single dot part (RFC 3435, 3.5.5).
function messagesOf(text) {
  const messages = [[]];
  for (const line of text.split(/\r\n|\n/)) {
    if (line.trim() === ".") {
      messages.push([]);
    } else {
      messages[messages.length - 1].push(line);
    }
  }
  return messages.map((lines) => lines.join("\n"));
}

// What a session description says of where its media go and how, or null where there is none (RFC 3435, 3.4).
function readDescription(lines) {
  const first = (form) => lines.map((line) => form.exec(line.trim())).find((found) => found);
  const audio = first(/^m=audio (\d+) \S+ (\d+)/i);
  if (!audio) {
    return null;
  }
  const host = first(/^c=IN IP4 ([\d.]+)/i);
  const time = first(/^a=ptime:(\d+)/i);
  return {
    address: host ? `${host[1]}:${audio[1]}` : "",
    codec: CODECS[audio[2]] ?? `payload ${audio[2]}`,
    packetTime: time ? Number(time[1]) : null,
  };
}

// The value of a parameter, or an empty text.
function valueOf(parameters, name) {
  const found = parameters.map((line) => /^\s*(\w+)\s*:\s*(.*)$/.exec(line)).find((pair) => pair && pair[1].toUpperCase() === name);
  return found ? found[2].trim() : "";
}

// What a command's head says.
function readCommand(head, parameters) {
  const [, verb, id, endpoint] = head;
  return {
    is: "command",
    verb: verb.toUpperCase(),
    id: Number(id),
    endpoint: endpoint.toLowerCase(),
    line: lineOfName(endpoint),
    domain: /@(.+)$/.exec(endpoint)?.[1] ?? "",
    head: [verb.toUpperCase(), id, endpoint.replace(/@.*$/, "")],
    reason: "",
    isRequest: verb.toUpperCase() === "RQNT" || valueOf(parameters, "X") !== "",
    rings: /(^|,)\s*(L\/)?r[gs]\b/i.test(valueOf(parameters, "S")),
    asksForLifting: /(^|,)\s*(L\/)?hd\b/i.test(valueOf(parameters, "R")),
    observed: valueOf(parameters, "O"),
    disconnected: /^disconnected\b/i.test(valueOf(parameters, "RM")),
  };
}

// What a response's head says. One without words has those of its code.
function readResponse(head) {
  const [, digits, id, words] = head;
  const code = Number(digits);
  const said = (words ?? "").trim().slice(0, 40);
  const reason = said === "" || code >= 400 ? reasonOf(code) : "";
  return { is: "response", code, id: Number(id), line: 0, head: [digits, id, said], reason };
}

// A text of which the first line alone is shown, behind these words.
function readLine(text, words) {
  const [head] = text.split("\n");
  const label = text.trim() === "" ? "(empty)" : `${words}${head.trim().slice(0, 40)}`;
  return { is: "none", line: 0, head: [label, "", ""], reason: "", more: "", call: "", connection: "", named: 0, description: null };
}

// What a message is called, and what it names.
function readMessage(text) {
  const [head, ...rest] = text.split("\n");
  const body = rest.findIndex((line) => line.trim() === "");
  const parameters = body < 0 ? rest : rest.slice(0, body);
  const told = {
    more: parameters.filter((line) => TOLD.test(line.trim())).map((line) => line.trim()).join("  "),
    call: valueOf(parameters, "C"),
    connection: valueOf(parameters, "I").toUpperCase(),
    named: lineOfName(valueOf(parameters, "Z")),
    description: body < 0 ? null : readDescription(rest.slice(body)),
  };
  const command = /^\s*([A-Za-z]{4})\s+(\d{1,9})\s+(\S+)\s+MGCP/i.exec(head);
  if (command) {
    return { ...told, ...readCommand(command, parameters) };
  }
  const response = /^\s*(\d{3})\s+(\d{1,9})(\s.*)?$/.exec(head);
  if (response) {
    return { ...told, ...readResponse(response) };
  }
  return readLine(text, "");
}
