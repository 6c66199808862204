// ---- What is shown

// The lines and the call that are shown; null is all of them.
const view = { lines: null, call: null };

// Whether a row is shown. What is of no line is shown for all lines.
function isWanted(row) {
  const isOfLines = view.lines === null || row.line === 0 || view.lines.has(row.line);
  return isOfLines && (view.call === null || isOfCall(row, view.call));
}

// What a call is called in a list.
function callText(call) {
  const lines = [...call.lines].sort((a, b) => a - b);
  return lines.length > 0 ? `${call.name}, ${lines.map(nameOf).join(", ")}` : call.name;
}

// Lists these calls, the latest first.
function listCalls(known) {
  const shown = byId("shown-call");
  const calls = [...known.calls.values()].reverse();
  const texts = calls.map(callText);
  const wanted = texts.join("\n");
  if (shown.dataset.calls === wanted) {
    return;
  }
  shown.dataset.calls = wanted;
  const options = calls.map((call, place) => make("option", { value: call.key }, texts[place]));
  shown.replaceChildren(make("option", { value: "" }, "all calls"), ...options);
  if (view.call && !calls.includes(view.call)) {
    shown.append(make("option", { value: view.call.key }, callText(view.call)));
  }
  shown.value = view.call?.key ?? "";
}

// Shows the rows of a call, or of all calls.
function showCall(call) {
  view.call = call;
  byId("shown-call").value = call?.key ?? "";
  ladder.settleAll();
  heard.show();
}

// Shows the telephones and the rows of the lines that are searched for.
function showLines() {
  view.lines = linesOf(byId("wanted-lines").value);
  telephones.settle();
  ladder.settleAll();
}

// ---- The message that is shown

function showMessage(row) {
  setText(byId("message-title"), row.look().title);
  setText(byId("message-text"), row.text);
  const call = byId("message-call");
  call.hidden = !row.call;
  call.title = row.call ? `Call ${row.call.name}` : "";
  byId("message").hidden = false;
}

function hideMessage() {
  byId("message").hidden = true;
}
