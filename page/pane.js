// ---- The rows that are drawn

// So many rows are drawn at most, of those that are wanted: the latest, or those around what the reader looks at.
const MOST_DRAWN = 200;
// So close to the end of its list, in pixels, a reader is at the end.
const NEAR_END = 80;

// What an arrow says: of its head the id alone may be cut.
function drawLabel(head) {
  const [word, id, name] = head;
  const label = make("span", { class: "label" }, make("span", { class: "word" }, word));
  if (id !== "") {
    label.append(" ", make("span", { class: "id", title: id }, id));
  }
  if (name !== "") {
    label.append(" ", make("span", { class: "name" }, name));
  }
  return label;
}

// The arrow between two lanes, with what it says above it.
function drawTrack(row, { head, reason, more }) {
  const [left, right] = row.from < row.to ? [row.from, row.to] : [row.to, row.from];
  const arrow = make("span", { class: `arrow ${row.from < row.to ? "right" : "left"}` });
  const said = make("span", { class: "said" }, drawLabel(head));
  for (const [name, text] of [["reason", reason], ["more", more]]) {
    if (text) {
      said.append(make("span", { class: name, title: text }, text));
    }
  }
  const track = make("span", { class: `track ${row.kind}` }, said, arrow);
  track.style.setProperty("--left", String(2 * left));
  track.style.setProperty("--right", String(2 * right));
  return track;
}

// A row has a mark at its head.
function drawMark(row, { name, text }) {
  row.track.classList.add(name);
  row.track.querySelector(".label").append(" ", make("span", { class: "badge" }, text));
}

// Draws a row with an arrow between two lanes, or a hint.
function drawRow(row) {
  if (row.hint) {
    row.item = make("li", {}, make("p", { class: "hint" }, row.hint));
    return;
  }
  row.track = drawTrack(row, row.look());
  const at = make("span", { class: "at" }, make("span", {}, clockText(row.at)));
  if (row.wall !== null) {
    at.append(make("span", { class: "wall", title: "The time of day, UTC, by this browser's clock" }, wallText(row.wall)));
  }
  row.button = make("button", { type: "button", class: "row", "aria-pressed": String(row === ladder.chosen) }, at, row.track);
  row.button.addEventListener("click", () => ladder.choose(row));
  row.item = make("li", {}, row.button);
  row.marks.forEach((mark) => drawMark(row, mark));
  markRow(row, heard.ends);
}

// A row isn't drawn any more.
function dropRow(row) {
  row.item.remove();
  Object.assign(row, { item: null, button: null, track: null });
}

// A part of the wanted rows, which moves with the reader.
class Pane {
  constructor(list) {
    this.list = list;
    // Whatever makes it smaller or wider, its end stays in sight.
    new ResizeObserver(() => this.keepEnd()).observe(list);
    list.addEventListener("scroll", () => this.scrolled());
    this.drawn = [];
    this.show([]);
  }

  // These rows are wanted, and no others.
  show(rows) {
    this.wanted = rows;
    // Whether the reader looks at a row far from the end.
    this.isLeft = false;
    this.drawFrom(this.isFollowing ? Math.max(0, rows.length - MOST_DRAWN) : 0);
    this.keepEnd();
  }

  get to() {
    return this.from + this.drawn.length;
  }

  get isFollowing() {
    return !this.isLeft && byId("following").checked;
  }

  // Draws the rows from this one on; a row that was drawn before stays where it is seen.
  drawFrom(from, anchor = null) {
    const gap = anchor ? anchor.item.offsetTop - this.list.scrollTop : 0;
    const focused = document.activeElement;
    const part = new Set(this.wanted.slice(from, from + MOST_DRAWN));
    this.drawn.filter((row) => !part.has(row)).forEach(dropRow);
    this.from = from;
    this.drawn = [...part];
    this.drawn.filter((row) => !row.item).forEach(drawRow);
    this.list.replaceChildren(...this.drawn.map((row) => row.item));
    if (anchor) {
      this.list.scrollTop = anchor.item.offsetTop - gap;
    }
    if (this.list.contains(focused)) {
      focused.focus({ preventScroll: true });
    }
  }

  // Rows have come behind the others: they are drawn where there is room, or where the reader follows.
  extend() {
    const end = this.wanted.length;
    if (this.isFollowing && end - this.to > MOST_DRAWN) {
      this.drawFrom(end - MOST_DRAWN);
    }
    const last = this.isFollowing ? end : Math.min(end, this.from + MOST_DRAWN);
    const added = this.wanted.slice(this.to, last);
    added.forEach(drawRow);
    this.list.append(...added.map((row) => row.item));
    this.drawn.push(...added);
    const surplus = this.drawn.splice(0, Math.max(0, this.drawn.length - MOST_DRAWN));
    surplus.forEach(dropRow);
    this.from += surplus.length;
    this.keepEnd();
    this.scrolled();
  }

  // The oldest of the remembered rows isn't remembered any more.
  forget(row) {
    if (this.wanted[0] !== row) {
      return;
    }
    this.wanted.shift();
    if (this.from > 0) {
      this.from -= 1;
    } else if (this.drawn.length > 0) {
      dropRow(this.drawn.shift());
    }
  }

  // Goes to the end if the reader follows.
  toEnd() {
    this.isLeft = false;
    this.extend();
  }

  // Stays at the end if the reader follows.
  keepEnd() {
    if (this.isFollowing) {
      this.list.scrollTop = this.list.scrollHeight;
    }
  }

  // How far the reader is from the end of the list, in pixels.
  get rest() {
    return this.list.scrollHeight - this.list.scrollTop - this.list.clientHeight;
  }

  // The reader looks at a row, which stays in sight.
  look(row) {
    this.isLeft = this.to < this.wanted.length || this.rest > NEAR_END;
    if (this.isLeft) {
      row.item.scrollIntoView({ block: "nearest" });
    }
  }

  // Where the reader comes to an end of what is drawn, rows beyond it are drawn in place of some at the other end.
  scrolled() {
    const { scrollTop, clientHeight } = this.list;
    const most = Math.max(0, this.wanted.length - MOST_DRAWN);
    const step = scrollTop < clientHeight ? -MOST_DRAWN / 2 : this.rest < clientHeight ? MOST_DRAWN / 2 : 0;
    const from = Math.max(0, Math.min(this.from + step, most));
    if (from !== this.from) {
      const anchor = this.drawn.find((row) => row.item.offsetTop + row.item.offsetHeight > scrollTop);
      this.drawFrom(from, anchor);
    }
  }
}
