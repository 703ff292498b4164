// Rows that arrive while the page is open: series that grow at their ends, and the events that bring their rows.

const EXACT = 2n ** 53n;

// Whole numbers to which others are added, and whose first ones are dropped. Beyond 2^53 from their base they are bigints.
class Growing extends Numbers {
  constructor() {
    super(0n, [], null);
  }

  get count() {
    return (this.exact || this.offsets).length;
  }

  get last() {
    return this.at(this.count - 1);
  }

  set(at, value) {
    if (!this.exact && !this.count) this.base = value;
    const offset = value - this.base;
    if (!this.exact && (offset > EXACT || offset < -EXACT)) this.exact = this.offsets.map((one) => this.base + BigInt(one));
    if (this.exact) this.exact[at] = value;
    else this.offsets[at] = Number(offset);
    this.origin = null;
  }

  drop(many) {
    (this.exact || this.offsets).splice(0, many);
    this.origin = null;
  }
}

// A series whose rows arrive, of which the last ones are kept. While the end of its last row isn't known, that row lasts as long as time is
// known. A band has episodes: stretches of rows with a value other than 0 that are no farther apart than a gap.
class LiveSeries extends Series {
  constructor(fields, number, { keep, gap }) {
    super(fields, number, 0n, null);
    [this.keep, this.gap, this.isBand, this.lasts] = [keep, BigInt(gap), fields.live.band, false];
    this.data = { starts: new Growing(), ends: new Growing(), values: new Growing() };
    this.episodes = { starts: new Growing(), ends: new Growing() };
  }

  // Takes a row, whose end is null if it isn't known. It takes the place of a row that lasts: the same row, unless its end was missed.
  take(start, end, value) {
    const { starts, ends, values } = this.data;
    if (this.lasts && start !== starts.last) this.lastUntil(starts.last + 1n);
    const at = starts.count - (this.lasts ? 1 : 0);
    if (!at) this.base = value;
    this.lasts = end === null;
    starts.set(at, start);
    ends.set(at, this.lasts ? start + 1n : end);
    values.set(at, value);
    if (!this.isBand || value === 0n) return;
    const { episodes } = this, joins = episodes.ends.count > 0 && start - episodes.ends.last <= this.gap;
    if (!joins) episodes.starts.set(episodes.starts.count, start);
    episodes.ends.set(episodes.starts.count - 1, ends.last);
  }

  // Drops the rows that are too many, and what episodes have before those that are kept.
  drop() {
    const { data, episodes } = this, many = data.starts.count - this.keep;
    if (many > 0) {
      for (const column of Object.values(data)) column.drop(many);
      const over = lastWhere(episodes.ends.count, (at) => episodes.ends.at(at) <= this.first) + 1;
      for (const column of Object.values(episodes)) column.drop(over);
      if (episodes.starts.count && episodes.starts.at(0) < this.first) episodes.starts.set(0, this.first);
    }
    this.count = data.starts.count;
    this.blocks = this.count ? [{ rows: this.count, start: this.first, data }] : [];
  }

  get first() {
    return this.data.starts.at(0);
  }

  // The tick up to which its rows are known.
  get known() {
    return this.lasts ? this.data.starts.last + 1n : this.data.ends.last;
  }

  lastUntil(tick) {
    if (!this.lasts) return;
    this.data.ends.set(this.data.ends.count - 1, tick);
    if (this.isBand && this.data.values.last !== 0n) this.episodes.ends.set(this.episodes.ends.count - 1, tick);
  }

  async row(place) {
    const row = await super.row(place);
    return row && { ...row, lasts: this.lasts && row.start === this.data.starts.last };
  }

  walk(view, take) {
    if (this.count) this.walkRows(view, this.data, 0, this.count, take);
  }
}

// What brings the rows: the events of the server. A connection that is lost is made again by the browser, which says what it has. The newest
// time is the one up to which the rows are known that arrive.
class Live {
  constructor(page, fields) {
    [this.page, this.fields, this.place, this.now] = [page, fields, location.hash, page.hi];
    this.series = page.series.filter((one) => one instanceof LiveSeries);
    this.others = fields.known ? [{ first: page.lo, known: page.hi }] : [];
    for (const element of document.querySelectorAll("#live, #follow, .live")) element.hidden = false;
  }

  listen() {
    this.lists = this.page.episodes.given;
    const source = new EventSource("rows");
    const show = (text) => this.page.say((document.getElementById("state").textContent = text));
    source.onopen = () => show("Live.");
    source.onmessage = ({ data }) => this.take(data);
    source.onerror = () => show(source.readyState === EventSource.CLOSED ? "The server has ended." : "The connection is lost; it is tried again.");
    source.addEventListener("end", () => {
      source.close();
      show("The input has ended.");
    });
  }

  // Takes the text of an event: how many rows are no longer kept, and the rows.
  take(text) {
    const [left, ...rows] = text.split("\n");
    for (const row of rows) {
      const [number, start, end, value] = row.split(",");
      this.page.series[number].take(BigInt(start), end ? BigInt(end) : null, BigInt(value));
    }
    for (const one of this.series) one.drop();
    this.update();
    document.getElementById("left").textContent = left === "0" ? "" : `Older rows that are dropped: ${Number(left).toLocaleString("en")}.`;
  }

  // Takes over what the series have: the whole stretch, what is in view, the episodes and the values.
  update() {
    const { page, others, follows } = this, { anchor, span } = page.view, isWhole = span > Number(page.hi - page.lo) * 0.999;
    const series = this.series.filter(({ count }) => count), latest = (one, other) => (one > other ? one : other);
    if (!series.length) return;
    if (!this.fields.fixed) page.lo = [...others, ...series].map(({ first }) => first).reduce((one, other) => (one < other ? one : other));
    this.now = series.map(({ known }) => known).reduce(latest, page.lo + 1n);
    page.hi = others.map(({ known }) => known).reduce(latest, this.now);
    for (const one of series) one.lastUntil(this.now);
    if (isWhole) page.show(page.lo, 0, Number(page.hi - page.lo), false);
    else if (follows) page.show(anchor, Number(this.now - anchor) - span, span, false);
    const bands = series.filter(({ isBand }) => isBand);
    const lists = bands.map((one) => [one.number, one.episodes.starts, one.episodes.ends, one.lasts && one.data.values.last !== 0n]);
    page.replaceEpisodes([...this.lists, ...lists]);
    page.setCursor(page.cursor);
    page.redraw();
    // The place of the address can be reached only now.
    page.goToPlace(this.place);
    this.place = "";
  }

  // Whether the end of the view is the newest time, as far as can be seen.
  get follows() {
    const { anchor, lo, span } = this.page.view;
    return Math.abs(Number(this.now - anchor) - lo - span) <= span / 1000;
  }

  // Shows so many ticks up to the newest time.
  follow(ticks) {
    const span = Math.min(ticks, Number(this.now - this.page.lo));
    this.page.show(this.now, -span, span);
  }
}
