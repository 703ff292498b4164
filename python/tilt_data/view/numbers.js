// Whole numbers of 64 bits: how they come out of the texts of the page, and as texts with the decimals of their scale.

const LITTLE = new Uint8Array(new Uint16Array([1]).buffer)[0] === 1;

function ceilDiv(value, by) {
  const whole = value / by;
  return value % by !== 0n && value > 0n === by > 0n ? whole + 1n : whole;
}

function floorDiv(value, by) {
  return -ceilDiv(-value, by);
}

function bytesOf(text) {
  if (Uint8Array.fromBase64) return Uint8Array.fromBase64(text);
  const signs = atob(text);
  const bytes = new Uint8Array(signs.length);
  for (let at = 0; at < signs.length; at++) bytes[at] = signs.charCodeAt(at);
  return bytes;
}

// The columns in an element of the page, which has so many.
async function columnsIn(id, many) {
  const packed = new Blob([bytesOf(document.getElementById(id).textContent)]);
  return columnsOf(await new Response(packed.stream().pipeThrough(new DecompressionStream("deflate"))).arrayBuffer(), many);
}

// The columns of a packed text, as coding.py lays them out. A column of 8 bytes has bigints.
function columnsOf(buffer, many) {
  if (!LITTLE) throw new Error("this page needs a little-endian processor");
  const kinds = { 1: Int8Array, 2: Int16Array, 4: Int32Array, 8: BigInt64Array };
  const count = new DataView(buffer).getUint32(0, true);
  let place = Math.ceil((4 + many) / 8) * 8;
  return Array.from(new Uint8Array(buffer, 4, many), (width) => {
    const column = new kinds[width](buffer, place, count);
    place += Math.ceil((count * width) / 8) * 8;
    return column;
  });
}

// Whole numbers in order: each is a base and an offset, which is a number while that is exact, and else a bigint of its own.
class Numbers {
  constructor(base, offsets, exact) {
    this.base = base;
    this.offsets = offsets;
    this.exact = exact;
  }

  at(place) {
    return this.exact ? this.exact[place] : this.base + BigInt(this.offsets[place]);
  }

  // Their distances from an origin, as an array and what is to be added to each.
  from(origin) {
    if (!this.exact) return [this.offsets, Number(this.base - origin)];
    if (this.origin !== origin) {
      this.origin = origin;
      this.distances = Float64Array.from(this.exact, (value) => Number(value - origin));
    }
    return [this.distances, 0];
  }
}

const isWide = (column) => column instanceof BigInt64Array;

// The starts and the ends of rows, from the gaps before them and their lengths.
function timesOf(base, gaps, lengths) {
  const count = gaps.length;
  if (isWide(gaps) || isWide(lengths)) {
    const starts = new BigInt64Array(count), ends = new BigInt64Array(count);
    for (let at = 0, time = base; at < count; at++) {
      starts[at] = time += BigInt(gaps[at]);
      ends[at] = time += BigInt(lengths[at]);
    }
    return [new Numbers(base, null, starts), new Numbers(base, null, ends)];
  }
  const starts = new Float64Array(count), ends = new Float64Array(count);
  for (let at = 0, time = 0; at < count; at++) {
    starts[at] = time += gaps[at];
    ends[at] = time += lengths[at];
  }
  return [new Numbers(base, starts, null), new Numbers(base, ends, null)];
}

// Values, from the first and the change to each.
function valuesOf(base, changes) {
  const count = changes.length;
  if (isWide(changes)) {
    const values = new BigInt64Array(count);
    for (let at = 0, value = base; at < count; at++) values[at] = value = BigInt.asIntN(64, value + changes[at]);
    return new Numbers(base, null, values);
  }
  const values = new Float64Array(count);
  for (let at = 0, value = 0; at < count; at++) values[at] = value += changes[at];
  return new Numbers(base, values, null);
}

// How many digits after the point whole numbers divided by a scale need; 20 if they have no end.
function digitsOfParts(scale) {
  let most = 0;
  for (const factor of [2n, 5n]) {
    let count = 0;
    for (; scale % factor === 0n; count++) scale /= factor;
    most = Math.max(most, count);
  }
  return scale === 1n ? most : 20;
}

// A whole number divided by its scale: exact if the scale has no factors but 2 and 5, else rounded to 20 digits, half to even.
function decimalText(value, scale) {
  if (scale === 1n) return String(value);
  const sign = value < 0n ? "-" : "";
  const size = value < 0n ? -value : value;
  let digits = String(scale).length - 1;
  if (scale === 10n ** BigInt(digits)) {
    const shown = String(size).padStart(digits + 1, "0");
    return `${sign}${shown.slice(0, -digits)}.${shown.slice(-digits)}`;
  }
  digits = digitsOfParts(scale);
  const one = 10n ** BigInt(digits);
  let scaled = (size * one) / scale;
  const twice = 2n * ((size * one) % scale);
  if (twice > scale || (twice === scale && scaled % 2n === 1n)) scaled += 1n;
  const shown = String(scaled % one).padStart(digits, "0").replace(/0+$/, "");
  return `${sign}${scaled / one}${shown && "." + shown}`;
}
