// JSON texts of trees whose numbers are integers of 64 bits, exactly as `qcert` reads and writes them: integers are
// BigInts, and names are written in rising order.
import { Members, compareTexts } from "./runtime.mjs";

// The deepest nesting that is read.
const DEPTH = 127;
const BLANKS = /[ \t\r\n]*/y;
const NUMBER = /-?(?:0|[1-9][0-9]*)(?:\.[0-9]+)?(?:[eE][-+]?[0-9]+)?/y;
const INTEGER = /^(?:0|-?[1-9][0-9]*)$/;
// The least length of a slice that an engine may leave in the text that it is of, which makes it slow to compare.
const SHARED = 13;
const WORDS = [["null", null], ["true", true], ["false", false]];

// The text is no JSON, or has a number that is no integer of 64 bits.
export class BadJson extends Error {}

// The tree of a text, which is a string, or bytes in UTF-8.
export function readJson(text) {
  const reader = new Reader(typeof text === "string" ? text : decoded(text));
  const tree = reader.value(0);
  reader.end();
  if (reader.isOdd) {
    checkIntegers(tree);
  }
  return tree;
}

function decoded(bytes) {
  try {
    return new TextDecoder("utf-8", { fatal: true, ignoreBOM: true }).decode(bytes);
  } catch {
    throw new BadJson("bytes that are not UTF-8");
  }
}

// Of a repeated name the last value counts, so other numbers are left in the tree at first, as numbers.
function checkIntegers(tree) {
  if (typeof tree === "number") {
    throw new BadJson("a number that is no integer of 64 bits");
  }
  if (typeof tree === "object" && tree !== null) {
    Object.values(tree).forEach(checkIntegers);
  }
}

class Reader {
  constructor(text) {
    this.text = text;
    this.at = 0;
    this.isOdd = false;
  }

  bad() {
    throw new BadJson(`no JSON at character ${this.at}`);
  }

  // Passes blanks, and tells the unit that follows.
  next() {
    const unit = this.text.charCodeAt(this.at);
    if (unit > 32) {
      return unit;
    }
    BLANKS.lastIndex = this.at;
    BLANKS.test(this.text);
    this.at = BLANKS.lastIndex;
    return this.text.charCodeAt(this.at);
  }

  // Whether the mark follows, which is passed then.
  passes(mark) {
    const follows = this.next() === mark.charCodeAt(0);
    this.at += follows ? 1 : 0;
    return follows;
  }

  end() {
    if (!Number.isNaN(this.next())) {
      this.bad();
    }
  }

  value(depth) {
    switch (this.next()) {
      case 0x22:
        return this.string();
      case 0x5b:
        return this.array(depth + 1);
      case 0x7b:
        return this.object(depth + 1);
    }
    for (const [word, value] of WORDS) {
      if (this.text.startsWith(word, this.at)) {
        this.at += word.length;
        return value;
      }
    }
    return this.number();
  }

  open(depth) {
    if (depth > DEPTH) {
      this.bad();
    }
    this.at++;
  }

  array(depth) {
    const items = [];
    this.open(depth);
    if (this.passes("]")) {
      return items;
    }
    do {
      items.push(this.value(depth));
    } while (this.passes(","));
    return this.passes("]") ? items : this.bad();
  }

  object(depth) {
    const members = new Members();
    this.open(depth);
    if (this.passes("}")) {
      return members;
    }
    do {
      const name = this.next() === 0x22 ? this.string() : this.bad();
      members[name] = this.passes(":") ? this.value(depth) : this.bad();
    } while (this.passes(","));
    return this.passes("}") ? members : this.bad();
  }

  // The string at a quote.
  string() {
    const start = this.at + 1;
    let end = this.text.indexOf('"', start);
    while (end >= 0 && this.isEscaped(end)) {
      end = this.text.indexOf('"', end + 1);
    }
    if (end < 0) {
      this.bad();
    }
    const inner = this.text.slice(start, end);
    const string = inner.length >= SHARED || /[\\\u0000-\u001f]/.test(inner) ? this.unescaped(inner) : inner;
    this.at = end + 1;
    return string;
  }

  // Whether an odd number of backslashes stands before the place.
  isEscaped(place) {
    let start = place;
    while (this.text[start - 1] === "\\") {
      start--;
    }
    return (place - start) % 2 === 1;
  }

  // The characters of a string without its quotes. Surrogates stand in pairs.
  unescaped(inner) {
    try {
      const string = JSON.parse(`"${inner}"`);
      return string.isWellFormed() ? string : this.bad();
    } catch {
      return this.bad();
    }
  }

  // An integer, or a number that is none.
  number() {
    NUMBER.lastIndex = this.at;
    const found = NUMBER.exec(this.text);
    if (!found || !Number.isFinite(Number(found[0]))) {
      this.bad();
    }
    this.at = NUMBER.lastIndex;
    const integer = INTEGER.test(found[0]) ? BigInt(found[0]) : null;
    if (integer !== null && integer === BigInt.asIntN(64, integer)) {
      return integer;
    }
    this.isOdd = true;
    return Number(found[0]);
  }
}

// The one text of a tree: compact, and with the names of objects in rising order.
export function writeJson(tree) {
  switch (typeof tree) {
    case "bigint":
    case "boolean":
      return String(tree);
    case "string":
      return JSON.stringify(tree);
    case "object":
      return tree === null ? "null" : Array.isArray(tree) ? `[${tree.map(writeJson).join(",")}]` : writeObject(tree);
  }
  throw new TypeError("a value that is no tree");
}

function writeObject(members) {
  const sorted = Object.keys(members).sort(compareTexts);
  return `{${sorted.map((name) => `${JSON.stringify(name)}:${writeJson(members[name])}`).join(",")}}`;
}
