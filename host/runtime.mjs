// The runtime of compiled programs in JavaScript: `rt` has the 45 functions of docs/runtime.md.
//
// An integer is a BigInt, a text a string without lone surrogates, and the members of an object are its own enumerable
// properties. Nothing that is handed in is changed; what is given may share with it. No proof speaks of this file:
// `tools/engine` tries it by the rows.

// An integer leaves 64 bits. An engine throws other RangeErrors too, as where its stack is too small.
export class Range extends RangeError {}

// An argument is of another kind than its function takes, or there are more or fewer than it takes.
export class Stuck extends Error {}

function stuck() {
  throw new Stuck("an argument of another kind, or another number of arguments");
}

// What objects are made of here. They inherit nothing, so that `__proto__` is a name as any other.
export function Members() {}
Members.prototype = Object.create(null);

// ---- kinds

const int = (a) => (typeof a === "bigint" ? a : stuck());
const text = (a) => (typeof a === "string" ? a : stuck());
const truth = (a) => (typeof a === "boolean" ? a : stuck());
const array = (a) => (Array.isArray(a) ? a : stuck());
const ints = (a) => (array(a).every((n) => typeof n === "bigint") ? a : stuck());
const isObject = (a) => typeof a === "object" && a !== null && !Array.isArray(a);
const has = Object.hasOwn;

const isMarker = (name) => name === "$left" || name === "$right" || name === "$class" || name === "$data";
const hasMarker = (a) => has(a, "$left") || has(a, "$right") || has(a, "$class") || has(a, "$data");

// A plain object: one without markers.
const plain = (a) => (isObject(a) && !hasMarker(a) ? a : stuck());

// A value on a side: an object of the one marker.
const isSide = (a) => isObject(a) && (has(a, "$left") || has(a, "$right")) && Object.keys(a).length === 1;
const side = (a) => (isSide(a) ? a : stuck());

// A class's value: an object of the two markers, where the class is a text.
const isClassed = (a) => isObject(a) && has(a, "$class") && has(a, "$data") && typeof a.$class === "string";
const classed = (a) => (isClassed(a) && Object.keys(a).length === 2 ? a : stuck());

// Parameters: a name, names, and an integer other than 0.
const name = (a) => (isMarker(text(a)) ? stuck() : a);
const names = (a) => {
  array(a).forEach(name);
  return a;
};
const divisor = (a) => (int(a) === 0n ? stuck() : a);

// ---- the forms of values

// The integer, which is to have 64 bits.
const made = (n) => {
  if (n !== BigInt.asIntN(64, n)) {
    throw new Range("an integer outside 64 bits");
  }
  return n;
};

const object = (name, value) => {
  const members = new Members();
  members[name] = value;
  return members;
};
const left = (a) => object("$left", a);
const right = (a) => object("$right", a);
const none = () => right(null);

// ---- order

const isSurrogate = (unit) => unit >= 0xd800 && unit < 0xe000;

// How two texts compare by their characters: as their UTF-16 units do, but that surrogates stand above all others.
export function compareTexts(a, b) {
  const end = Math.min(a.length, b.length);
  for (let i = 0; i < end; i++) {
    const [s, t] = [a.charCodeAt(i), b.charCodeAt(i)];
    if (s !== t) {
      return isSurrogate(s) - isSurrogate(t) || s - t;
    }
  }
  return a.length - b.length;
}

const compareUnits = (a, b) => (a < b ? -1 : a > b ? 1 : 0);

// How the first of two integers or two texts stands to the second.
const compared = (a, b) => (typeof a === "string" ? compareTexts(a, text(b)) : compareUnits(int(a), int(b)));

// ---- sameness

const textKey = (a) => `s${a.length}:${a}`;
const memberKey = (a, name) => textKey(name) + canon(a[name]);

// A text that two values have in common just where they are the same. None is a front of another.
function canon(a) {
  switch (typeof a) {
    case "bigint":
      return `i${a};`;
    case "string":
      return textKey(a);
    case "boolean":
      return a ? "t" : "f";
  }
  if (a === null) {
    return "n";
  }
  if (Array.isArray(a)) {
    return `[${a.map(canon).sort().join("")}]`;
  }
  const sorted = Object.keys(a).sort();
  return `{${sorted.map((name) => memberKey(a, name)).join("")}}`;
}

// What two values have in common, as a key of a map, just where they are the same: a scalar's key is at hand.
const keyOf = (a) => (typeof a === "string" ? "s" + a : typeof a === "object" && a !== null ? canon(a) : a);

const same = (a, b) => a === b || (typeof a === "object" && typeof b === "object" && canon(a) === canon(b));

// ---- arrays by the copies of their members

// How many copies there are, by keys.
function tally(members) {
  const counts = new Map();
  for (const a of members) {
    const key = keyOf(a);
    counts.set(key, (counts.get(key) ?? 0) + 1);
  }
  return counts;
}

// Whether the tally has a copy of the value, which is taken off it.
function takes(counts, a) {
  const key = keyOf(a);
  const count = counts.get(key) ?? 0;
  if (count > 0) {
    counts.set(key, count - 1);
  }
  return count > 0;
}

// Whether the value is the first with its key, which is then seen.
function isFirst(seen, a) {
  const before = seen.size;
  return seen.add(keyOf(a)).size > before;
}

function distinct(x) {
  const seen = new Set();
  return array(x).filter((a) => isFirst(seen, a));
}

function except(x, y) {
  const counts = tally(array(y));
  return array(x).filter((a) => !takes(counts, a));
}

function intersect(x, y) {
  const counts = tally(array(y));
  return array(x).filter((a) => takes(counts, a));
}

function member(x, y) {
  if (typeof x !== "object" || x === null) {
    return array(y).includes(x);
  }
  const key = canon(x);
  return array(y).some((a) => typeof a === "object" && canon(a) === key);
}

// ---- objects

const dot = (n, x) => (has(plain(x), name(n)) ? x[n] : stuck());

function project(ns, x) {
  const part = new Members();
  plain(x);
  for (const name of names(ns)) {
    part[name] = dot(name, x);
  }
  return part;
}

const over = (x, y) => Object.assign(new Members(), x, y);
const agree = (x, y) => Object.keys(x).every((name) => !has(y, name) || same(x[name], y[name]));

// ---- rows

// The values of a column of one kind by a comparison that is quick for them all, as a comparison of two places.
function comparison(values, isRising) {
  const [quick, compare] = quickly(values);
  return isRising ? (i, j) => compare(quick[i], quick[j]) : (i, j) => compare(quick[j], quick[i]);
}

// The values, or others that stand in the same order, and how they compare.
function quickly(values) {
  if (values.every((a) => typeof a === "bigint")) {
    const numbers = values.map(Number);
    return numbers.every(Number.isSafeInteger) ? [numbers, (a, b) => a - b] : [values, compareUnits];
  }
  if (values.every((a) => typeof a === "string")) {
    return [values, values.some((a) => /[\ud800-\udfff]/.test(a)) ? compareTexts : compareUnits];
  }
  return values.every((a) => typeof a === "boolean") ? [values, compareUnits] : stuck();
}

// How the rows at two places compare: as they do in the first column where they do not tie.
function inTurn(columns) {
  return (i, j) => {
    let order = 0;
    for (let k = 0; order === 0 && k < columns.length; k++) {
      order = columns[k](i, j);
    }
    return order;
  };
}

function order(ns, directions, x) {
  const rising = array(directions).map(truth);
  if (names(ns).length !== rising.length) {
    stuck();
  }
  const rows = array(x);
  rows.forEach(plain);
  const columns = ns.map((name, k) => comparison(rows.map((row) => dot(name, row)), rising[k]));
  const places = rows.map((_, i) => i).sort(inTurn(columns));
  return places.map((i) => rows[i]);
}

function group(n, ns, x) {
  if (names(ns).includes(name(n))) {
    stuck();
  }
  const groups = new Map();
  for (const row of array(x)) {
    plain(row);
    const key = ns.map((name) => canon(dot(name, row))).join("");
    const found = groups.get(key);
    if (found) {
      found[n].push(row);
    } else {
      groups.set(key, over(project(ns, row), object(n, [row])));
    }
  }
  return [...groups.values()];
}

// ---- patterns

// Whether the characters of a pattern match all of a text's, from the left; behind a `%`, from the first place where
// what follows up to the next one matches.
function matches(pattern, letters) {
  let [p, c, run, from] = [0, 0, -1, 0];
  while (c < letters.length) {
    if (pattern[p] === "%") {
      run = p++;
      from = c;
    } else if (pattern[p] === "_" || pattern[p] === letters[c]) {
      p++;
      c++;
    } else if (run >= 0) {
      p = run + 1;
      c = ++from;
    } else {
      return false;
    }
  }
  while (pattern[p] === "%") {
    p++;
  }
  return p === pattern.length;
}

// ---- the table

const total = (x) => ints(x).reduce((a, b) => a + b, 0n);
const extreme = (x, isBetter) => (ints(x).length ? left(x.reduce((a, b) => (isBetter(b, a) ? b : a))) : none());
const mean = (x) => (ints(x).length ? left(made(total(x) / BigInt(x.length))) : none());
const sized = (n) => made(n < 0n ? -n : n);

// The functions, which take arguments of any kind, but of their number.
const functions = {
  not: (x) => !truth(x),
  neg: (x) => made(-int(x)),
  abs: (x) => sized(int(x)),
  divby: (k, x) => made(int(x) / divisor(k)),
  modby: (k, x) => made(int(x) % divisor(k)),
  count: (x) => BigInt(array(x).length),
  sum: (x) => made(total(x)),
  min: (x) => extreme(x, (a, b) => a < b),
  max: (x) => extreme(x, (a, b) => a > b),
  avg: (x) => mean(x),
  element: (x) => (array(x).length === 1 ? left(x[0]) : none()),
  flatten: (x) => array(x).flatMap(array),
  distinct,
  single: (x) => [x],
  rec: (n, x) => object(name(n), x),
  dot,
  project,
  left,
  right,
  brand: (n, x) => over(object("$class", name(n)), object("$data", x)),
  unbrand: (x) => classed(x).$data,
  cast: (classes, x) => (names(classes).includes(classed(x).$class) ? left(x) : none()),
  order,
  group,
  like: (pattern, x) => matches([...text(pattern)], [...text(x)]),
  eq: same,
  lt: (x, y) => compared(x, y) < 0,
  le: (x, y) => compared(x, y) <= 0,
  and: (x, y) => Boolean(truth(x) & truth(y)),
  or: (x, y) => Boolean(truth(x) | truth(y)),
  add: (x, y) => made(int(x) + int(y)),
  sub: (x, y) => made(int(x) - int(y)),
  mul: (x, y) => made(int(x) * int(y)),
  least: (x, y) => (int(y) < int(x) ? y : x),
  greatest: (x, y) => (int(y) > int(x) ? y : x),
  union: (x, y) => array(x).concat(array(y)),
  except,
  intersect,
  member,
  cat: (x, y) => over(plain(x), plain(y)),
  merge: (x, y) => (agree(plain(x), plain(y)) ? [over(x, y)] : []),
  glue: (x, y) => text(x) + text(y),
  nothing: () => new Members(),
  isleft: (x) => has(side(x), "$left"),
  payload: (x) => (has(side(x), "$left") ? x.$left : x.$right),
};

// A function that takes so many arguments and no other number. A variable without a value is none.
const taking = [
  (f) => function () {
    return arguments.length === 0 ? f() : stuck();
  },
  (f) => function (a) {
    return arguments.length === 1 && a !== undefined ? f(a) : stuck();
  },
  (f) => function (a, b) {
    return arguments.length === 2 && a !== undefined && b !== undefined ? f(a, b) : stuck();
  },
  (f) => function (a, b, c) {
    return arguments.length === 3 && c !== undefined ? f(a, b, c) : stuck();
  },
];

// The runtime: its functions by their words.
const counted = ([word, f]) => [word, taking[f.length](f)];
export const rt = Object.freeze(Object.fromEntries(Object.entries(functions).map(counted)));

// The function of the input and of `rt` that a text is. In brackets, so that the text may begin with a comment.
export const functionOf = (text) => new Function(`return (${text}\n);`)();
