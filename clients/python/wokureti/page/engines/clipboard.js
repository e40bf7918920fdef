// Packets that were copied or cut: they are remembered by their numbers, and not by their indexes, which edits change.

// Packets that a step inserts, at most.
const MOST_PACKETS = 1 << 20;

/** Numbers as pairs of a first one and how many follow each other. */
export function runsOf(numbers) {
  const runs = [];
  for (const number of numbers) {
    const last = runs.at(-1);
    if (last && number === last[0] + last[1]) last[1]++;
    else runs.push([number, 1]);
  }
  return runs;
}

/** What inserts remembered packets: the lines, which begin with the source if that is not the current one, the title of
 * the step, and what is told of it. */
export function pasteOf(streams, current, { numbers, source, at, move }, insertion) {
  if (numbers.reduce((sum, [, count]) => sum + count, 0) > MOST_PACKETS)
    throw new Error(`at most ${MOST_PACKETS} packets are inserted at a time`);
  const board = new Clipboard(streams, numbers, source, at, insertion);
  const { lines, first } = move ? board.moves() : board.copies();
  const { deleted } = board;
  const count = board.numbers.length;
  const title = `${move ? "Move" : "Copy"} ${count} packets to ${first}`;
  return {
    lines: source === current || !lines.length ? lines : [`use ${source}`, ...lines],
    title,
    told: { first, count, deleted, made: lines.length },
  };
}

/** Makes the lines that insert remembered packets before packet `at` of a source. `insertion(number, at)` is the line
 * for one that was deleted since. */
export class Clipboard {
  constructor(streams, runs, source, at, insertion) {
    Object.assign(this, { source, at, insertion });
    this.numbers = runs.flatMap(([first, count]) => Array.from({ length: count }, (_, turn) => first + turn));
    const wanted = new Set(this.numbers);
    this.places = new Map();
    streams.forEach((stream, other) => stream.forEach((number, index) =>
      wanted.has(number) && this.places.set(number, [other, index]),
    ));
  }

  get deleted() {
    return this.numbers.filter((number) => !this.places.has(number)).length;
  }

  /** The packets are inserted, and stay where they are. */
  copies() {
    const lines = this.numbers.map((number, turn) => {
      if (!this.places.has(number)) return this.insertion(number, this.at + turn);
      const [source, index] = this.places.get(number);
      // Packets after the copies are further on by as many as were copied.
      return `copy ${source} ${index + (source === this.source && index >= this.at ? turn : 0)} ${this.at + turn}`;
    });
    return { lines, first: this.at };
  }

  /** The packets are taken away from where they are. */
  moves() {
    const places = [...this.places.values()];
    const others = [...new Set(places.map(([source]) => source))]
      .filter((source) => source !== this.source)
      .sort((one, other) => one - other);
    if (!others.length) return this.movesInside();
    const { lines, first } = this.copies();
    for (const source of others) {
      const indexes = places.filter(([other]) => other === source)
        .map(([, index]) => index)
        .sort((one, other) => other - one);
      lines.push(`use ${source}`, ...indexes.map((index) => `delete ${index}`));
    }
    return { lines: [...lines, `use ${this.source}`], first };
  }

  /** The same of packets of one source. If they were moved since, they stay in the order in which they are now, those
   * that were deleted at the end. */
  movesInside() {
    const place = (number) => this.places.get(number)?.[1] ?? Infinity;
    const numbers = [...this.numbers];
    const here = numbers.filter((number) => this.places.has(number)).map(place);
    if (here.some((index, turn) => turn && index < here[turn - 1]))
      numbers.sort((one, other) => place(one) - place(other) || 0);
    const taken = new Set(here);
    let { at } = this;
    while (taken.has(at - 1)) at--;
    // Where the next one goes, how many were taken away before that, and how many were inserted.
    let [to, before, inserted] = [at, 0, 0];
    const lines = [];
    for (const number of numbers) {
      const index = place(number);
      if (index === Infinity) {
        lines.push(this.insertion(number, to));
        inserted++;
      } else if (index < at) {
        lines.push(`move ${index - before} ${to - 1}`);
        before++;
        continue;
      } else if (index + inserted !== to) lines.push(`move ${index + inserted} ${to}`);
      to++;
    }
    return { lines, first: to - numbers.length };
  }
}
