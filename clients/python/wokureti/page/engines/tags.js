// What is known of each packet by its first byte and its size.

export const [KEY, SHOWN, EMPTY] = [1, 2, 8];

export function tagOf(size, first) {
  if (size < 3) return SHOWN | (size ? 0 : EMPTY);
  return (first & 1 ? 0 : KEY) | (first & 16 ? SHOWN : 0);
}
