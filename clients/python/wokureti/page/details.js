// Replies of several lines, each an object, and what is said of one packet.

export function objectsOf(reply) {
  return reply.split("\n").slice(1).filter((line) => line).map((line) => JSON.parse(line));
}

/** What `header` or `macroblocks` replies of a packet: objects; or that it has no bytes, `repeats`, or the packet that
 * is refused and the cause. */
export function detailsOf(reply) {
  const objects = objectsOf(reply);
  const [first] = objects.length === 1 ? objects : [{}];
  if (first.refused !== undefined)
    return { objects: [], repeats: false, refused: { packet: first.refused, cause: first.cause } };
  return { objects: first.repeats ? [] : objects, repeats: Boolean(first.repeats), refused: null };
}
