"""Random lists of requests."""


def requests(chance, sources, packets, counts):
    """A list of requests: frames, edits of every kind, scripts, and lines that are none. The number of steps is asked
    for if it `counts`.
    """
    lines = []
    for _ in range(chance.randrange(1, 40)):
        at = chance.randrange(packets + 3)
        other = chance.randrange(sources + 1)
        lines.append(
            chance.choice(
                [
                    f"frame {at}",
                    f"frame {at}",
                    f"frame {at}",
                    f"delete {at}",
                    f"move {at} {chance.randrange(packets)}",
                    f"copy {other} {at} {chance.randrange(packets)}",
                    f"blank {at} {chance.choice((16, 176, 175))} {chance.choice((16, 144, 143))}",
                    f"hold {at}",
                    f"insert {at} {at} {chance.choice(('-', '1100', '110000', 'zz'))}",
                    f"replace {at} {chance.choice(('-', '300000', '110000'))}",
                    f"use {other}",
                    f"script trim {other} {at} {at + 9}",
                    "script -",
                    f"script trim 0 0 20; fade 1 2 {chance.randrange(1, 9)} 256 0",
                    "script crop 0 0 0 16 16",
                    "script splice 0 9",
                    "count",
                    "stats" if counts else "count",
                    "",
                    "# nothing",
                    "frame",
                    f"frame 0{at}\r",
                ]
            )
        )
    return "\n".join(lines) + "\n"


def questions(chance, packets):
    """A list of questions about packets, frames and the script."""
    asked = []
    for _ in range(chance.randrange(1, 8)):
        at = chance.randrange(packets + 3)
        asked.append(
            chance.choice(
                (
                    f"list {at} 4",
                    f"origins {at} 4",
                    f"header {at}",
                    f"macroblocks {at}",
                    f"check 0 {at}",
                    f"packet {at}",
                    "script",
                )
            )
        )
    return "\n".join(asked) + "\n"
