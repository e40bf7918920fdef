"""VP8 in plain Python, written from RFC 6386: tables, bits, a parser, a decoder and a writer of packets. Slow, for
small pictures.
"""
