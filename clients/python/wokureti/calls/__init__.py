"""Recordings of calls: captures of RTP, and the streams of VP8 in them."""
