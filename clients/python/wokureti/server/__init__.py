"""An edited stream that is served: `wokureti serve` and `wokureti mount`."""
