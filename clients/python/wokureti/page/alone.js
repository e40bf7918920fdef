// The page in one file, without a server.

import "./engines/wasm.js";
import "./main.js";
