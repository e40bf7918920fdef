// The page over a server.

import "./engines/http.js";
import "./main.js";
