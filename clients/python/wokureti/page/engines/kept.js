// Lists of edits in the browser's store, by the digest of their stream. All pages from the disk share it, so what is
// read is checked as anybody's list.

const [NAME, STORE] = ["wokureti", "lists"];

function settled(request) {
  return new Promise((resolve, reject) => {
    request.onsuccess = () => resolve(request.result);
    request.onerror = () => reject(request.error);
    request.onblocked = () => reject(new Error("the store is in use"));
  });
}

let store = null;

function opened() {
  store ??= (() => {
    const request = indexedDB.open(NAME, 1);
    request.onupgradeneeded = () => request.result.createObjectStore(STORE);
    return settled(request).then((base) => {
      // Whoever deletes the store need not wait for this page, which opens it again.
      base.onversionchange = () => {
        base.close();
        store = null;
      };
      return base;
    });
  })();
  store.catch(() => (store = null));
  return store;
}

/** The text that is kept under a name, or null. */
export async function read(name) {
  const base = await opened();
  const found = await settled(base.transaction(STORE, "readonly").objectStore(STORE).get(name));
  return typeof found?.text === "string" ? found.text : null;
}

/** The lists that were kept last, with edits: the `name` of the stream, the number of `edits`, and `when`. */
export async function recent(most) {
  const base = await opened();
  const found = await settled(base.transaction(STORE, "readonly").objectStore(STORE).getAll());
  return found
    .filter(({ title, edits, time }) => typeof title === "string" && edits > 0 && time > 0)
    .sort((one, other) => other.time - one.time)
    .slice(0, most)
    .map(({ title, edits, time }) => ({ name: title, edits, when: time }));
}

/** Keeps a text under a name: it is on the disk when this returns. `title` is what the stream is called, and `edits`
 * their number. */
export async function write(name, text, title = null, edits = 0) {
  const base = await opened();
  const made = base.transaction(STORE, "readwrite", { durability: "strict" });
  made.objectStore(STORE).put({ text, title, edits, time: Date.now() }, name);
  return new Promise((resolve, reject) => {
    made.oncomplete = () => resolve();
    made.onabort = made.onerror = () => reject(made.error ?? new Error("the store is full"));
  });
}
