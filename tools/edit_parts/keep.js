// The texts are kept in this browser, each change as it is made; a page finds its own again after a
// reload, and a new one begins with the last that was changed in any.

const MOST_KEPT = 20; // records: one for each page that was open
const OWN = "scatter-page"; // where a tab of the browser notes which record is its own

const keep = {
  store: null, // the data base, or null where the browser has none
  id: "",
  next: null, // what is to be written once what is written is there
  isWriting: false,
  onFault: () => {},

  /** Opens the data base; what this page begins with: its own record, the last one, or nothing. */
  async begin() {
    try {
      this.store = await this.opened();
      const own = sessionStorage.getItem(OWN);
      const all = await this.done(this.all("readonly").getAll());
      all.sort((one, other) => other.time - one.time);
      const found = all.find((one) => one.id === own) ?? all[0] ?? null;
      this.id = `${Date.now()}.${PAGE}`;
      sessionStorage.setItem(OWN, this.id);
      const old = all.slice(MOST_KEPT - 1).filter((one) => one !== found);
      if (old.length) {
        const records = this.all("readwrite");
        for (const one of old) records.delete(one.id);
      }
      return found;
    } catch {
      this.store = null;
      return null;
    }
  },

  opened() {
    const asked = indexedDB.open("scatter", 1);
    asked.onupgradeneeded = () => asked.result.createObjectStore("texts", { keyPath: "id" });
    return this.done(asked);
  },

  done(asked) {
    return new Promise((resolve, reject) => {
      asked.onsuccess = () => resolve(asked.result);
      asked.onerror = () => reject(asked.error);
    });
  },

  all(mode) {
    const how = { durability: "strict" }; // it is on the disk when it is done
    return this.store.transaction("texts", mode, how).objectStore("texts");
  },

  /** Writes a record; the last one where several come while one is written. */
  async write(record) {
    if (!this.store) return;
    this.next = { ...record, id: this.id, time: Date.now() };
    if (this.isWriting) return;
    this.isWriting = true;
    while (this.next) {
      const one = this.next;
      this.next = null;
      try {
        await this.written(one);
      } catch {
        this.onFault("the browser does not keep the text: save it as a file");
        break;
      }
    }
    this.isWriting = false;
  },

  written(record) {
    const records = this.all("readwrite");
    records.put(record);
    return new Promise((resolve, reject) => {
      records.transaction.oncomplete = resolve;
      records.transaction.onerror = () => reject(records.transaction.error);
      records.transaction.onabort = () => reject(records.transaction.error);
    });
  },
};
