// The page's end of the worker. Not proved.

export class Caller {
  constructor(source, module) {
    this.worker = new Worker(URL.createObjectURL(new Blob([source], { type: "text/javascript" })));
    this.waiting = new Map();
    this.last = 0;
    this.worker.onmessage = ({ data }) => {
      this.waiting.get(data.id)(data.said);
      this.waiting.delete(data.id);
    };
    this.ready = this.send({ module });
  }

  send(message) {
    const id = ++this.last;
    this.worker.postMessage({ id, ...message });
    return new Promise(done => this.waiting.set(id, done));
  }

  ask(what, message) {
    return this.send({ what, ...message });
  }
}

// Of what is asked for while an answer is under way, only the newest is asked for afterwards. `want` ends when nothing is left to be asked.
export class Newest {
  constructor(ask) {
    this.ask = ask;
    this.next = null;
    this.work = null;
  }

  want(what) {
    this.next = what;
    this.work ??= this.askAll().finally(() => (this.work = null));
    return this.work;
  }

  async askAll() {
    while (this.next !== null) {
      const now = this.next;
      this.next = null;
      await this.ask(now);
    }
  }
}
